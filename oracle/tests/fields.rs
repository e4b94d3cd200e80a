//! Fields at their limits, by hand: on the library, where it is linked, and on the model.

use oracle::case::Kind;
use oracle::subject::{Aim, subjects};

/// Reply, direction and field on each subject.
fn found(kind: Kind, from: u64, to: u64, expected: (u64, u8, u32)) {
    for subject in subjects() {
        let (mut backward, mut field) = (0xA5, 0xA5A5_A5A5);
        let reply = subject.field(kind, from, to, Aim { backward: &mut backward, field: &mut field });
        assert_eq!((reply, backward, field), expected, "{} {kind:?} from {from:x} to {to:x}", subject.name());
    }
}

#[test]
fn branches() {
    found(Kind::Branch, 0x40000, 0x40000, (0, 0, 0));
    found(Kind::Branch, 0x40000, 0x7fffc, (0, 0, 65535));
    found(Kind::Branch, 0x40000, 0x80000, (21, 0, 0));
    found(Kind::Branch, 0x40000, 0x3fffc, (0, 1, 65535));
    found(Kind::Branch, 0x40000, 0, (0, 1, 0));
    found(Kind::Branch, 0x40000, 4u64.wrapping_neg(), (21, 0, 0));
}

#[test]
fn jumps() {
    found(Kind::Jump, 0, 0x3fffffc, (0, 0, 0xffffff));
    found(Kind::Jump, 0, 0x4000000, (21, 0, 0));
    found(Kind::Jump, 0, 0x4000000u64.wrapping_neg(), (0, 1, 0));
    found(Kind::Jump, 0, 0x4000004u64.wrapping_neg(), (21, 0, 0));
}

#[test]
fn low_bits_and_the_end_of_memory() {
    for low in 1..4 {
        found(Kind::Branch, 0x1000, 0x1000 + low, (21, 0, 0));
        found(Kind::Jump, 0x1000 + low, 0x1000, (21, 0, 0));
        found(Kind::Jump, 0x1000 + low, 0x1004 + low, (0, 0, 1));
    }
    found(Kind::Branch, 1u64.wrapping_neg(), 3, (0, 0, 1));
    found(Kind::Branch, 3, 1u64.wrapping_neg(), (0, 1, 65535));
    found(Kind::Jump, 0, 1 << 63, (21, 0, 0));
}
