//! Fields of branches and jumps: the instruction that has one, and the cases of the functions that find one.

use crate::case::{Call, Case, Instruction, Kind};
use crate::opcodes::{BZ, JMP};
use crate::random::Random;
use crate::reference::Answer;
use crate::state::{RG, State};

/// A step at `from` with that field: JMP or JMPB, or BZ or BZB on a register that is 0, which is taken.
pub fn patched(kind: Kind, backward: bool, field: u32, from: u64) -> Case {
    let [_, x, y, z] = field.to_be_bytes();
    let (op, x) = match kind {
        Kind::Branch => (BZ, 7),
        Kind::Jump => (JMP, x),
    };
    let mut state = State::zero();
    (state.special[RG], state.pc) = (32, from);
    Case::none(Call::Step(Instruction { op: op + backward as u8, x, y, z }), state)
}

fn case(kind: Kind, from: u64, offset: u64) -> Case {
    Case::none(Call::Field { kind, from, to: from.wrapping_add(offset) }, State::zero())
}

/// Where the answer turns: no distance, one field too many in each direction, half of all addresses.
fn turns(kind: Kind) -> [u64; 4] {
    let reach = 4 * kind.size() as u64;
    [0, reach, reach.wrapping_neg(), 1 << 63]
}

/// From any address by an offset at a turn, of either direction, or any.
pub fn single(random: &mut Random, kind: Kind) -> Case {
    let from = random.value() & random.pick(&[!0, !3]);
    let ahead = 4 * random.below(kind.size() as u64);
    let offset = match random.below(6) {
        0 => random.pick(&turns(kind)).wrapping_add(random.below(32)).wrapping_sub(16),
        1 | 2 => ahead,
        3 | 4 => (ahead + 4).wrapping_neg(),
        _ => random.value(),
    };
    case(kind, from, offset)
}

/// All offsets near each turn, misaligned ones too, from addresses at both ends of memory and in its middle.
pub fn sweep(run: &mut dyn FnMut(&Case) -> Option<Answer>) -> Option<()> {
    const NEAR: u64 = 80;
    const MIDDLE: u64 = 1 << 63;
    const LAST: u64 = u64::MAX;
    let from = [0, 1, 2, 3, 4, 0x40000, MIDDLE - 4, MIDDLE - 1, MIDDLE, MIDDLE + 2, LAST - 6, LAST - 3, LAST];
    for kind in [Kind::Branch, Kind::Jump] {
        for (from, turn) in from.iter().flat_map(|from| turns(kind).map(|turn| (*from, turn))) {
            for near in 0..=2 * NEAR {
                run(&case(kind, from, turn.wrapping_add(near).wrapping_sub(NEAR)))?;
            }
        }
    }
    Some(())
}
