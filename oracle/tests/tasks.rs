//! Calls of several tasks by hand, on the library, where it is linked, and on the model: whose turn it is, what stops a task, 32 at every edge of a part, what
//! refuses a call whole and in which order.

use oracle::lent::{Window, Windows};
use oracle::opcodes::*;
use oracle::state::*;
use oracle::subject::{Told, subjects};

const SIZE: u64 = 256;

/// Two windows: a program of `count` SWYMs and then TRAP 0,0,0 at each multiple of 0x100 in A; B is zeros at the stack start.
fn windows(counts: &[u64]) -> Windows {
    let mut a = vec![0; 0x100 * counts.len().max(1)];
    for (k, count) in counts.iter().enumerate() {
        (0..*count as usize).for_each(|i| a[0x100 * k + 4 * i] = SWYM);
    }
    Windows { a: Window { base: 0, bytes: a }, b: Window { base: STACK_START, bytes: vec![0; SIZE as usize] } }
}

/// A SWYM and a jump back to it: it never stops.
fn forever(windows: &mut Windows, k: usize) {
    windows.a.bytes[0x100 * k..0x100 * k + 8].copy_from_slice(&[SWYM, 0, 0, 0, JMPB, 0xFF, 0xFF, 0xFF]);
}

fn state(k: usize, ro: u64) -> State {
    let mut state = State::zero();
    (state.special[RG], state.special[RL], state.special[RO], state.pc) = (32, 0, STACK_START + ro, 0x100 * k as u64);
    state.special[RS] = state.special[RO];
    state
}

/// So many parts of 64 bytes, side by side.
fn quarters(count: u64) -> Vec<u64> {
    (0..count).flat_map(|k| [64 * k % SIZE, if k < 4 { 64 } else { 0 }]).collect()
}

struct Left {
    reply: u64,
    counts: [u64; 8],
    refusals: [u64; 8],
    states: Vec<State>,
    windows: Windows,
}

/// The call on each subject; they must agree, and a call refused whole must leave all.
fn call(q: u64, grant: u64, states: &[State], parts: &[u64], windows: &Windows) -> Left {
    let given: Vec<u8> = states.iter().flat_map(|s| s.image()).collect();
    let mut all = subjects().into_iter().map(|subject| {
        let (mut images, mut lent, mut counts, mut refusals) = (given.clone(), windows.clone(), [9; 8], [9; 8]);
        let told = Told { counts: &mut counts, refusals: &mut refusals };
        let reply = subject.tasks(q, grant, &mut images, parts, lent.lend(), told);
        if reply != 0 {
            assert!(
                (counts, refusals) == ([0; 8], [0; 8]) && images == given && lent == *windows,
                "{}",
                subject.name()
            );
        }
        let states = images.chunks_exact(IMAGE_LEN).map(State::of_image).collect();
        Left { reply, counts, refusals, states, windows: lent }
    });
    let first = all.next().expect("a subject");
    for other in all {
        assert_eq!((first.reply, first.counts, first.refusals), (other.reply, other.counts, other.refusals));
        assert!(first.states == other.states && first.windows == other.windows);
    }
    first
}

/// Three programs that never stop.
fn three() -> (Vec<State>, Windows) {
    let mut windows = windows(&[0, 0, 0]);
    (0..3).for_each(|k| forever(&mut windows, k));
    ((0..3).map(|k| state(k, 64 * k as u64)).collect(), windows)
}

#[test]
fn turns_in_order() {
    let (states, windows) = three();
    for (q, grant, counts) in
        [(2, 10, [4, 4, 2]), (7, 100, [35, 35, 30]), (1000, 7, [7, 0, 0]), (1, 0, [0, 0, 0]), (1, 1, [1, 0, 0])]
    {
        let left = call(q, grant, &states, &quarters(3), &windows);
        assert_eq!((left.reply, &left.counts[..3], left.refusals), (0, &counts[..], [0; 8]), "q {q}, grant {grant}");
    }
}

#[test]
fn a_stopped_task_is_passed_over() {
    let mut windows = windows(&[0, 1, 0]);
    [0, 2].into_iter().for_each(|k| forever(&mut windows, k));
    let states: Vec<State> = (0..3).map(|k| state(k, 64 * k as u64)).collect();
    let left = call(3, 11, &states, &quarters(3), &windows);
    assert_eq!((&left.counts[..3], &left.refusals[..3]), (&[6, 1, 4][..], &[0, 4, 0][..]));
}

#[test]
fn all_stop() {
    let windows = windows(&[1, 0, 3]);
    let states: Vec<State> = (0..3).map(|k| state(k, 64 * k as u64)).collect();
    let left = call(2, 1000, &states, &quarters(3), &windows);
    assert_eq!((left.reply, left.counts, left.refusals), (0, [1, 0, 3, 0, 0, 0, 0, 0], [4, 4, 4, 0, 0, 0, 0, 0]));
}

#[test]
fn nineteen_and_twenty_keep_what_they_wrote() {
    let mut windows = windows(&[0, 0]);
    windows.a.bytes[..4].copy_from_slice(&[TRIP, 1, 2, 3]);
    windows.a.bytes[0x100..0x104].copy_from_slice(&[TRAP, 1, 2, 3]);
    let left = call(5, 10, &[state(0, 0), state(1, 64)], &quarters(2), &windows);
    assert_eq!((&left.counts[..2], &left.refusals[..2]), (&[0, 0][..], &[19, 20][..]));
    assert_eq!((left.states[0].special[RW], left.states[0].halt), (4, 1));
    assert_eq!((left.states[1].special[RWW], left.states[1].halt), (0x104, 1));
}

/// Task 1 of three, on the part from 64 to 128 of 192 bytes in parts, does one instruction; what stops it, and whether all is as it was.
fn asks(instruction: [u8; 4], set: impl Fn(&mut State)) -> u64 {
    let (mut states, mut windows) = three();
    windows.a.bytes[0x100..0x104].copy_from_slice(&instruction);
    set(&mut states[1]);
    let left = call(1, 3, &states, &[0, 64, 64, 64, 128, 64], &windows);
    if left.refusals[1] == 32 {
        assert!(left.states[1] == states[1], "32 leaves everything");
    }
    left.refusals[1]
}

#[test]
fn thirty_two_at_the_edges() {
    let at =
        |k: u8, address: u64| move |state: &mut State| state.general[k as usize] = STACK_START.wrapping_add(address);
    for (address, reply) in
        [(0, 32), (63, 32), (64, 0), (127, 0), (128, 32), (192, 32), (255, 32), (256, 6), (8u64.wrapping_neg(), 6)]
    {
        assert_eq!(asks([LDO, 1, 250, 249], at(250, address)), reply, "a load at {address}");
        assert_eq!(asks([STO, 1, 250, 249], at(250, address)), reply, "a store at {address}");
    }
    // A is shared
    assert_eq!(asks([LDO, 1, 250, 249], |state| state.general[250] = 0), 0);
    // a frame of three octabytes
    let stack = |ro: u64| move |state: &mut State| (state.special[RL], state.special[RO]) = (2, STACK_START + ro);
    for (ro, reply) in [(48, 32), (56, 32), (64, 0), (104, 0), (112, 32), (128, 32), (240, 32), (248, 32), (256, 6)] {
        assert_eq!(asks([PUSHJ, 2, 0, 1], stack(ro)), reply, "a frame at {ro}");
    }
    // 32 wins where one octabyte is foreign and another missing: 240 and 248 are in no part, 256 is in no window
    assert_eq!(asks([PUSHJ, 2, 0, 1], stack(240)), 32);
    // the fetch
    for (pc, reply) in
        [(STACK_START, 32), (STACK_START + 252, 32), (STACK_START + 256, 24), (STACK_START + 64, 4), (1 << 40, 24)]
    {
        assert_eq!(asks([JMP, 0, 0, 1], move |state| state.pc = pc), reply, "PC {pc:x}");
    }
}

#[test]
fn thirty_two_group_by_group() {
    // POP: the octabyte below rO is its own, its locals are foreign
    let frame = |hole: u64, ro: u64| {
        let (mut states, mut windows) = three();
        windows.a.bytes[0x100..0x104].copy_from_slice(&[POP, 0, 0, 0]);
        states[1].special[RO] = STACK_START + ro;
        let below = ro as usize - 8;
        windows.b.bytes[below..below + 8].copy_from_slice(&hole.to_be_bytes());
        call(1, 3, &states, &quarters(3), &windows).refusals[1]
    };
    assert_eq!([frame(0, 72), frame(1, 72), frame(6, 120), frame(7, 120), frame(20, 120)], [0, 32, 0, 32, 32]);
    assert_eq!(frame(0, 64), 32);
    // UNSAVE: the packed octabyte is its own; its local count lies outside every window, and that is 6 though the rest would be foreign
    let packed = |rg: u64, at: u64| {
        let (mut states, mut windows) = three();
        windows.a.bytes[0x100..0x104].copy_from_slice(&[UNSAVE, 0, 0, 250]);
        states[1].general[250] = STACK_START + at;
        windows.b.bytes[at as usize..at as usize + 8].copy_from_slice(&(rg << 56).to_be_bytes());
        call(1, 3, &states, &quarters(3), &windows).refusals[1]
    };
    assert_eq!([packed(255, 120), packed(32, 120), packed(10, 120), packed(255, 128)], [32, 6, 14, 32]);
}

#[test]
fn parts_that_break_a_rule() {
    let (states, windows) = three();
    let two = &states[..2];
    for (parts, reply) in [
        ([0, 64, 64, 64], 0),
        ([64, 64, 0, 64], 0),
        ([0, 72, 64, 64], 33),
        ([64, 64, 0, 72], 33),
        ([0, 256, 64, 8], 33),
        ([64, 8, 0, 256], 33),
        ([0, 64, 0, 64], 33),
        ([0, 256, 64, 0], 0),
        ([64, 0, 0, 256], 0),
        ([64, 0, 64, 0], 0),
        ([256, 0, 0, 0], 0),
        ([264, 0, 0, 0], 33),
        ([4, 0, 0, 0], 33),
        ([0, 4, 64, 64], 33),
        ([4, 8, 64, 64], 33),
        ([248, 8, 0, 8], 0),
        ([248, 16, 0, 8], 33),
        ([8u64.wrapping_neg(), 16, 0, 8], 33),
        ([8, 8u64.wrapping_neg(), 0, 8], 33),
        ([8u64.wrapping_neg(), 0, 0, 8], 33),
    ] {
        assert_eq!(call(1, 2, two, &parts, &windows).reply, reply, "{parts:?}");
    }
    for (q, reply) in [(0, 33), (1, 0), (1000, 0), (1001, 33), (u64::MAX, 33)] {
        assert_eq!(call(q, 2, two, &[0, 64, 64, 64], &windows).reply, reply, "q {q}");
    }
    for count in 0..=9 {
        let (states, reply) = (vec![states[0].clone(); count], if (1..=8).contains(&count) { 0 } else { 33 });
        assert_eq!(call(1, 2, &states, &vec![0; 2 * count], &windows).reply, reply, "{count} tasks");
    }
    assert_eq!(call(1, 2, two, &[0, 64, 64], &windows).reply, 33);
}

#[test]
fn order_of_refusals() {
    let (mut states, mut windows) = three();
    states[1].special[RG] = 31;
    let (good, bad) = ([0, 64, 64, 64, 128, 64], [0, 64, 64, 64, 64, 64]);
    assert_eq!(call(1, 2, &states, &good, &windows).reply, 1);
    assert_eq!(call(1, 2, &states[..2], &good, &windows).reply, 1);
    assert_eq!(call(1, 2, &states, &bad, &windows).reply, 33);
    assert_eq!(call(1, 1_000_001, &states, &bad, &windows).reply, 25);
    windows.a.base = STACK_START;
    assert_eq!(call(1, 1_000_001, &states, &bad, &windows).reply, 22);
    windows.b.bytes.pop();
    assert_eq!(call(1, 1_000_001, &states, &bad, &windows).reply, 2);
}
