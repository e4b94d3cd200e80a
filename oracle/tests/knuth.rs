//! Figures of Knuth's texts for the register stack, for SAVE, for loads and stores and for exceptions, on the Rust, where it has the arms, and
//! on the subjects. Each names its place in mmix-doc (MMIXware, "Definition of MMIX"), whose words are given as we know
//! them; Fascicle 1 has the same rules in sections 1.3.1' and 1.4.1', and the figures of loads and stores.

use crate::common::{run, special, start, step};
use oracle::case::{Call, Case, Instruction};
use oracle::lent::Windows;
use oracle::opcodes::*;
use oracle::state::*;

/// A routine with its locals, rG 32, in the middle of things: PC is 0x1000.
fn routine(locals: &[u64]) -> Case {
    let mut case = start();
    case.state.general[..locals.len()].copy_from_slice(locals);
    case.state.special[RL] = locals.len() as u64;
    case.state.pc = 0x1000;
    case
}

fn done(case: &mut Case, op: u8, x: u8, y: u8, z: u8) {
    assert_eq!(step(case, op, x, y, z).reply, 0);
}

/// $x gets a value that a special register has.
fn set(case: &mut Case, x: u8, value: u64) {
    case.state.special[RD] = value;
    done(case, GET, x, 0, RD as u8);
}

fn locals(case: &Case) -> &[u64] {
    &case.state.general[..special(case, RL) as usize]
}

/// POP: "suppose that a subroutine has three input parameters ($0,$1,$2) and produces two outputs ($0,$1) ... it
/// should begin by saving rJ, for example with the instruction `GET $4,rJ` if it will be using local registers $0
/// through $3, and it should use `PUSHJ $5` or `PUSHGO $5` when calling sub-subroutines; finally it should
/// `PUT rJ,$4` before saying `POP 2,0`. To call the subroutine from another routine that has, say, 6 local
/// registers, we would put the input arguments into $7, $8, and $9, then issue the command `PUSHGO $6,base,Subr`;
/// in due time the outputs of the subroutine will appear in $7 and $6."
#[test]
fn outputs_appear_in_7_and_6() {
    let mut case = routine(&[10, 11, 12, 13, 14, 15, 0, 70, 80, 90]);
    case.state.general[254] = 0x2000;
    done(&mut case, PUSHGOI, 6, 254, 0x40);
    assert_eq!((case.state.pc, special(&case, RJ)), (0x2040, 0x1004));
    assert_eq!(locals(&case), [70, 80, 90]);

    set(&mut case, 3, 33);
    done(&mut case, GET, 4, 0, RJ as u8);
    done(&mut case, PUSHJ, 5, 0, 9);
    assert_eq!(locals(&case), [0; 0]);
    done(&mut case, POP, 0, 0, 0);
    assert_eq!(locals(&case), [70, 80, 90, 33, 0x1004]);

    set(&mut case, 0, 100);
    set(&mut case, 1, 101);
    done(&mut case, PUT, RJ as u8, 0, 4);
    done(&mut case, POP, 2, 0, 0);
    assert_eq!(case.state.pc, 0x1004);
    assert_eq!(locals(&case), [10, 11, 12, 13, 14, 15, 101, 100]);
}

/// POP: "A subroutine with no outputs ends with `POP 0,0` and the hole disappears (becomes marginal). A subroutine
/// with one output $0 ends with `POP 1,0` and the hole gets the former value of $0. A subroutine with two outputs
/// ($0,$1) ends with `POP 2,0` and the hole gets the former value of $1 ... If a subroutine has, say, five outputs
/// ($0,...,$4), it ends with `POP 5,0` and $4 goes into the hole position, where it is followed by ($0,$1,$2,$3)."
#[test]
fn the_hole_gets_the_last_output() {
    let after = |outputs: u8| {
        let mut case = routine(&[10, 11]);
        done(&mut case, PUSHJ, 2, 0, 5);
        (0..5).for_each(|k| set(&mut case, k, 100 + k as u64));
        done(&mut case, POP, outputs, 0, 0);
        assert_eq!(case.state.general[special(&case, RL) as usize..32], [0; 32][special(&case, RL) as usize..]);
        locals(&case).to_vec()
    };
    assert_eq!(after(0), [10, 11]);
    assert_eq!(after(1), [10, 11, 100]);
    assert_eq!(after(2), [10, 11, 101, 100]);
    assert_eq!(after(5), [10, 11, 104, 100, 101, 102, 103]);
}

/// POP: "there is good use for subroutines that convert a sequence of register contents like (x,a,b,c) into (f,a,b,c)
/// where f is a function of a, b, and c but not x."
#[test]
fn x_a_b_c_becomes_f_a_b_c() {
    let (x, a, b, c, f) = (1, 2, 3, 4, 5);
    let mut case = routine(&[9, x, a, b, c]);
    done(&mut case, PUSHJ, 1, 0, 5);
    assert_eq!(locals(&case), [a, b, c]);
    set(&mut case, 3, f);
    done(&mut case, POP, 4, 0, 0);
    assert_eq!(locals(&case), [9, f, a, b, c]);
}

/// POP returns to M[4YZ + rJ]: with YZ = 1 one instruction is skipped.
#[test]
fn pop_may_skip() {
    let mut case = routine(&[]);
    done(&mut case, PUSHJ, 0, 0, 5);
    done(&mut case, POP, 0, 0, 1);
    assert_eq!(case.state.pc, 0x1008);
}

/// PUSHJ with X ≥ rG pushes all local registers down, as X = rL would.
#[test]
fn push_of_a_global_pushes_all_locals() {
    let mut case = routine(&[10, 11, 12]);
    let mut other = case.clone();
    done(&mut case, PUSHJ, 255, 0, 5);
    done(&mut other, PUSHJ, 3, 0, 5);
    assert_eq!((case.state, case.windows), (other.state, other.windows));
}

/// "Registers": a marginal register that is set becomes local, and rL grows to include it; those that become local
/// with it are zero. rL can be made smaller by PUT, never larger.
#[test]
fn marginal_registers_become_local() {
    let mut case = routine(&[10, 11]);
    set(&mut case, 4, 44);
    assert_eq!(locals(&case), [10, 11, 0, 0, 44]);
    done(&mut case, PUTI, RL as u8, 0, 9);
    assert_eq!(special(&case, RL), 5);
    done(&mut case, PUTI, RL as u8, 0, 1);
    assert_eq!(locals(&case), [10]);
    set(&mut case, 4, 55);
    assert_eq!(locals(&case), [10, 0, 0, 0, 55]);
}

/// The stack of registers in memory: $0 of the current routine belongs to address rO, so that a push leaves
/// $0, ..., $(X−1) and the hole X below it.
#[test]
fn pushed_registers_lie_below_ro() {
    let mut case = routine(&[10, 11, 12, 13]);
    done(&mut case, PUSHJ, 2, 0, 5);
    done(&mut case, PUSHJ, 0, 0, 5);
    let stored: Vec<u64> = case.windows.b.bytes.chunks_exact(8).take(4).map(octabyte).collect();
    assert_eq!(stored, [10, 11, 2, 0]);
    assert_eq!(special(&case, RO), STACK_START + 32);
}

/// SAVE: "First the current local registers $0, $1, ..., $(L−1) are pushed down as in `PUSHGO $255`, and L is set to
/// zero. Then the current global registers $G, $(G+1), ..., $255 are placed above them in the register stack; finally
/// rB, rD, rE, rH, rJ, rM, rR, rP, rW, rX, rY, and rZ are placed at the very top, followed by registers rG and rA
/// packed into eight bytes [rG in the high byte, rA in the low half]. The address of the topmost octabyte is then
/// placed in register $X, which must be a global register ... Immediately after a SAVE the values of rO and rS are
/// equal to the location of the first byte following the stack just saved."
#[test]
fn save_stores_in_this_order() {
    let mut case = routine(&[10, 11, 12]);
    case.state.special[RG] = 250;
    (250..256).for_each(|k| case.state.general[k] = 1000 + k as u64);
    let order = [RB, RD, RE, RH, RJ, RM, RR, RP, RW, RX, RY, RZ];
    order.iter().for_each(|r| case.state.special[*r] = 2000 + *r as u64);
    case.state.special[RA] = 0x2_1234;
    let before = case.state.clone();

    done(&mut case, SAVE, 255, 0, 0);
    let mut expected = vec![10, 11, 12, 3];
    expected.extend((250..256).map(|k| 1000 + k));
    expected.extend(order.map(|r| 2000 + r as u64));
    expected.push(250 << 56 | 0x2_1234);
    let stored: Vec<u64> = case.windows.b.bytes.chunks_exact(8).take(expected.len()).map(octabyte).collect();
    assert_eq!(stored, expected);
    let top = STACK_START + 8 * (expected.len() as u64 - 1);
    assert_eq!((case.state.general[255], special(&case, RL)), (top, 0));
    assert_eq!((special(&case, RO), special(&case, RS)), (top + 8, top + 8));

    case.state.general[254] = case.state.general[255];
    order.iter().for_each(|r| case.state.special[*r] = 0);
    done(&mut case, UNSAVE, 0, 0, 254);
    assert_eq!(special(&case, RO), special(&case, RS));
    let (now, then) = (&case.state, &before);
    assert_eq!((now.general, special(&case, RL), special(&case, RG)), (then.general, 3, 250));
    assert!(order.iter().chain(&[RA, RO]).all(|r| now.special[*r] == then.special[*r]));
}

/// Fascicle 1, "Loading and storing": M8[1000] = #0123456789abcdef, $2 = 1000.
fn memory(third: u64) -> Case {
    let mut case = routine(&[0, 0, 1000, third]);
    case.windows = Windows::one(1000, 0x0123_4567_89AB_CDEF_u64.to_be_bytes().to_vec());
    case
}

/// The same: what each load leaves in $1 with $3 = 2, and with $3 = 5 where the sign of a byte, wyde and tetra is set.
#[test]
fn loads_extend_the_sign_or_zeros() {
    let loaded = |op: u8, third: u64| {
        let mut case = memory(third);
        let kept = case.windows.clone();
        done(&mut case, op, 1, 2, 3);
        assert_eq!((case.state.pc, &case.windows), (0x1004, &kept));
        case.state.general[1]
    };
    let signed = [LDB, LDW, LDT, LDO];
    let unsigned = [LDBU, LDWU, LDTU, LDOU];
    let low = [0x45, 0x4567, 0x0123_4567, 0x0123_4567_89AB_CDEF];
    assert_eq!(signed.map(|op| loaded(op, 2)), low);
    assert_eq!(unsigned.map(|op| loaded(op, 2)), low);
    let extended = [0xFFFF_FFFF_FFFF_FFAB, 0xFFFF_FFFF_FFFF_89AB, 0xFFFF_FFFF_89AB_CDEF, 0x0123_4567_89AB_CDEF];
    assert_eq!(signed.map(|op| loaded(op, 5)), extended);
    assert_eq!(unsigned.map(|op| loaded(op, 5)), [0xAB, 0x89AB, 0x89AB_CDEF, 0x0123_4567_89AB_CDEF]);
}

/// The immediate forms are at the next opcode.
#[test]
fn immediate_forms_take_z() {
    let mut case = memory(0);
    done(&mut case, LDB + 1, 1, 2, 5);
    assert_eq!(case.state.general[1], 0xFFFF_FFFF_FFFF_FFAB);
    done(&mut case, STOU + 1, 2, 2, 7);
    assert_eq!(octabyte(&case.windows.b.bytes), 1000);
}

/// −65536, which a tetra holds and a wyde does not.
const WIDE: u64 = 0xFFFF_FFFF_FFFF_0000;

/// A state whose $1 is −65536, $3 is 5, and rA has some bits set, V and its enable (by `ra`) among them or not.
fn to_store(ra: u64, marks: u64) -> Case {
    let mut case = memory(5);
    (case.state.general[1], case.state.special[RA], case.state.marks) = (WIDE, ra, marks);
    case.state.special[RJ] = 0x2222;
    case.state.general[255] = 0x5555;
    case
}

/// The same: M8[1000] after each store of $1 = −65536 at $2 + $3 = 1005. STB and STW overflow.
#[test]
fn stores_overflow_where_the_value_does_not_fit() {
    let stored = |op: u8| {
        let mut case = to_store(0x1_0001, 0);
        done(&mut case, op, 1, 2, 3);
        assert_eq!(case.state.pc, 0x1004);
        (octabyte(&case.windows.b.bytes), special(&case, RA))
    };
    let (byte, wyde, tetra) = (0x0123_4567_8900_CDEF, 0x0123_4567_0000_CDEF, 0x0123_4567_FFFF_0000);
    assert_eq!([STB, STW].map(stored), [(byte, 0x1_0041), (wyde, 0x1_0041)]);
    assert_eq!([STT, STO].map(stored), [(tetra, 0x1_0001), (WIDE, 0x1_0001)]);
    let unsigned = [(byte, 0x1_0001), (wyde, 0x1_0001), (tetra, 0x1_0001), (WIDE, 0x1_0001)];
    assert_eq!([STBU, STWU, STTU, STOU].map(stored), unsigned);
}

/// V enabled: the store is made, and the trip to 32 has A in rY, low bits too, and $1 in rZ. With the vector not loaded, 19.
#[test]
fn an_enabled_overflow_trips() {
    for (marks, reply, pc, halt) in [(MARKS_MAX, 0, 32, 0), (MARKS_MAX & !4, 19, 0x1000, 1)] {
        let mut case = to_store(0x4001, marks);
        let mut expected = case.state.clone();
        assert_eq!(step(&mut case, STB, 1, 2, 3).reply, reply);
        assert_eq!(octabyte(&case.windows.b.bytes), 0x0123_4567_8900_CDEF);
        (expected.special[RB], expected.general[255]) = (0x5555, 0x2222);
        (expected.special[RW], expected.special[RX]) = (0x1004, 0x8000_0000_A001_0203);
        (expected.special[RY], expected.special[RZ]) = (1005, WIDE);
        (expected.pc, expected.halt) = (pc, halt);
        assert_eq!(case.state.difference(&expected), None);
    }
}

/// $255 is stored as it was before the trip, which has it in rB and rZ.
#[test]
fn a_trip_of_255_stores_it_first() {
    let mut case = to_store(0x4000, MARKS_MAX);
    done(&mut case, STB, 255, 2, 3);
    assert_eq!(octabyte(&case.windows.b.bytes), 0x0123_4567_8955_CDEF);
    assert_eq!([RB, RZ].map(|r| special(&case, r)), [0x5555; 2]);
    assert_eq!(case.state.general[255], 0x2222);
}

/// Outside the window nothing is claimed; a load that is done claims after its operands are read.
#[test]
fn a_load_claims_last() {
    let mut case = memory(0);
    case.state.general[9] = 1008;
    assert_eq!(step(&mut case, LDO, 9, 9, 3).reply, 6);
    assert_eq!((special(&case, RL), case.state.general[9]), (4, 1008));
    case.state.general[9] = 1004;
    done(&mut case, LDW, 9, 9, 3);
    assert_eq!((special(&case, RL), case.state.general[9]), (10, 0xFFFF_FFFF_FFFF_89AB));
}

/// The condition on a caller's frame bites: a store into it changes a local of the caller.
#[test]
fn a_store_into_the_frame_changes_a_local() {
    let mut case = routine(&[10, 11, 12, 13]);
    case.state.general[254] = STACK_START;
    done(&mut case, PUSHJ, 2, 0, 5);
    assert_eq!(locals(&case), [13]);
    done(&mut case, STO + 1, 0, 254, 8);
    done(&mut case, POP, 0, 0, 0);
    assert_eq!(locals(&case), [10, 13]);
}

/// mmix-sim, "Check for trip interrupt": `for (k=0; !(j&H_BIT); j<<=1, k++) ; exc&=~(H_BIT>>k); /* trips taken are not logged as
/// events */`, where j has the exceptions that are enabled, and then `g[rA].l |= exc>>8`. All flags with all enables, the vectors
/// loaded or not; U without X, which mmix-sim drops where it is not enabled, is logged here.
#[test]
fn trips_taken_are_not_logged() {
    let of = Instruction { op: 0x20, x: 1, y: 2, z: 3 };
    for (flags, enables) in (0..=255u8).flat_map(|flags| (0..=255u8).map(move |enables| (flags, enables))) {
        let (mut exc, mut j, mut k) = (flags, flags & enables, 0);
        if j != 0 {
            while j & 0x80 == 0 {
                j <<= 1;
                k += 1;
            }
            exc &= !(0x80 >> k);
        }
        for marks in [0, MARKS_MAX] {
            let mut case = Case::none(Call::Exceptions { flags, of, y_val: 4, z_val: 5 }, routine(&[]).state);
            (case.state.special[RA], case.state.marks) = ((enables as u64) << 8, marks);
            let (reply, pc) = match (j, marks) {
                (0, _) => (0, 0x1004),
                (_, 0) => (19, 0x1000),
                _ => (0, 16 + 16 * k),
            };
            assert_eq!(run(&mut case).reply, reply);
            assert_eq!((case.state.pc, special(&case, RA)), (pc, (enables as u64) << 8 | exc as u64));
        }
    }
}
