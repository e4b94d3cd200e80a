//! Situations inside one reply that a run has to meet: which octabyte was missing, which limit was touched.

use crate::case::{Call, Case};
use crate::met::Met;
use crate::numbers::{LEAST, scale};
use crate::opcodes::*;
use crate::operands;
use crate::reference::Answer;
use crate::state::*;

type Test = fn(&Met) -> bool;

pub const SITUATIONS: [(&str, Test); 107] = [
    ("branch taken", |m| m.branch(true)),
    ("branch not taken", |m| m.branch(false)),
    ("claim of $rL", |m| m.claims(m.before(RL))),
    ("claim of $rG-1", |m| m.claims(m.before(RG) - 1)),
    ("claim over marginals that are not zero", |m| m.claims(m.i.x as u64) && m.marginals()),
    ("GET rL that claims", |m| m.is(&[GET], 0) && m.i.z == RL as u8 && m.claims(m.i.x as u64)),
    ("PUSH, X = rG", |m| m.pushed() && m.i.x as u64 == m.before(RG)),
    ("PUSH, X = rG - 1", |m| m.pushed() && m.i.x as u64 == m.before(RG) - 1),
    ("PUSH, H = 0", |m| m.pushed() && m.hole() == 0),
    ("PUSH, H = rL", |m| m.pushed() && m.hole() == m.before(RL)),
    ("PUSH, H = rL - 1", |m| m.pushed() && m.hole() + 1 == m.before(RL)),
    ("PUSH, H above rL, marginals not zero", |m| m.pushed() && m.hole() > m.before(RL) && m.marginals()),
    ("PUSH, rO misaligned", |m| m.pushed() && m.before(RO) % 8 != 0),
    ("PUSH across the end of memory", |m| m.pushed() && m.across()),
    ("POP, 29 below the stack start", |m| m.is(&[POP], 29) && m.before(RO) < STACK_START),
    ("POP, 29 at the stack start", |m| m.is(&[POP], 29) && m.before(RO) == STACK_START),
    ("POP, 12 at 2^63", |m| m.is(&[POP], 12) && m.before(RO) == 1 << 63),
    ("POP at 2^63 - 8", |m| m.popped() && m.before(RO) == (1 << 63) - 8),
    ("POP, 12 one above the stack start", |m| m.is(&[POP], 12) && m.before(RO) == STACK_START + 1),
    ("POP, 6 for the hole", |m| m.is(&[POP], 6) && m.octabyte_at(m.before(RO).wrapping_sub(8)).is_none()),
    ("POP, 6 for a local", |m| m.is(&[POP], 6) && m.octabyte_at(m.before(RO).wrapping_sub(8)).is_some()),
    ("POP, hole above 255", |m| m.popped() && m.octabyte_at(m.before(RO) - 8).is_some_and(|v| v > 255)),
    ("POP, H = rG - 1", |m| m.popped() && m.popped_hole() == m.before(RG) - 1),
    ("POP, H = rG", |m| m.popped() && m.popped_hole() == m.before(RG)),
    ("POP, H above rG", |m| m.popped() && m.popped_hole() > m.before(RG)),
    ("POP, X = rL", |m| m.popped() && m.i.x as u64 == m.before(RL)),
    ("POP, X = rL + 1", |m| m.popped() && m.i.x as u64 == m.before(RL) + 1),
    ("POP, X = rL = 255", |m| m.popped() && m.i.x == 255 && m.before(RL) == 255),
    ("POP, outputs cut at rG", |m| m.popped() && m.popped_hole() + m.i.x as u64 > m.before(RG) && m.i.x > 0),
    ("SAVE, rL = rG", |m| m.is(&[SAVE], 0) && m.before(RL) == m.before(RG)),
    ("SAVE, rO misaligned", |m| m.is(&[SAVE], 0) && m.before(RO) % 8 != 0),
    ("SAVE across the end of memory", |m| m.is(&[SAVE], 0) && m.across()),
    ("UNSAVE, 6 for the packed octabyte", |m| m.is(&[UNSAVE], 6) && m.packed().is_none()),
    ("UNSAVE, 6 for the local count", |m| m.is(&[UNSAVE], 6) && m.packed().is_some() && m.count().is_none()),
    ("UNSAVE, 6 for the rest", |m| m.is(&[UNSAVE], 6) && m.count().is_some()),
    ("UNSAVE, 14 with rA too large", |m| m.is(&[UNSAVE], 14) && m.packed().is_some_and(|v| v << 8 >> 8 > RA_MAX)),
    ("UNSAVE, 16 with a good low byte", |m| {
        m.is(&[UNSAVE], 16) && m.count().is_some_and(|v| v % 256 <= m.packed().unwrap_or(0) >> 56)
    }),
    ("UNSAVE, misaligned", |m| m.is(&[UNSAVE], 0) && m.after(RO) % 8 != 0),
    ("UNSAVE across the end of memory", |m| m.is(&[UNSAVE], 0) && m.across()),
    ("UNSAVE, rL = rG", |m| m.is(&[UNSAVE], 0) && m.after(RL) == m.after(RG)),
    ("load, sign extended", |m| m.loads(0) && m.i.op & 2 == 0 && m.i.op < LDO && m.loaded() >> 63 == 1),
    ("load, not extended though the operand's top bit is set", |m| {
        m.loads(0) && m.i.op & 2 != 0 && m.i.op < LDO && m.loaded() >= operands::limit(m.i.op)
    }),
    ("load, X = Y", |m| m.loads(0) && m.x_is_y()),
    ("load, X = Z", |m| m.loads(0) && m.x_is_z()),
    ("load that claims, X among Y and Z", |m| m.loads(0) && m.marginal(m.i.x) && (m.x_is_y() || m.x_is_z())),
    ("load, 6 before the claim", |m| m.loads(6) && m.marginal(m.i.x)),
    ("load to $255", |m| m.loads(0) && m.i.x == 255),
    ("store, X = Y", |m| m.stores(0) && m.x_is_y()),
    ("store, X = Z", |m| m.stores(0) && m.x_is_z()),
    ("store of a marginal register that is not zero", |m| {
        m.stores(0) && m.marginal(m.i.x) && m.case.state.general[m.i.x as usize] != 0
    }),
    ("load or store, A wraps past 2^64", |m| m.reached() && m.address() < m.case.state.general[m.i.y as usize]),
    ("load or store, first octabyte", |m| m.reached() && m.is_first()),
    ("load or store, last byte of the window", |m| m.reached() && m.is_last() && m.address() % 8 == 7),
    ("load or store, one octabyte before the window", |m| m.outside() && m.is_before()),
    ("load or store, one octabyte after the window", |m| m.outside() && m.is_after()),
    ("load or store at 2^63 and above", |m| m.reached() && m.address() >= 1 << 63),
    ("store, the largest that fits", |m| m.at_limit(0)),
    ("store, one more than fits", |m| m.at_limit(1)),
    ("store, the smallest that fits", |m| m.at_limit(2)),
    ("store, one less than fits", |m| m.at_limit(3)),
    ("store, V added to rA", |m| m.raised(0, false) && m.before(RA) & 0x40 == 0),
    ("store, V taken", |m| m.raised(0, true)),
    ("store, V taken with X = 255", |m| m.raised(0, true) && m.i.x == 255),
    ("store, 19", |m| m.raised(19, true)),
    ("arithmetic that claims, X among Y and Z", |m| m.arithmetic(0) && m.marginal(m.i.x) && m.x_among()),
    ("arithmetic to $255, no trip", |m| m.arithmetic(0) && m.i.x == 255 && m.answer.state.pc > 32),
    ("arithmetic, D added to rA", |m| m.adds(0x80)),
    ("arithmetic, D taken", |m| m.trips(16)),
    ("arithmetic, D taken with X = 255", |m| m.trips(16) && m.i.x == 255),
    ("arithmetic, 19 for D", |m| m.stops(true)),
    ("arithmetic, V added to rA", |m| m.adds(0x40)),
    ("arithmetic, V taken", |m| m.trips(32)),
    ("arithmetic, V taken with X = 255", |m| m.trips(32) && m.i.x == 255),
    ("arithmetic, 19 for V", |m| m.stops(false)),
    ("arithmetic, 19 with X among Y and Z", |m| m.arithmetic(19) && m.x_among()),
    ("arithmetic, 19 after a claim", |m| m.arithmetic(19) && m.marginal(m.i.x)),
    ("arithmetic, 19 with X = 255", |m| m.arithmetic(19) && m.i.x == 255),
    ("ADD, the largest sum that fits", |m| m.exactly(ADD, LEAST as i128 - 1)),
    ("ADD, one more than fits", |m| m.exactly(ADD, LEAST as i128)),
    ("SUB, the smallest difference that fits", |m| m.exactly(SUB, -(LEAST as i128))),
    ("SUB, one less than fits", |m| m.exactly(SUB, -(LEAST as i128) - 1)),
    ("NEG, one more than fits", |m| m.exactly(NEG, LEAST as i128)),
    ("MUL, 2^63", |m| m.exactly(MUL, LEAST as i128)),
    ("MUL, -2^63", |m| m.exactly(MUL, -(LEAST as i128))),
    ("MULU, rH not 0", |m| m.works(&[MULU]) && m.after(RH) != 0),
    ("2ADDU to 16ADDU beyond 2^64", |m| {
        m.works(&[ADDU2, ADDU4, ADDU8, ADDU16]) && m.y() as u128 * scale(m.i.op) as u128 + m.z() as u128 >= 1 << 64
    }),
    ("CMP and CMPU, signs differ", |m| m.works(&[CMP, CMPU]) && (m.y() ^ m.z()) >> 63 == 1),
    ("CMP and CMPU, equal", |m| m.works(&[CMP, CMPU]) && m.y() == m.z()),
    ("DIV with a remainder, both positive", |m| m.divides(false, false)),
    ("DIV with a remainder, negative by positive", |m| m.divides(true, false)),
    ("DIV with a remainder, positive by negative", |m| m.divides(false, true)),
    ("DIV with a remainder, both negative", |m| m.divides(true, true)),
    ("DIV, the most negative by -1", |m| m.works(&[DIV]) && (m.y(), m.z()) == (LEAST, u64::MAX)),
    ("DIVU, 0 < rD < $Z", |m| m.works(&[DIVU]) && 0 < m.before(RD) && m.before(RD) < m.z()),
    ("DIVU, rD = 0 < $Z", |m| m.works(&[DIVU]) && m.before(RD) == 0 && m.z() > 0),
    ("DIVU, rD = $Z - 1", |m| m.works(&[DIVU]) && m.z() > 0 && m.before(RD) == m.z() - 1),
    ("DIVU, rD = $Z", |m| m.works(&[DIVU]) && m.before(RD) == m.z()),
    ("DIVU, rD above $Z", |m| m.works(&[DIVU]) && m.before(RD) > m.z() && m.z() > 0),
    ("DIVU by 0", |m| m.works(&[DIVU]) && m.z() == 0),
    ("SL, overflow though the sign stays", |m| {
        m.works(&[SL]) && (1..64).contains(&m.z()) && !m.fits_shifted() && (m.y() ^ m.y() << m.z()) >> 63 == 0
    }),
    ("SL of a negative number that fits", |m| m.works(&[SL]) && m.z() > 0 && m.y() >> 63 == 1 && m.fits_shifted()),
    ("SL by 64 and more, not of 0", |m| m.works(&[SL]) && m.z() >= 64 && m.y() != 0),
    ("SL of 0 by 64 and more", |m| m.works(&[SL]) && m.z() >= 64 && m.y() == 0),
    ("SR of a negative number by 64 and more", |m| m.works(&[SR]) && m.z() >= 64 && m.y() >> 63 == 1),
    ("SLU and SRU by 64", |m| m.works(&[SLU, SRU]) && m.z() == 64 && m.y() != 0),
    ("shift by 2^63 and more", |m| m.works(&[SL, SLU, SR, SRU]) && m.z() >= LEAST && m.y() != 0),
    ("window of 1,048,576 bytes, done", |m| {
        m.answer.reply == 0 && [&m.case.windows.a, &m.case.windows.b].iter().any(|w| w.bytes.len() == WINDOW_MAX)
    }),
];

/// Count the situations that a case is in.
pub fn count(case: &Case, answer: &Answer, counts: &mut [u64; SITUATIONS.len()]) {
    let i = match case.call {
        Call::Step(i) => i,
        _ => return,
    };
    if matches!(answer.reply, 1..=5 | 22) {
        return;
    }
    let met = Met { case, answer, i };
    for (count, (_, test)) in counts.iter_mut().zip(&SITUATIONS) {
        *count += test(&met) as u64;
    }
}
