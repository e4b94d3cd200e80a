//! Starts in few words: a case with one window whose registers and octabytes are lines of numbers, but for those that the
//! instruction is about. The fields are the first nineteen of a record of the replay list (bin/replay_list.rs says which).

use crate::case::{Call, Case, Instruction};
use crate::opcodes::{POP, UNSAVE, is_transfer};
use crate::operands::address;
use crate::random::Random;
use crate::state::{MARKS_MAX, RA, RA_MAX, RG, RL, RO, RS, State};

pub const FIELDS: usize = 19;
const WINDOW_PLACES: u64 = 4096;

/// The start of a case: its nineteen fields and the places set apart.
pub struct Start {
    pub fields: [u64; FIELDS],
    pub places: Vec<(u64, u64)>,
}

impl Start {
    /// The case that a reader of the list builds.
    pub fn case(&self) -> Case {
        let [call, y_val, z_val, base, len, g, h, s, t, w, v, pc, halt, marks, rg, rl, ra, ro, rs] = self.fields;
        let [kind, flags, op, x, y, z, ..] = call.to_be_bytes();
        let of = Instruction { op, x, y, z };
        let call = if kind == 0 { Call::Step(of) } else { Call::Exceptions { flags, of, y_val, z_val } };
        let line = |from: u64, by: u64, k: usize| from.wrapping_add(by.wrapping_mul(k as u64));
        let mut state = State::zero();
        for k in (0..rl as usize).chain(rg as usize..256) {
            state.general[k] = line(g, h, k);
        }
        state.special = std::array::from_fn(|k| line(s, t, k));
        for (register, value) in [(RG, rg), (RL, rl), (RA, ra), (RO, ro), (RS, rs)] {
            state.special[register] = value;
        }
        (state.pc, state.halt, state.marks) = (pc, halt, marks);
        let window = (0..len as usize).flat_map(|j| line(w, v, j).to_be_bytes()).collect();
        let mut case = Case::one(call, state, base, window);
        for &(place, value) in &self.places {
            if place < WINDOW_PLACES {
                case.state.general[place as usize] = value;
            } else {
                let at = 8 * (place - WINDOW_PLACES) as usize;
                case.windows.b.bytes[at..at + 8].copy_from_slice(&value.to_be_bytes());
            }
        }
        case
    }

    /// In one record of 16, by its number, break a rule of the state or of the window.
    pub fn spoil(&mut self, number: u64) {
        let [_, _, _, base, .., marks, _, _, ra, _, _] = &mut self.fields;
        match (number % 16, number / 16 % 3) {
            (15, 0) => *marks += MARKS_MAX + 1,
            (15, 1) => *ra += RA_MAX + 1,
            (15, _) => *base += 1 + number / 48 % 7,
            _ => {}
        }
    }

    /// The start nearest to a drawn case: registers and window become lines of numbers but for what the
    /// instruction is about.
    pub fn of(case: &Case, random: &mut Random) -> Self {
        let State { special, pc, halt, marks, .. } = &case.state;
        let (mut y, mut z, mut places) = (0, 0, Vec::new());
        let call = match case.call {
            Call::Step(i) => {
                for register in [i.x, i.y, i.z] {
                    places.push((register as u64, case.state.general[register as usize]));
                }
                [0, 0, i.op, i.x, i.y, i.z, 0, 0]
            }
            Call::Exceptions { flags, of, y_val, z_val } => {
                (y, z) = (y_val, z_val);
                [1, flags, of.op, of.x, of.y, of.z, 0, 0]
            }
            _ => unreachable!("the list has steps and exceptions"),
        };
        for address in about(case) {
            if let Some(value) = case.windows.octabyte_at(address) {
                places.push((WINDOW_PLACES + case.windows.b.distance(address) / 8, value));
            }
        }
        let fields = [
            u64::from_be_bytes(call),
            y,
            z,
            case.windows.b.base,
            case.windows.b.size() / 8,
            random.any(),
            random.any(),
            random.any(),
            random.any(),
            random.any(),
            random.any(),
            *pc,
            *halt,
            *marks,
            special[RG],
            special[RL],
            special[RA],
            special[RO],
            special[RS],
        ];
        Self { fields, places }
    }
}

/// The addresses whose octabytes decide what POP, UNSAVE, loads and stores do.
fn about(case: &Case) -> Vec<u64> {
    match case.call {
        Call::Step(Instruction { op: POP, .. }) => vec![case.state.special[RO].wrapping_sub(8)],
        Call::Step(Instruction { op: UNSAVE, z, .. }) => {
            let packed = case.state.general[z as usize];
            let rg = case.windows.octabyte_at(packed).unwrap_or(0) >> 56;
            vec![packed, packed.wrapping_sub(8 * (269 - rg))]
        }
        Call::Step(i) if is_transfer(i.op) => vec![address(&case.state, i)],
        _ => Vec::new(),
    }
}
