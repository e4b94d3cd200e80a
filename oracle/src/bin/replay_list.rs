//! A fixed list of the Rust's answers, for tests that have no Rust at hand.
//!
//!     replay_list FILE [RECORDS] [SEED]     write the list
//!     replay_list --check FILE              replay it on the subject
//!
//! The file is octabytes, high byte first: the number of records, then the records. A record is
//!  1      the call as bytes: kind (0 step, 1 exceptions), flags, op, X, Y, Z, 0, 0
//!  2, 3   the two operands of an exception; 0 for a step
//!  4, 5   the window's base; its length in octabytes, at most 512. It is lent as B; A is empty at 0
//!  6, 7   g, h: $k is g + k × h for k below rL and for k from rG to 255, the others are 0
//!  8, 9   s, t: special k is s + k × t, the five below apart
//! 10, 11  w, v: octabyte j of the window is w + j × v
//! 12-14   PC, halt code, marks
//! 15-19   rG, rL, rA, rO, rS; rG is 32 to 255 and rL at most rG, whatever the reply
//! 20      m, then m pairs of a place and a value that is set there, one after the other, over what is above: a place
//!         below 256 is a general register, 4096 + j is octabyte j of the window
//! and then the ten octabytes that the Rust leaves: reply, PC, halt code, rG, rL, rO, two sums of the state's 291
//! octabytes in the order of its image and two of the window's octabytes. The first sum of a list adds its octabytes,
//! the second adds up the first sum after each octabyte, so that order counts. All arithmetic is modulo 2^64.

use std::process::ExitCode;
use std::{env, fs};

use oracle::case::{Call, Case};
use oracle::opcodes::*;
use oracle::random::Random;
use oracle::reference::Reference;
use oracle::rounds::{exception, with_one};
use oracle::starts::{FIELDS, Start};
use oracle::state::{IMAGE_LEN, OLD_IMAGE_LEN, RG, RL, RO, State, octabyte};
use oracle::subject::{Subject, chosen};

/// The opcodes of the list, in turn; those with the most ways to go stand here most often. Five are branches and
/// two have no arm.
const OPCODES: [u8; 40] = [
    PUSHJ, POP, SAVE, UNSAVE, PUT, POP, PUSHJB, UNSAVE, PUT, POP, SAVE, UNSAVE, PUSHGO, PUT, PUTI, GET, GETA, GETAB,
    PUSHGOI, PUT, PUTI, SAVE, GO, GOI, JMP, JMPB, PUT, SYNC, SWYM, TRIP, TRAP, BN, BNB, BZ, BNZ, PBEVB, PUT, GET, 0x01,
    RESUME,
];
const RESULTS: usize = 10;
/// Windows of the list have at most this many octabytes.
const WINDOW_MOST: usize = 512;

fn sums(octabytes: impl Iterator<Item = u64>) -> [u64; 2] {
    octabytes.fold([0, 0], |[a, b], v| {
        let a = a.wrapping_add(v);
        [a, b.wrapping_add(a)]
    })
}

fn results(reply: u64, state: &State, window: &[u8]) -> [u64; RESULTS] {
    let State { special, pc, halt, .. } = state;
    let [sa, sb] = sums(state.octabytes().take(OLD_IMAGE_LEN / 8));
    let [wa, wb] = sums(window.chunks_exact(8).map(octabyte));
    [reply, *pc, *halt, special[RG], special[RL], special[RO], sa, sb, wa, wb]
}

/// A case for a record, by its number; none where the draw does not fit the list.
fn drawn(random: &mut Random, number: u64) -> Option<Case> {
    let turn = (number % (OPCODES.len() as u64 + 2)) as usize;
    let case = match OPCODES.get(turn) {
        Some(op) => with_one(random, *op),
        None => exception(random),
    };
    let fits = case.state.admissible() && case.image_len == IMAGE_LEN && case.windows.b.bytes.len() <= 8 * WINDOW_MOST;
    (fits && !case.two_enabled() && !case.no_frame()).then_some(case)
}

fn write(file: &str, records: u64, seed: u64) -> Result<(), String> {
    let (mut random, mut reference) = (Random::new(seed, 0), Reference::new());
    let mut list = vec![records];
    let mut written = 0;
    while written < records {
        let Some(case) = drawn(&mut random, written) else { continue };
        let mut start = Start::of(&case, &mut random);
        start.spoil(written);
        let answer = reference.answer(&start.case())?;
        list.extend(start.fields);
        list.push(start.places.len() as u64);
        list.extend(start.places.iter().flat_map(|(place, value)| [*place, *value]));
        list.extend(results(answer.reply, &answer.state, &answer.windows.b.bytes));
        written += 1;
    }
    let bytes: Vec<u8> = list.iter().flat_map(|v| v.to_be_bytes()).collect();
    println!("{records} records, {} bytes", bytes.len());
    fs::write(file, bytes).map_err(|e| format!("{file}: {e}"))
}

/// What the subject leaves of a case.
fn replayed(subject: &impl Subject, case: &Case) -> [u64; RESULTS] {
    let (mut image, mut windows) = (case.state.image(), case.windows.clone());
    let reply = match case.call {
        Call::Step(i) => subject.step(i, &mut image, windows.lend()),
        Call::Exceptions { flags, of, y_val, z_val } => subject.exceptions(flags, of, y_val, z_val, &mut image),
        _ => unreachable!("the list has steps and exceptions"),
    };
    results(reply, &State::of_image(&image), &windows.b.bytes)
}

fn check(file: &str) -> Result<(), String> {
    let bytes = fs::read(file).map_err(|e| format!("{file}: {e}"))?;
    let mut list = bytes.chunks_exact(8).map(octabyte);
    let mut next = || list.next().ok_or("the list is cut short");
    let (subject, records, mut replies) = (chosen(), next()?, [0; 21]);
    for record in 0..records {
        let mut fields = [0; FIELDS];
        for field in &mut fields {
            *field = next()?;
        }
        let mut places = Vec::new();
        for _ in 0..next()? {
            places.push((next()?, next()?));
        }
        let mut expected = [0; RESULTS];
        for field in &mut expected {
            *field = next()?;
        }
        let case = Start { fields, places }.case();
        let found = replayed(&subject, &case);
        if found != expected {
            return Err(format!("record {record}: {expected:x?} against {found:x?}\n{case}"));
        }
        replies[found[0] as usize] += 1;
    }
    if list.next().is_some() {
        return Err("more than the records".to_string());
    }
    println!("{records} records agree ({}); replies 0 to 20: {replies:?}", subject.name());
    Ok(())
}

fn main() -> ExitCode {
    let arguments: Vec<String> = env::args().skip(1).collect();
    let number = |k: usize, otherwise: u64| arguments.get(k).map_or(Some(otherwise), |text| text.parse().ok());
    let outcome = match (arguments.first().map(String::as_str), number(1, 3000), number(2, 1)) {
        (Some("--check"), ..) => check(arguments.get(1).map_or("", String::as_str)),
        (Some(file), Some(records), Some(seed)) => write(file, records, seed),
        _ => Err("replay_list FILE [RECORDS] [SEED], or replay_list --check FILE".to_string()),
    };
    match outcome {
        Ok(()) => ExitCode::SUCCESS,
        Err(message) => {
            eprintln!("{message}");
            ExitCode::FAILURE
        }
    }
}
