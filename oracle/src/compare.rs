//! One case on all sides. Every entry of a subject that takes the case must give the Rust's reply, state and
//! both windows to the last byte; the octabytes that the Rust touches must be the needs, which the model tells. At an added opcode
//! the model stands in for the Rust (`reference`).

use crate::case::{Call, Case, Instruction, Kind};
use crate::compared;
use crate::fields;
use crate::guards::WROTE_OUTSIDE;
use crate::lent::Windows;
use crate::reference::{Answer, Reference};
use crate::state::{RO, RS, State, is_image};
use crate::subject::{Aim, Found, Subject};

/// The reference's answer, or in words how a subject differs from it.
pub fn compare(reference: &mut Reference, subjects: &[Box<dyn Subject>], case: &Case) -> Result<Answer, String> {
    let answer = reference.answer(case)?;
    for subject in subjects {
        same(subject.as_ref(), case, &answer).map_err(|difference| format!("{}: {difference}", subject.name()))?;
    }
    needs(case, &answer)?;
    Ok(answer)
}

/// Whether every entry of one subject gives the answer.
pub fn same(subject: &dyn Subject, case: &Case, answer: &Answer) -> Result<(), String> {
    match case.call {
        Call::Initialize => initialize(subject, case, answer),
        Call::Step(i) => step(subject, case, i, answer),
        Call::Run { grant } => run(subject, case, grant, answer),
        Call::Exceptions { .. } => exceptions(subject, case, answer),
        Call::Context { .. } => context(subject, case, answer),
        Call::Field { .. } => field(subject, case, answer),
    }?;
    codec(subject, case)
}

/// The Rust has its stack where it starts; elsewhere is the case's own rO, and rO and rS alone are others.
fn initialize(subject: &dyn Subject, case: &Case, answer: &Answer) -> Result<(), String> {
    let mut image = case.image();
    let reply = subject.initialize(&mut image);
    same_image("mmix_initialize", case, answer, reply, &image)?;

    let at = case.state.special[RO];
    let mut moved = answer.clone();
    moved.state.special[RO] = at;
    moved.state.special[RS] = at;
    let mut image = case.image();
    let reply = subject.initialize_at(&mut image, at);
    same_image("mmix_initialize_at", case, &moved, reply, &image)
}

fn exceptions(subject: &dyn Subject, case: &Case, answer: &Answer) -> Result<(), String> {
    let Call::Exceptions { flags, of, y_val, z_val } = case.call else { unreachable!() };
    let mut image = case.image();
    let reply = subject.exceptions(flags, of, y_val, z_val, &mut image);
    same_image("mmix_exceptions", case, answer, reply, &image)?;
    if !is_image(case.image_len) {
        return Ok(());
    }

    let mut state = case.state.clone();
    let reply = subject.exceptions_parts(flags, of, y_val, z_val, (&mut state).into());
    same_state("mmix_exceptions_parts", answer, reply, &state)
}

/// The case's image into a struct that holds other numbers, and its state into an image with other bytes. What
/// an image of a wrong length is to leave is those; so is what an old one is, where something is hidden.
pub fn codec(subject: &dyn Subject, case: &Case) -> Result<(), String> {
    let whole = is_image(case.image_len);
    let other = State { general: [!7; 256], special: [!9; 32], pc: !1, halt: !2, marks: !3, mask: !4 };
    let mut state = other.clone();
    let reply = subject.decode(&case.image(), &mut state);
    same_reply("mmix_decode", !whole as u64, reply)?;
    let expected = if whole { State::of_image(&case.image()) } else { other };
    if let Some(difference) = expected.difference(&state) {
        return Err(format!("mmix_decode: reply {reply}, {difference}"));
    }

    let other = vec![0xA5; case.image_len];
    let mut image = other.clone();
    let reply = subject.encode(&case.state, &mut image);
    let fits = case.state.fits(case.image_len);
    same_reply("mmix_encode", !fits as u64, reply)?;
    if image == if fits { case.image() } else { other } {
        return Ok(());
    }
    Err(format!("mmix_encode: reply {reply}, another image"))
}

/// All three numbers must be written: the part is an empty one of A where the reader refuses.
fn context(subject: &dyn Subject, case: &Case, answer: &Answer) -> Result<(), String> {
    let Call::Context { address } = case.call else { unreachable!() };
    let (mut which, mut start, mut length) = (u64::MAX, usize::MAX, usize::MAX);
    let found = Found { which: &mut which, start: &mut start, length: &mut length };
    let reply = subject.context(address, case.windows.show(), found);
    same_reply("mmix_context", answer.reply, reply)?;
    let (expected, found) = ((answer.which, answer.part.start, answer.part.len()), (which, start, length));
    if expected == found {
        return Ok(());
    }
    Err(format!("mmix_context: reply {reply}, window, start and length {expected:?} against {found:?}"))
}

/// Both outputs must be written; an instruction that has the field found goes there.
fn field(subject: &dyn Subject, case: &Case, answer: &Answer) -> Result<(), String> {
    let Call::Field { kind, from, to } = case.call else { unreachable!() };
    let entry = if kind == Kind::Branch { "mmix_branch_field" } else { "mmix_jump_field" };
    let (mut backward, mut field) = (0xA5, 0xA5A5_A5A5);
    let reply = subject.field(kind, from, to, Aim { backward: &mut backward, field: &mut field });
    same_reply(entry, answer.reply, reply)?;
    if (backward, field) != answer.aim {
        return Err(format!("{entry}: reply {reply}, {:?} against {:?}", answer.aim, (backward, field)));
    }
    if reply != 0 {
        return Ok(());
    }
    let Case { call, mut state, mut windows, .. } = fields::patched(kind, backward == 1, field, from);
    let Call::Step(i) = call else { unreachable!() };
    let reply = subject.step_lent(i, &mut state, windows.lend());
    if (reply, state.pc) == (0, to) {
        return Ok(());
    }
    Err(format!("{entry}: that field leads to {:x} with reply {reply}", state.pc))
}

fn step(subject: &dyn Subject, case: &Case, i: Instruction, answer: &Answer) -> Result<(), String> {
    let (mut image, mut windows) = (case.image(), case.windows.clone());
    let reply = subject.step(i, &mut image, windows.lend());
    same_image("mmix_step", case, answer, reply, &image)?;
    same_windows("mmix_step", answer, &windows)?;
    if !is_image(case.image_len) {
        return Ok(());
    }

    let (mut state, mut windows) = (case.state.clone(), case.windows.clone());
    let reply = subject.step_lent(i, &mut state, windows.lend());
    same_state("mmix_step_lent", answer, reply, &state)?;
    same_windows("mmix_step_lent", answer, &windows)?;

    let (mut state, mut windows) = (case.state.clone(), case.windows.clone());
    let reply = subject.step_parts(i, (&mut state).into(), windows.lend());
    same_state("mmix_step_parts", answer, reply, &state)?;
    same_windows("mmix_step_parts", answer, &windows)
}

/// The count must be written at every reply.
fn run(subject: &dyn Subject, case: &Case, grant: u64, answer: &Answer) -> Result<(), String> {
    let same_count = |entry: &str, done: u64| match done == answer.done {
        true => Ok(()),
        false => Err(format!("{entry}: reply {}, {} done against {done}", answer.reply, answer.done)),
    };
    let (mut image, mut windows, mut done) = (case.image(), case.windows.clone(), !4);
    let reply = subject.run(grant, &mut image, windows.lend(), &mut done);
    same_image("mmix_run", case, answer, reply, &image)?;
    same_windows("mmix_run", answer, &windows)?;
    same_count("mmix_run", done)?;
    if !is_image(case.image_len) {
        return Ok(());
    }

    let (mut state, mut windows, mut done) = (case.state.clone(), case.windows.clone(), !5);
    let reply = subject.run_parts(grant, (&mut state).into(), windows.lend(), &mut done);
    same_state("mmix_run_parts", answer, reply, &state)?;
    same_windows("mmix_run_parts", answer, &windows)?;
    same_count("mmix_run_parts", done)
}

fn same_image(entry: &str, case: &Case, answer: &Answer, reply: u64, image: &[u8]) -> Result<(), String> {
    if is_image(case.image_len) {
        return same_state(entry, answer, reply, &State::of_image(image));
    }
    same_reply(entry, answer.reply, reply)?;
    if image != case.image() {
        return Err(format!("{entry}: an image of a wrong length is changed"));
    }
    Ok(())
}

fn same_reply(entry: &str, expected: u64, reply: u64) -> Result<(), String> {
    match reply {
        WROTE_OUTSIDE => Err(format!("{entry}: a byte outside its buffers is written")),
        _ if reply == expected => Ok(()),
        _ => Err(format!("{entry}: reply {expected} against {reply}")),
    }
}

fn same_state(entry: &str, answer: &Answer, reply: u64, state: &State) -> Result<(), String> {
    same_reply(entry, answer.reply, reply)?;
    match answer.state.difference(state) {
        Some(difference) => Err(format!("{entry}: reply {reply}, {difference}")),
        None => Ok(()),
    }
}

fn same_windows(entry: &str, answer: &Answer, windows: &Windows) -> Result<(), String> {
    let sides = [("A", &answer.windows.a, &windows.a), ("B", &answer.windows.b, &windows.b)];
    for (name, expected, found) in sides {
        // Long windows are compared as a whole first.
        if expected.bytes == found.bytes {
            continue;
        }
        if let Some(at) = expected.bytes.iter().zip(&found.bytes).position(|(a, b)| a != b) {
            let (a, b) = (expected.bytes[at], found.bytes[at]);
            return Err(format!("{entry}: reply {}, byte {at} of window {name} {a:#x} against {b:#x}", answer.reply));
        }
    }
    Ok(())
}

/// Where all is inside, the needs are what the Rust touches. Where 6 is given, what was touched inside may go
/// on with what was not there, so the needs are among the touched and one of them is missing.
fn needs(case: &Case, answer: &Answer) -> Result<(), String> {
    let mut needs = match case.call {
        Call::Step(i) if is_image(case.image_len) => compared::needs(i, &case.state, &case.windows),
        Call::Run { grant } if is_image(case.image_len) => compared::run_needs(grant, &case.state, &case.windows),
        Call::Context { .. } => return Ok(()),
        _ => Vec::new(),
    };
    needs.sort_unstable();
    needs.dedup();
    let outside = |a: &u64| !case.windows.holds(*a);
    let fits = if answer.reply == 6 {
        needs.iter().all(|a| answer.touched.binary_search(a).is_ok()) && needs.iter().any(outside)
    } else {
        needs == answer.touched
    };
    if fits {
        return Ok(());
    }
    Err(format!("needs: reply {}, touched {:x?} against {needs:x?}", answer.reply, answer.touched))
}
