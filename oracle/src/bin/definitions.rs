//! Answers of the Rust, and of the harness's model where the Rust has no arm (loads, stores, arithmetic), as points over the
//! definitions of crate model, for antt to compute.
//!
//!     definitions DIR [CASES] [SEED]              write the crate DIR/crates/definitions
//!     definitions DIR [CASES] [SEED] --wrong K    the same with the reply of case K changed, which must be refused
//!     definitions DIR [CASES] [SEED] --show K     print case K as a line that `differential --replay` takes
//!
//! DIR is a repository that has crate model. oracle/definitions/Cases.antt.in says what a case is and what it is to
//! agree; the drawn points (`points`) are written as such cases, `PART` a file, each with a proof that computes it.

use std::process::ExitCode;
use std::{env, fs};

use oracle::case::{Call, Instruction};
use oracle::lendings::{self, LENDINGS};
use oracle::lent::{Window, Windows};
use oracle::opcodes::{is_arithmetic, is_transfer};
use oracle::points::{Point, SHORT};
use oracle::situations::{self, SITUATIONS};
use oracle::state::{State, octabyte};

const CASES_SPEC: &str = include_str!("../../definitions/Cases.antt.in");
/// Cases in one file.
const PART: usize = 50;
const OWN: &str = "counting, numbers, bytes_up, leaves, ends, stops, reads, agrees";

// ---- as antt text

fn number(v: u64) -> String {
    if v < 1000 { v.to_string() } else { format!("0x{v:X}") }
}

fn list(items: impl Iterator<Item = String>) -> String {
    let mut text: String = items.map(|item| item + " ∷ ").collect();
    text += "[]";
    if text == "[]" { text } else { format!("({text})") }
}

/// Numbers as runs: a count, the first, the difference.
fn runs(numbers: &[u64]) -> String {
    let (mut found, mut at) = (Vec::new(), 0);
    while at < numbers.len() {
        let rest = &numbers[at..];
        let by = if rest.len() > 1 { rest[1].wrapping_sub(rest[0]) } else { 0 };
        let n = 1 + rest.windows(2).take_while(|pair| pair[1].wrapping_sub(pair[0]) == by).count();
        let (n, by) = if n > 2 { (n, by) } else { (1, 0) };
        found.push(format!("run {n} {} {}", number(rest[0]), number(by)));
        at += n;
    }
    list(found.into_iter())
}

fn state(s: &State) -> String {
    let [pc, halt, marks, mask] = [s.pc, s.halt, s.marks, s.mask].map(number);
    format!("(state {} {} {pc} {halt} {marks} {mask})", runs(&s.general), runs(&s.special))
}

fn windows(Windows { a, b }: &Windows) -> String {
    format!("(windows {} {})", window(a), window(b))
}

fn window(Window { base, bytes }: &Window) -> String {
    let mut whole = bytes.to_vec();
    whole.resize(bytes.len().next_multiple_of(8), 0);
    let octabytes: Vec<u64> = whole.chunks_exact(8).map(octabyte).collect();
    format!("(window {} {} {})", number(*base), bytes.len(), runs(&octabytes))
}

fn instruction(Instruction { op, x, y, z }: Instruction) -> String {
    format!("0x{op:02X} {x} {y} {z}")
}

fn item(call: &Call) -> String {
    match *call {
        Call::Step(i) => format!("step {}", instruction(i)),
        Call::Exceptions { flags, of, y_val, z_val } => {
            format!("exception 0x{flags:02X} {} {} {}", instruction(of), number(y_val), number(z_val))
        }
        _ => unreachable!("a list has steps and exceptions"),
    }
}

fn written(point: &Point) -> String {
    match point {
        Point::Single { case, answer, touched } => {
            let Call::Step(i) = case.call else { unreachable!("a step") };
            let (before, after) = (state(&case.state), state(&answer.state));
            let (lent, left) = (windows(&case.windows), windows(&answer.windows));
            let (done, reply) = (instruction(i), answer.reply);
            format!("single {before}\n    {lent} {done} {reply}\n    {after}\n    {left} {}", runs(touched))
        }
        Point::Fetched { case, answer, touched } => {
            let (before, after) = (state(&case.state), state(&answer.state));
            let (lent, left, reply) = (windows(&case.windows), windows(&answer.windows), answer.reply);
            format!("fetch {before}\n    {lent} {reply}\n    {after}\n    {left} {}", runs(touched))
        }
        Point::Run { case, answer } => {
            let Call::Run { grant } = case.call else { unreachable!("a run") };
            let (before, after) = (state(&case.state), state(&answer.state));
            let (lent, left) = (windows(&case.windows), windows(&answer.windows));
            let (grant, done) = (number(grant), answer.done);
            format!("ran {before}\n    {lent} {grant} {} {done}\n    {after}\n    {left}", answer.reply)
        }
        Point::List { start, calls, replies, state: after, windows: last } => {
            let (before, after) = (state(&start.state), state(after));
            let (lent, left) = (windows(&start.windows), windows(last));
            let (items, replies) = (list(calls.iter().map(item)), list(replies.iter().map(u64::to_string)));
            format!("list {before}\n    {lent} {items} {replies}\n    {after}\n    {left}")
        }
        Point::Context { case, answer } => {
            let Call::Context { address } = case.call else { unreachable!("a context") };
            let (lent, part, which) = (windows(&case.windows), &answer.part, answer.which);
            format!("context {lent} {} {} {which} {} {}", number(address), answer.reply, part.start, part.len())
        }
        Point::Initial { state: after } => format!("initial {}", state(after)),
    }
}

/// The case as `differential --replay` takes it, and the calls of a list.
fn line(point: &Point) -> String {
    match point {
        Point::Single { case, .. }
        | Point::Fetched { case, .. }
        | Point::Run { case, .. }
        | Point::Context { case, .. } => case.to_string(),
        Point::List { start, calls, .. } => format!("{start}\nthen {}", list(calls.iter().map(item))),
        Point::Initial { .. } => "initialize".to_string(),
    }
}

/// The definitions' files that `Cases` rests on, each with its text, found by their `use` lines.
fn definitions(folder: &str) -> std::io::Result<Vec<(String, String)>> {
    let named = |text: &str| -> Vec<String> {
        let file = |line: &str| Some(line.strip_prefix("use Rattle.model.specs.")?.split('.').next()?.to_string());
        text.lines().filter_map(file).filter(|file| file != "declared").collect()
    };
    let (mut waiting, mut found) = (named(CASES_SPEC), Vec::<(String, String)>::new());
    while let Some(file) = waiting.pop() {
        if found.iter().all(|(known, _)| *known != file) {
            let text = fs::read_to_string(format!("{folder}/crates/model/specs/{file}.antt"))?;
            waiting.extend(named(&text));
            found.push((file, text));
        }
    }
    Ok(found)
}

/// The names that a definition's file has for antt to open.
fn opened(text: &str) -> Vec<&str> {
    let names = text.lines().filter_map(|line| line.trim().strip_prefix("unfoldable pub ")?.split(" : ").next());
    names.filter(|name| !name.starts_with("use ")).collect()
}

/// The proofs of one part: every definition is opened, and antt computes.
fn proof(models: &[(String, String)], part: usize, cases: &[String]) -> String {
    let mut text = format!("-- Part {part}: each case agrees.\nuse mathlib.Core.Path.{{◌≡◌, refl}}\n");
    text += "use mathlib.Core.Bool.{true}\nuse lib.Count.{count_leading_zeros}\n";
    let mut names = vec!["count_leading_zeros".to_string()];
    for (file, source) in models {
        let found = opened(source);
        if !found.is_empty() {
            text += &format!("use Rattle.model.specs.{file}.{{{}}}\n", found.join(", "));
        }
        names.extend(found.iter().map(|name| name.to_string()));
    }
    text += &format!("use Rattle.definitions.specs.Cases.{{{OWN}}}\n");
    text += &format!("use Rattle.definitions.specs.Part{part}.{{{}}}\n", cases.join(", "));
    let opened = format!("{} {}", names.join(" "), OWN.replace(',', ""));
    for case in cases {
        text +=
            &format!("\npub {case}_agrees : agrees {case} ≡ true\nunfolding {opened} {case}\n{case}_agrees = refl\n");
    }
    text
}

fn spec(part: usize, points: &[Point], cases: &[String]) -> String {
    let mut text = format!("-- Part {part} of the answers.\n");
    text += "use Rattle.std.specs.Prelude.{List, [], ◌∷◌}\nuse Rattle.model.specs.Step.{step, exception}\n";
    text += "use Rattle.definitions.specs.Cases.{Case, single, fetch, ran, list, context, initial, run, state, window, windows}\n";
    for (case, point) in cases.iter().zip(points) {
        text += &format!("\nunfoldable pub {case} : Case\n{case} =\n    {}\n", written(point));
    }
    text
}

fn write(folder: &str, points: &[Point]) -> std::io::Result<()> {
    let (models, home) = (definitions(folder)?, format!("{folder}/crates/definitions"));
    let _ = fs::remove_dir_all(&home);
    for part in ["src", "specs", "proofs"] {
        fs::create_dir_all(format!("{home}/{part}"))?;
    }
    fs::write(format!("{folder}/crates.txt"), "model:\ndefinitions: model\n")?;
    fs::write(
        format!("{home}/src/lib.rt"),
        "//! Answers of the Rust and of the harness's model, computed over the definitions of crate model.\n",
    )?;
    fs::write(format!("{home}/specs/Cases.antt"), CASES_SPEC)?;
    let mut parts = String::new();
    for (k, some) in points.chunks(PART).enumerate() {
        let cases: Vec<String> = (0..some.len()).map(|j| format!("case_{}", k * PART + j)).collect();
        fs::write(format!("{home}/specs/Part{k}.antt"), spec(k, some, &cases))?;
        fs::write(format!("{home}/proofs/Part{k}.antt"), proof(&models, k, &cases))?;
        parts += &format!("pub mod Part{k}\n");
    }
    fs::write(format!("{home}/specs/Lib.antt"), format!("-- The answers.\npub mod Cases\n{parts}"))?;
    fs::write(format!("{home}/proofs/Lib.antt"), format!("-- Each part computed.\n{parts}"))
}

fn summary(points: &mut [Point]) -> String {
    let (mut kinds, mut items, mut replies, mut long) = ([0; 6], 0, [0; 34], 0);
    let (mut transfers, mut operations, mut masked, mut done) = (0, 0, 0, 0);
    let (mut counts, mut lent) = ([0; SITUATIONS.len()], [0; LENDINGS.len()]);
    for point in points {
        if let Point::Single { case, answer, .. } = point {
            situations::count(case, answer, &mut counts);
            transfers += matches!(case.call, Call::Step(i) if is_transfer(i.op)) as u64;
            operations += matches!(case.call, Call::Step(i) if is_arithmetic(i.op)) as u64;
        }
        if let Point::Single { case, answer, .. } | Point::Context { case, answer } = point {
            lendings::count(case, answer, &mut lent);
        }
        if let Point::Run { answer, .. } = point {
            done += answer.done;
        }
        let (kind, start) = match point {
            Point::Single { case, .. } => (0, Some(&*case)),
            Point::List { start, .. } => (1, Some(&*start)),
            Point::Context { case, .. } => (2, Some(&*case)),
            Point::Initial { .. } => (3, None),
            Point::Fetched { case, .. } => (4, Some(&*case)),
            Point::Run { case, .. } => (5, Some(&*case)),
        };
        kinds[kind] += 1;
        masked += start.is_some_and(|case| case.state.mask != 0) as u64;
        long += start.is_some_and(|c| c.windows.a.bytes.len().max(c.windows.b.bytes.len()) > 4 * SHORT) as u64;
        for reply in point.replies() {
            items += (kind == 1) as u64;
            replies[*reply as usize] += 1;
        }
    }
    let [singles, lists, contexts, initials, fetches, ran] = kinds;
    let (met, all) = (counts.iter().filter(|n| **n > 0).count(), SITUATIONS.len());
    let (lent, lendings) = (lent.iter().filter(|n| **n > 0).count(), LENDINGS.len());
    format!(
        "{singles} single steps with their needs, {transfers} loads and stores and {operations} of arithmetic among them, in \
         {met} of {all} situations at limits and {lent} of {lendings} of the windows; {fetches} fetched instructions with their needs; \
         {ran} runs, in which {done} instructions were done; {items} steps and exceptions in {lists} lists; {contexts} contexts; \
         {initials} initial state; {masked} under a mask; {long} with a window above {} bytes; replies 0 to 33: {replies:?}",
        4 * SHORT
    )
}

fn run(words: &[String]) -> Result<(), String> {
    let at = |k: usize, otherwise: u64| match words.get(k).filter(|word| !word.starts_with("--")) {
        Some(word) => word.parse().map_err(|e| format!("{word}: {e}")),
        None => Ok(otherwise),
    };
    let marked = |name: &str| match words.iter().position(|word| word == name) {
        Some(k) => {
            words.get(k + 1).and_then(|word| word.parse::<usize>().ok()).map(Some).ok_or(format!("{name} NUMBER"))
        }
        None => Ok(None),
    };
    let folder = words.first().ok_or("definitions DIR [CASES] [SEED] [--wrong K | --show K]")?;
    let (cases, seed, wrong, show) = (at(1, 2000)?, at(2, 2009)?, marked("--wrong")?, marked("--show")?);
    let mut points = (0..cases).map(|number| Point::drawn(seed, number)).collect::<Result<Vec<Point>, String>>()?;
    if let Some(k) = show {
        println!("{}", line(points.get(k).ok_or("no such case")?));
        return Ok(());
    }
    println!("{cases} cases: {}", summary(&mut points));
    if let Some(k) = wrong {
        let reply = points.get_mut(k).and_then(|point| point.replies().last_mut()).ok_or("no such reply")?;
        *reply += 1;
    }
    write(folder, &points).map_err(|e| format!("{folder}: {e}"))
}

fn main() -> ExitCode {
    match run(&env::args().skip(1).collect::<Vec<String>>()) {
        Ok(()) => ExitCode::SUCCESS,
        Err(message) => {
            eprintln!("{message}");
            ExitCode::FAILURE
        }
    }
}
