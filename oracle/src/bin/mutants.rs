//! Put single faults into a copy of the Rust, one at a time, and see that each is found.
//!
//!     mutants [--cases N] [--jobs J] [--only TEXT]
//!
//! The faults are listed in mutants.txt. For each, the Rust of MMIX_RUST_SRC is copied under target/, one text
//! in it replaced, `differential` built from it and run on N cases (200,000 unless told); it must differ. Where
//! the Rust has no arm, the fault is in a copy of the harness's model, compared with the model as it is. With no
//! fault nothing may differ. TEXT is in the fault's name or file. The exit status is 1 if a fault is not found or can't be made.

use std::os::unix::process::ExitStatusExt;
use std::path::{Path, PathBuf};
use std::process::{Command, ExitCode};
use std::sync::atomic::{AtomicUsize, Ordering};
use std::time::Instant;
use std::{env, fs, thread};

/// The verdict on a run in which nothing differs.
const NOT_FOUND: &str = "not found";
/// Signals that others send: a run that they end has found nothing.
const SIGKILL: i32 = 9;
const SIGTERM: i32 = 15;

struct Fault {
    name: String,
    file: String,
    old: String,
    new: String,
}

impl Fault {
    /// Whether the fault is in the model, and not in the Rust.
    fn in_model(&self) -> bool {
        self.file.starts_with("model/")
    }
}

/// The faults of the list: blocks of four lines, `fault:`, `file:`, `old:`, `new:`.
fn listed(text: &str) -> Result<Vec<Fault>, String> {
    let mut faults = Vec::new();
    let mut lines = text.lines().filter(|line| !line.is_empty() && !line.starts_with('#'));
    while let Some(first) = lines.next() {
        let field = |line: Option<&str>, name: &str| {
            let line = line.unwrap_or_default();
            let value = line.strip_prefix(name).ok_or_else(|| format!("`{name}` expected: {line}"))?;
            Ok::<String, String>(value.strip_prefix(' ').unwrap_or(value).replace("\\n", "\n"))
        };
        faults.push(Fault {
            name: field(Some(first), "fault:")?,
            file: field(lines.next(), "file:")?,
            old: field(lines.next(), "old:")?,
            new: field(lines.next(), "new:")?,
        });
    }
    Ok(faults)
}

fn copy(from: &Path, to: &Path) -> std::io::Result<()> {
    fs::create_dir_all(to)?;
    for entry in fs::read_dir(from)? {
        let entry = entry?;
        let target = to.join(entry.file_name());
        if entry.file_type()?.is_dir() {
            copy(&entry.path(), &target)?;
        } else {
            fs::write(target, fs::read(entry.path())?)?;
        }
    }
    Ok(())
}

/// Where things are: the harness, the Rust and a folder for the work of each job.
struct Places {
    oracle: PathBuf,
    rust: PathBuf,
    work: PathBuf,
}

impl Places {
    /// A copy of the Rust or of the model with the fault in it.
    fn faulted(&self, job: usize, fault: &Fault) -> Result<PathBuf, String> {
        let (from, copied) = match fault.in_model() {
            true => (self.oracle.join("src/model"), self.work.join(format!("model-{job}"))),
            false => (self.rust.join("src"), self.work.join(format!("rust-{job}"))),
        };
        let folder = copied.join(if fault.in_model() { "model" } else { "src" });
        copy(&from, &folder).map_err(|e| format!("copying {}: {e}", from.display()))?;
        let file = if fault.in_model() { copied.join(&fault.file) } else { folder.join(&fault.file) };
        let text = fs::read_to_string(&file).map_err(|e| format!("{}: {e}", file.display()))?;
        let times = text.matches(&fault.old).count();
        if times != 1 {
            return Err(format!("the text occurs {times} times in {}", fault.file));
        }
        fs::write(&file, text.replace(&fault.old, &fault.new)).map_err(|e| e.to_string())?;
        Ok(if fault.in_model() { folder } else { copied })
    }

    /// Build with a fault, or with none, and run. What `differential` said where it differs; an error where it doesn't.
    fn differs(&self, job: usize, fault: Option<&Fault>, cases: &str) -> Result<String, String> {
        let target = self.work.join(format!("build-{job}"));
        let (mut build, mut library) = (Command::new(env!("CARGO")), cfg!(feature = "library"));
        build.env("CARGO_TARGET_DIR", &target).env("MMIX_RUST_SRC", &self.rust).env_remove("MMIX_MODEL_SRC");
        if let Some(fault) = fault {
            let name = if fault.in_model() { "MMIX_MODEL_SRC" } else { "MMIX_RUST_SRC" };
            build.env(name, self.faulted(job, fault)?);
            library &= !fault.in_model();
        }
        let built = build
            .args([
                "build",
                "--quiet",
                "--offline",
                "--profile",
                "fault",
                "--package",
                "oracle",
                "--bin",
                "differential",
            ])
            .arg("--manifest-path")
            .arg(self.oracle.join("Cargo.toml"))
            .args(if library { &["--features", "library"][..] } else { &[] })
            .output()
            .map_err(|e| format!("cargo: {e}"))?;
        if !built.status.success() {
            return Err(format!("does not build: {}", String::from_utf8_lossy(&built.stderr)));
        }
        let ran = Command::new(target.join("fault/differential"))
            .args(["--threads", "1", "--cases", cases])
            .output()
            .map_err(|e| format!("differential: {e}"))?;
        if let Some(number @ (SIGKILL | SIGTERM)) = ran.status.signal() {
            return Err(format!("ended from outside, by signal {number}"));
        }
        found(&String::from_utf8_lossy(&ran.stdout), &String::from_utf8_lossy(&ran.stderr))
    }
}

/// What a run of `differential` said of a fault: the case that differs, or the panic that it led to.
fn found(said: &str, complained: &str) -> Result<String, String> {
    let last = said.lines().last().unwrap_or_default();
    if last.ends_with("no difference") {
        return Err(NOT_FOUND.to_string());
    }
    match said.lines().find_map(|line| line.strip_prefix("DIFFERS: ")) {
        Some(difference) => {
            let (count, start) = (last.split(' ').next().unwrap_or("?"), difference.chars().take(90));
            Ok(format!("after {count} cases: {}", start.collect::<String>()))
        }
        None => Ok(format!("panics: {}", complained.lines().next().unwrap_or_default())),
    }
}

fn run() -> Result<bool, String> {
    let (mut cases, mut jobs, mut only) = ("200000".to_string(), 2, String::new());
    let mut arguments = env::args().skip(1);
    while let Some(name) = arguments.next() {
        let value = arguments.next().ok_or_else(|| format!("{name} has no value"))?;
        match name.as_str() {
            "--cases" => cases = value,
            "--jobs" => jobs = value.parse().map_err(|e| format!("{value}: {e}"))?,
            "--only" => only = value,
            _ => return Err(format!("no such option: {name}")),
        }
    }
    let oracle = PathBuf::from(env!("CARGO_MANIFEST_DIR"));
    let rust = env::var_os("MMIX_RUST_SRC").map_or_else(|| oracle.join("../../shared/docs/src"), PathBuf::from);
    let work = oracle.join("../target/faults");
    let list = fs::read_to_string(oracle.join("mutants.txt")).map_err(|e| format!("mutants.txt: {e}"))?;
    let chosen = |f: &Fault| f.name.contains(&only) || f.file.contains(&only);
    let faults: Vec<Fault> = listed(&list)?.into_iter().filter(chosen).collect();
    let places = Places { oracle, rust, work };

    match places.differs(0, None, &cases) {
        Ok(said) => return Err(format!("differs without a fault: {said}")),
        Err(why) if why != NOT_FOUND => return Err(format!("without a fault: {why}")),
        Err(_) => {}
    }

    let began = Instant::now();
    let (next, lost) = (AtomicUsize::new(0), AtomicUsize::new(0));
    thread::scope(|scope| {
        for job in 0..jobs {
            let (places, faults, cases, next, lost) = (&places, &faults, &cases, &next, &lost);
            scope.spawn(move || {
                while let Some(fault) = faults.get(next.fetch_add(1, Ordering::Relaxed)) {
                    match places.differs(job, Some(fault), cases) {
                        Ok(said) => println!("found      {}: {said}", fault.name),
                        Err(why) => {
                            lost.fetch_add(1, Ordering::Relaxed);
                            println!("NOT FOUND  {}: {why}", fault.name);
                        }
                    }
                }
            });
        }
    });
    let lost = lost.into_inner();
    println!("{} faults, {lost} not found, {:.0} s", faults.len(), began.elapsed().as_secs_f64());
    Ok(lost == 0)
}

fn main() -> ExitCode {
    match run() {
        Ok(true) => ExitCode::SUCCESS,
        Ok(false) => ExitCode::FAILURE,
        Err(message) => {
            eprintln!("{message}");
            ExitCode::from(2)
        }
    }
}
