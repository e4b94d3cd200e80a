//! One call with everything it is given, and its text of one line.
//!
//! The line is the call's name and then fields `name=value` in hexadecimal: op x y z, flags yv zv (exceptions),
//! address (context), grant (run), from to (branch_field, jump_field), base, len (of window B), image (length of the image), pc, halt, marks, mask, partly,
//! g and s (registers that are not zero, `number:value`), w (octabytes of window B that are not zero,
//! `offset:bytes`), and abase, alen, aw of window A. What is left out is zero; `image` left out is 2,336 bytes.

use std::fmt::{self, Display, Write};

use crate::lent::{Window, Windows};
use crate::opcodes::POP;
use crate::state::{IMAGE_LEN, RA, RO, STACK_START, State};

#[derive(Clone, Copy, PartialEq, Eq, Debug)]
pub struct Instruction {
    pub op: u8,
    pub x: u8,
    pub y: u8,
    pub z: u8,
}

/// Which instruction a field is for: YZ of a branch, XYZ of a jump.
#[derive(Clone, Copy, PartialEq, Eq, Debug)]
pub enum Kind {
    Branch,
    Jump,
}

impl Kind {
    /// How many fields there are.
    pub fn size(self) -> u32 {
        match self {
            Kind::Branch => 1 << 16,
            Kind::Jump => 1 << 24,
        }
    }
}

#[derive(Clone, Copy, PartialEq, Eq, Debug)]
pub enum Call {
    Initialize,
    Step(Instruction),
    /// Up to so many instructions, fetched at PC.
    Run {
        grant: u64,
    },
    Exceptions {
        flags: u8,
        of: Instruction,
        y_val: u64,
        z_val: u64,
    },
    Context {
        address: u64,
    },
    Field {
        kind: Kind,
        from: u64,
        to: u64,
    },
}

#[derive(Clone, PartialEq, Eq, Debug)]
pub struct Case {
    pub call: Call,
    pub state: State,
    pub image_len: usize,
    /// Bit 4k + j: byte j of the vector at 16 × k was loaded though bit k of the marks is not set.
    pub partly: u64,
    pub windows: Windows,
}

impl Case {
    pub fn new(call: Call, state: State, windows: Windows) -> Self {
        Self { call, state, image_len: IMAGE_LEN, partly: 0, windows }
    }

    /// A call with one window, lent as B.
    pub fn one(call: Call, state: State, base: u64, window: Vec<u8>) -> Self {
        Self::new(call, state, Windows::one(base, window))
    }

    /// A call with no window at all.
    pub fn none(call: Call, state: State) -> Self {
        Self::new(call, state, Windows::default())
    }

    /// An exception with two or more flags raised and enabled: the Rust forgets all of them but the taken one, which the
    /// definition adds to rA.
    pub fn two_enabled(&self) -> bool {
        match self.call {
            Call::Exceptions { flags, .. } => (flags & (self.state.special[RA] >> 8) as u8).count_ones() > 1,
            _ => false,
        }
    }

    /// POP where rO is at or below the stack's start: the Rust goes on by rJ, and the definition refuses by 29.
    pub fn no_frame(&self) -> bool {
        matches!(self.call, Call::Step(Instruction { op: POP, .. })) && self.state.special[RO] <= STACK_START
    }

    /// The image as lent: cut or lengthened where its length is wrong.
    pub fn image(&self) -> Vec<u8> {
        let mut image = self.state.image().to_vec();
        image.resize(self.image_len, 0xA5);
        image
    }

    /// The loaded addresses: all four bytes of a marked vector, at most three of another one.
    pub fn loaded(&self) -> impl Iterator<Item = u64> + '_ {
        (0..9u64).flat_map(move |k| {
            let some = (self.partly >> (4 * k)) & 15;
            let bytes = if self.state.marks >> k & 1 == 1 { 15 } else { some & !(((some == 15) as u64) << 3) };
            (0..4).filter(move |j| bytes >> j & 1 == 1).map(move |j| 16 * k + j)
        })
    }
}

impl Display for Case {
    fn fmt(&self, f: &mut fmt::Formatter<'_>) -> fmt::Result {
        let mut line = String::new();
        let field = |line: &mut String, name: &str, value: u64| {
            if value != 0 {
                write!(line, " {name}={value:x}").unwrap();
            }
        };
        let instruction = |line: &mut String, i: &Instruction| {
            write!(line, " op={:x} x={:x} y={:x} z={:x}", i.op, i.x, i.y, i.z).unwrap();
        };
        match &self.call {
            Call::Initialize => line += "initialize",
            Call::Step(i) => {
                line += "step";
                instruction(&mut line, i);
            }
            Call::Run { grant } => {
                line += "run";
                field(&mut line, "grant", *grant);
            }
            Call::Exceptions { flags, of, y_val, z_val } => {
                line += "exceptions";
                instruction(&mut line, of);
                field(&mut line, "flags", *flags as u64);
                field(&mut line, "yv", *y_val);
                field(&mut line, "zv", *z_val);
            }
            Call::Context { address } => {
                line += "context";
                field(&mut line, "address", *address);
            }
            Call::Field { kind, from, to } => {
                line += if *kind == Kind::Branch { "branch_field" } else { "jump_field" };
                field(&mut line, "from", *from);
                field(&mut line, "to", *to);
            }
        }
        let Windows { a, b } = &self.windows;
        for (window, [base, len]) in [(b, ["base", "len"]), (a, ["abase", "alen"])] {
            field(&mut line, base, window.base);
            field(&mut line, len, window.size());
        }
        if self.image_len != IMAGE_LEN {
            write!(line, " image={:x}", self.image_len)?;
        }
        field(&mut line, "pc", self.state.pc);
        field(&mut line, "halt", self.state.halt);
        field(&mut line, "marks", self.state.marks);
        field(&mut line, "mask", self.state.mask);
        field(&mut line, "partly", self.partly);
        for (name, registers) in [("g", &self.state.general[..]), ("s", &self.state.special[..])] {
            let set: Vec<String> =
                registers.iter().enumerate().filter(|(_, v)| **v != 0).map(|(k, v)| format!("{k:x}:{v:x}")).collect();
            if !set.is_empty() {
                write!(line, " {name}={}", set.join(","))?;
            }
        }
        for (window, name) in [(b, "w"), (a, "aw")] {
            let set = octabytes(window);
            if !set.is_empty() {
                write!(line, " {name}={}", set.join(","))?;
            }
        }
        f.write_str(&line)
    }
}

/// The octabytes of a window that are not zero.
fn octabytes(window: &Window) -> Vec<String> {
    let set = window.bytes.chunks(8).enumerate().filter(|(_, bytes)| bytes.iter().any(|b| *b != 0));
    set.map(|(k, bytes)| {
        let digits: String = bytes.iter().map(|b| format!("{b:02x}")).collect();
        format!("{:x}:{digits}", 8 * k)
    })
    .collect()
}

/// Read a line back.
pub fn parse(line: &str) -> Result<Case, String> {
    let mut words = line.split_whitespace();
    let name = words.next().ok_or("an empty line")?;
    let mut case = Case::none(Call::Initialize, State::zero());
    let mut i = Instruction { op: 0, x: 0, y: 0, z: 0 };
    let (mut flags, mut y_val, mut z_val, mut address, mut grant, mut from, mut to) = (0, 0, 0, 0, 0, 0, 0);
    for word in words {
        let (field, text) = word.split_once('=').ok_or_else(|| format!("no field: {word}"))?;
        let value = || number(text);
        match field {
            "op" => i.op = value()? as u8,
            "x" => i.x = value()? as u8,
            "y" => i.y = value()? as u8,
            "z" => i.z = value()? as u8,
            "flags" => flags = value()? as u8,
            "yv" => y_val = value()?,
            "zv" => z_val = value()?,
            "address" => address = value()?,
            "grant" => grant = value()?,
            "from" => from = value()?,
            "to" => to = value()?,
            "base" => case.windows.b.base = value()?,
            "len" => case.windows.b.bytes.resize(value()? as usize, 0),
            "abase" => case.windows.a.base = value()?,
            "alen" => case.windows.a.bytes.resize(value()? as usize, 0),
            "image" => case.image_len = value()? as usize,
            "pc" => case.state.pc = value()?,
            "halt" => case.state.halt = value()?,
            "marks" => case.state.marks = value()?,
            "mask" => case.state.mask = value()?,
            "partly" => case.partly = value()?,
            "g" => registers(text, &mut case.state.general)?,
            "s" => registers(text, &mut case.state.special)?,
            "w" => bytes(text, &mut case.windows.b.bytes)?,
            "aw" => bytes(text, &mut case.windows.a.bytes)?,
            _ => return Err(format!("no such field: {word}")),
        }
    }
    case.call = match name {
        "initialize" => Call::Initialize,
        "step" => Call::Step(i),
        "run" => Call::Run { grant },
        "exceptions" => Call::Exceptions { flags, of: i, y_val, z_val },
        "context" => Call::Context { address },
        "branch_field" => Call::Field { kind: Kind::Branch, from, to },
        "jump_field" => Call::Field { kind: Kind::Jump, from, to },
        _ => return Err(format!("no such call: {name}")),
    };
    Ok(case)
}

fn number(text: &str) -> Result<u64, String> {
    u64::from_str_radix(text, 16).map_err(|e| format!("{text}: {e}"))
}

fn pairs(text: &str) -> impl Iterator<Item = Result<(usize, &str), String>> {
    text.split(',').map(|pair| {
        let (at, value) = pair.split_once(':').ok_or_else(|| format!("no pair: {pair}"))?;
        Ok((number(at)? as usize, value))
    })
}

fn registers(text: &str, into: &mut [u64]) -> Result<(), String> {
    for pair in pairs(text) {
        let (at, value) = pair?;
        *into.get_mut(at).ok_or_else(|| format!("no register {at}"))? = number(value)?;
    }
    Ok(())
}

/// The field `len` or `alen` stands before this one.
fn bytes(text: &str, into: &mut [u8]) -> Result<(), String> {
    for pair in pairs(text) {
        let (at, digits) = pair?;
        for k in 0..digits.len() / 2 {
            let byte = into.get_mut(at + k).ok_or_else(|| format!("no byte {at}"))?;
            *byte = number(&digits[2 * k..2 * k + 2])? as u8;
        }
    }
    Ok(())
}
