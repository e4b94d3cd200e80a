//! A machine state and its image of 292 octabytes, high byte first: general registers, special registers,
//! PC, halt code, marks, mask; an old image has no mask. The layout in memory is that of `struct mmix_state`.

pub const OCTABYTES: usize = 292;
pub const IMAGE_LEN: usize = 8 * OCTABYTES;
pub const OLD_IMAGE_LEN: usize = IMAGE_LEN - 8;
pub const WINDOW_MAX: usize = 1_048_576;
pub const STACK_START: u64 = 0x6000_0000_0000_0000;
pub const RA_MAX: u64 = 0x3FFFF;
pub const MARKS_MAX: u64 = 0x1FF;
/// The registers that a mask may hide: rBB, rC, rN, rI, rT, rTT, rK, rQ, rU, rV, rF, rWW, rXX, rYY, rZZ.
pub const HIDEABLE: u64 = bits(&[RBB, RC, RN, RI, RT, RTT, RK, RQ, RU, RV, RF, RWW, RXX, RYY, RZZ]);

/// Numbers of special registers.
pub const RB: usize = 0;
pub const RD: usize = 1;
pub const RE: usize = 2;
pub const RH: usize = 3;
pub const RJ: usize = 4;
pub const RM: usize = 5;
pub const RR: usize = 6;
pub const RBB: usize = 7;
pub const RC: usize = 8;
pub const RN: usize = 9;
pub const RO: usize = 10;
pub const RS: usize = 11;
pub const RI: usize = 12;
pub const RT: usize = 13;
pub const RTT: usize = 14;
pub const RK: usize = 15;
pub const RQ: usize = 16;
pub const RU: usize = 17;
pub const RV: usize = 18;
pub const RG: usize = 19;
pub const RL: usize = 20;
pub const RA: usize = 21;
pub const RF: usize = 22;
pub const RP: usize = 23;
pub const RW: usize = 24;
pub const RX: usize = 25;
pub const RY: usize = 26;
pub const RZ: usize = 27;
pub const RWW: usize = 28;
pub const RXX: usize = 29;
pub const RYY: usize = 30;
pub const RZZ: usize = 31;

pub const SPECIAL_NAMES: [&str; 32] = [
    "rB", "rD", "rE", "rH", "rJ", "rM", "rR", "rBB", "rC", "rN", "rO", "rS", "rI", "rT", "rTT", "rK", "rQ", "rU", "rV",
    "rG", "rL", "rA", "rF", "rP", "rW", "rX", "rY", "rZ", "rWW", "rXX", "rYY", "rZZ",
];

const fn bits(registers: &[usize]) -> u64 {
    let (mut mask, mut k) = (0, 0);
    while k < registers.len() {
        mask |= 1 << registers[k];
        k += 1;
    }
    mask
}

/// Whether an image may be so long.
pub fn is_image(len: usize) -> bool {
    len == IMAGE_LEN || len == OLD_IMAGE_LEN
}

#[repr(C)]
#[derive(Clone, PartialEq, Eq, Debug)]
pub struct State {
    pub general: [u64; 256],
    pub special: [u64; 32],
    pub pc: u64,
    pub halt: u64,
    pub marks: u64,
    pub mask: u64,
}

impl State {
    pub fn zero() -> Self {
        Self { general: [0; 256], special: [0; 32], pc: 0, halt: 0, marks: 0, mask: 0 }
    }

    /// 32 ≤ rG ≤ 255, rL ≤ rG, rA ≤ 0x3FFFF, no mark bit above 8, nothing hidden but what may be.
    pub fn admissible(&self) -> bool {
        let rg = self.special[RG];
        let in_range = (32..=255).contains(&rg) && self.special[RL] <= rg && self.special[RA] <= RA_MAX;
        in_range && self.marks <= MARKS_MAX && self.mask & !HIDEABLE == 0
    }

    /// Whether the mask hides special register k, any byte.
    pub fn hides(&self, k: u8) -> bool {
        k < 32 && self.mask >> k & 1 == 1
    }

    /// Whether an image of so many bytes has room for it: an old one only where nothing is hidden.
    pub fn fits(&self, len: usize) -> bool {
        len == IMAGE_LEN || len == OLD_IMAGE_LEN && self.mask == 0
    }

    pub fn octabytes(&self) -> impl Iterator<Item = u64> + '_ {
        self.general.iter().chain(&self.special).copied().chain([self.pc, self.halt, self.marks, self.mask])
    }

    pub fn image(&self) -> [u8; IMAGE_LEN] {
        let mut image = [0; IMAGE_LEN];
        for (bytes, octabyte) in image.chunks_exact_mut(8).zip(self.octabytes()) {
            bytes.copy_from_slice(&octabyte.to_be_bytes());
        }
        image
    }

    /// The state of an image of either length.
    pub fn of_image(image: &[u8]) -> Self {
        assert!(is_image(image.len()));
        let mut octabytes = image.chunks_exact(8).map(octabyte);
        let mut state = Self::zero();
        state.general.fill_with(|| octabytes.next().unwrap());
        state.special.fill_with(|| octabytes.next().unwrap());
        state.pc = octabytes.next().unwrap();
        state.halt = octabytes.next().unwrap();
        state.marks = octabytes.next().unwrap();
        state.mask = octabytes.next().unwrap_or(0);
        state
    }

    /// The first field in which two states differ, by name, with both values.
    pub fn difference(&self, other: &Self) -> Option<String> {
        let at = self.octabytes().zip(other.octabytes()).position(|(a, b)| a != b)?;
        let name = match at {
            0..=255 => format!("${at}"),
            256..=287 => SPECIAL_NAMES[at - 256].to_string(),
            288 => "PC".to_string(),
            289 => "halt code".to_string(),
            290 => "marks".to_string(),
            _ => "mask".to_string(),
        };
        let (a, b) = (self.octabytes().nth(at).unwrap(), other.octabytes().nth(at).unwrap());
        Some(format!("{name} {a:#x} against {b:#x}"))
    }
}

/// Eight bytes, high byte first.
pub fn octabyte(bytes: &[u8]) -> u64 {
    u64::from_be_bytes(bytes.try_into().unwrap())
}
