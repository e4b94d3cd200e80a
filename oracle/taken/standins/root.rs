// Root of the crate of the taken files.

pub mod encode;
pub mod mmix;
pub mod mmixal;
pub mod mmo;
