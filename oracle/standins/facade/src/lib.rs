//! The standard library with one change: `collections::HashMap` notes which octabytes of a map from
//! addresses are read and written. The taken files are compiled with this crate under the name `std`, so
//! what they touch is seen without changing a line of them.

pub use std::*;

pub mod collections {
    pub use crate::recorded::HashMap;
    pub use std::collections::{BTreeMap, BTreeSet, HashSet};
}

mod recorded;
pub mod touches;
