//! Stand-in: how a register is printed, which nothing here asks.

pub enum ValueFormat {}
