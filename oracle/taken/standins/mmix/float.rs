//! Stand-in: floating-point arithmetic is no part of the register machine.
