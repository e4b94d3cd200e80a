//! Stand-in: the macros serve arithmetic arms that were not taken.
