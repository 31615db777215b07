//! The original, as `prepare` leaves it: with our draw, watched.
include!(concat!(env!("ORACLE_WORK"), "/original.rs"));
