//! A model of the rig, written from `docs/RULES.md` alone, and what goes with
//! it: the reader of scenarios and the writer of run sheets.

pub mod rig;
pub mod scenario;
pub mod sheet;
