//! Holds Njalemuur to the Rust module `clock_signalling` of sdp-types, which is built unchanged from where it lies, and to the rules'
//! table, written out here a second time in Rust.

/// The module itself: `compare/run` gives its path.
#[allow(dead_code)]
pub mod clock_signalling {
    include!(env!("NJALEMUUR_MODULE"));
}
pub mod attributes;
pub mod builders;

pub mod addresses;
pub mod answers;
pub mod calls;
pub mod census;
pub mod check;
pub mod clocks;
pub mod cuts;
pub mod faults;
pub mod fragments;
pub mod framing;
pub mod hosts;
pub mod leaf;
pub mod lines;
pub mod lists;
pub mod made;
pub mod module;
pub mod notation;
pub mod pipe;
pub mod questions;
pub mod random;
pub mod record;
pub mod report;
pub mod seeded;
pub mod side;
pub mod stored;
pub mod table;
pub mod texts;
pub mod unite;
pub mod utf8;
pub mod values;
