//! The rows of the tables, by the parts of the library.

mod addresses;
mod calls;
mod capcodes;
mod chains;
mod fragments;
mod frames;
mod growth;
mod joining;
mod mirror;
mod packets;
mod pages;
mod pocsag;
mod sums;
mod worst;

use crate::measure::Measure;
pub use addresses::SIXTEEN;
pub use joining::AGAINST_SECOND;

pub fn all(measure: &mut Measure) {
    addresses::rows(measure);
    capcodes::rows(measure);
    frames::rows(measure);
    packets::rows(measure);
    mirror::rows(measure);
    sums::rows(measure);
    pages::rows(measure);
    fragments::rows(measure);
    chains::rows(measure);
    calls::rows(measure);
    pocsag::rows(measure);
    worst::rows(measure);
    growth::rows(measure);
    joining::rows(measure);
}
