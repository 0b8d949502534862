//! The proved functions, called through their static libraries, beside an independent reader, planner, dispatcher
//! and importer that were written from the specification's words, and makers of sheets, states, call lists and texts to
//! compare the two on.
//! `reference` uses nothing else, `makers` use it, and `harness` uses both; only unit tests look the other way.
pub mod harness;
pub mod makers;
pub mod reference;
