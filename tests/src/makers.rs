//! Makers of what the calls are compared on: sheets, right and faulty, states, lengths of nodes, lists of calls,
//! and graphs as texts.
pub mod common;
pub mod crafts;
pub mod faults;
pub mod graphs;
pub mod lengths;
pub mod random;
pub mod sheets;
pub mod states;
pub mod tight;
pub mod world;
