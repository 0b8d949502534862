//! How the comparison is made: the proved calls, the form in which a state crosses to them, and what holds and counts.
pub mod agreement;
pub mod boundary;
pub mod comparison;
pub mod counts;
pub mod isolation;
pub mod long;
pub mod mistaken;
pub mod proved;
pub mod replay;
pub mod returns;
pub mod suites;
pub mod watch;
