//! What the specification says, written from its words: the answers, and an independent reader, planner, dispatcher and
//! importer.
pub mod answers;
pub mod dispatcher;
pub mod import;
pub mod logs;
pub mod planner;
pub mod reader;
