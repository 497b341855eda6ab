//! The command-line tool as a user runs it: on files in a folder, read by what it prints.

pub mod calls;
pub mod desk;
pub mod json;
pub mod sample;
