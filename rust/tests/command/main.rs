//! The command, run as a user runs it.
//!
//! `SIDLUQETHE_COMMAND` is the absolute path of another program to run in its
//! place.
//! `SIDLUQETHE_GOLDEN=write` writes the files of expected output anew.

mod cases;
mod checker;
mod documents;
mod files;
mod golden;
mod hostile;
mod json;
mod run;
mod screen;
mod status;
