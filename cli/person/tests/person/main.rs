//! The program as a person runs it: words on a command line, files in a folder, pipes.

mod files;
mod json;
mod large;
mod map;
mod pipes;
mod refusals;
mod session;
mod usage;
