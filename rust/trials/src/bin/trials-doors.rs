//! `trials-doors`: the functions of include/cabinet.h in the proved static
//! library, beside the reference and in whole cabinets.

use std::process::ExitCode;

use trials::doors::{library, program};

fn main() -> ExitCode {
    program::main(&library::library)
}
