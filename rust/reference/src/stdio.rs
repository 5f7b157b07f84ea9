//! Standard input and output as plain files. The library's own handles take a
//! descriptor that cannot be read for the end of the input, and one that cannot
//! be written for a success; a file tells both as errors.

use std::fs::File;
use std::io;
use std::os::fd::AsFd;

pub fn input() -> io::Result<File> {
    Ok(File::from(io::stdin().as_fd().try_clone_to_owned()?))
}

pub fn output() -> io::Result<File> {
    Ok(File::from(io::stdout().as_fd().try_clone_to_owned()?))
}
