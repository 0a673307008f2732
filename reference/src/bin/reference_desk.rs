//! The second implementation of the desk as a program: standard input to
//! standard output.

use reference::desk::Desk;
use reference::feed::serve;
use std::process::ExitCode;

fn main() -> ExitCode {
    serve::<Desk>()
}
