//! The second implementation as a program: standard input to standard output.

use reference::feed::serve;
use reference::session::Controller;
use std::process::ExitCode;

fn main() -> ExitCode {
    serve::<Controller>()
}
