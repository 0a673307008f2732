//! Writes the list of calls with this number of the run with this seed, as
//! `compare` uses it: for the session program, or for the desk.

use reference::ended;
use reference::generate;
use reference::previews;
use std::io::{self, Write};
use std::process::ExitCode;

const USAGE: &str = "usage: generate [--desk] SEED NUMBER";

fn main() -> ExitCode {
    ended(start())
}

fn start() -> Result<(), String> {
    let words: Vec<String> = std::env::args().skip(1).collect();
    let (numbered, numbers): (fn(u64, u64) -> Vec<u8>, _) = match &words[..] {
        [option, numbers @ ..] if option == "--desk" => (previews::numbered, numbers),
        numbers => (generate::numbered, numbers),
    };
    let [seed, number] = numbers else {
        return Err(USAGE.to_string());
    };
    let value = |word: &String| word.parse::<u64>().map_err(|_| USAGE.to_string());
    let list = numbered(value(seed)?, value(number)?);
    let mut output = io::stdout().lock();
    output.write_all(&list).map_err(|error| error.to_string())
}
