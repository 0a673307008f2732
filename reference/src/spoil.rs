//! Spoilt input lines: what a bad typist or a broken cable sends.

use crate::random::Random;
use crate::wire::{ANSWER_BYTES, CODE_BYTES, FIELD_BYTES, MESSAGE_BYTES, MESSAGE_FIELDS};
use std::ops::Range;

/// What the session program reads at once, at most.
pub const READ_BYTES: usize = 4096;
/// Of so many empty lines in a row so many stand in one read, wherever the reads
/// cut, that their answers are longer than a read.
pub const LONG_RUN: usize = 2 * (READ_BYTES / (ANSWER_BYTES + 1)) + 1;

/// Set at the right of the code's columns.
const ODD_CODES: [&[u8]; 8] = [b"0", b"9", b"01", b"10", b"1 ", b"", b"-1", b"99"];

/// Spoils a line in one of many ways. Few of them leave it readable.
pub fn spoil(line: &mut Vec<u8>, random: &mut Random) {
    let column = any_column(0, random);
    let place = random.below(line.len() as u64) as usize;
    match random.below(22) {
        0 => line.truncate(place),
        1 => {
            line.truncate(place);
            line.push(b'\n');
        }
        2 => line.push(b'\n'),
        3 => line[place] = random.draw() as u8,
        4 => line.insert(place, random.pick(b" 0123456789")),
        5 => line.insert(line.len() - 1, b'\r'),
        6 => {
            let last = line.len() - 2;
            line[last] = b'\r';
        }
        7 => before_number(&mut line[column], random.pick(b"\t\0\x0b,.")),
        8 => before_number(&mut line[column], random.pick(b"+-")),
        9 | 10 => before_number(&mut line[column], b'0'),
        11 => line[column].fill(b' '),
        12 => line[column].fill(b'0'),
        13 => set_code(&mut line[..CODE_BYTES], random.pick(&ODD_CODES)),
        14 => move_left(&mut line[column]),
        15 | 16 => raise_number(line, random),
        17 => lengthen(line, random),
        18 => follow_with_more(line, random),
        19 => drop_caller(line),
        20 => repeat_caller(line),
        _ => noise(line, random),
    }
}

/// A long run of empty lines.
pub fn long_run(random: &mut Random) -> Vec<u8> {
    let least = LONG_RUN as u64;
    vec![b'\n'; random.between(least, 2 * least) as usize]
}

/// How many long runs of empty lines an input has.
pub fn long_runs(input: &[u8]) -> u64 {
    let feeds = input.split(|&byte| byte != b'\n');
    // The first line feed ends the line before the run.
    feeds.filter(|feeds| feeds.len() > LONG_RUN).count() as u64
}

/// The columns of a number, of those from the one with index `first` on.
fn any_column(first: usize, random: &mut Random) -> Range<usize> {
    let field = first + random.below((MESSAGE_FIELDS - first) as u64) as usize;
    let start = CODE_BYTES + field * FIELD_BYTES;
    start..start + FIELD_BYTES
}

/// Sets a code at the right of its columns.
pub fn set_code(column: &mut [u8], code: &[u8]) {
    let (left, right) = column.split_at_mut(column.len() - code.len());
    left.fill(b' ');
    right.copy_from_slice(code);
}

/// Sets a byte in the last space before a number, or in its first digit.
fn before_number(column: &mut [u8], byte: u8) {
    let spaces = column.iter().take_while(|&&byte| byte == b' ').count();
    let last = column.len() - 1;
    column[spaces.saturating_sub(1).min(last)] = byte;
}

fn move_left(column: &mut [u8]) {
    let spaces = column.iter().take_while(|&&byte| byte == b' ').count();
    column.rotate_left(spaces);
}

/// Most calls have unused numbers. The caller is a number too.
fn raise_number(line: &mut [u8], random: &mut Random) {
    let column = any_column(1, random);
    line[column.end - 1] = b'0' + random.between(1, 9) as u8;
}

/// A line that ends before its caller.
fn drop_caller(line: &mut Vec<u8>) {
    line.truncate(MESSAGE_BYTES - FIELD_BYTES);
    line.push(b'\n');
}

/// A line with one number more.
fn repeat_caller(line: &mut Vec<u8>) {
    line.extend_from_within(MESSAGE_BYTES - FIELD_BYTES..);
    line.remove(MESSAGE_BYTES);
}

/// Writes out a number that is too wide for the caller's columns: 2^63, or one
/// that is the caller in 64 bits.
pub fn widen_caller(line: &mut Vec<u8>, caller: u64, random: &mut Random) {
    let wide = random.pick(&[1 << 63, (1 << 64) + u128::from(caller)]);
    line.truncate(MESSAGE_BYTES - FIELD_BYTES);
    line.extend_from_slice(wide.to_string().as_bytes());
    line.push(b'\n');
}

/// A line of thousands of bytes.
fn lengthen(line: &mut Vec<u8>, random: &mut Random) {
    let count = random.between(1, 9000) as usize;
    let byte = random.pick(b" 01x\0");
    line.pop();
    line.resize(line.len() + count, byte);
    line.push(b'\n');
}

/// A whole readable line with a second one after it, but one line feed.
fn follow_with_more(line: &mut Vec<u8>, random: &mut Random) {
    let times = random.between(2, 4) as usize;
    line.pop();
    *line = line.repeat(times);
    line.push(b'\n');
}

/// Bytes of any kind, line feeds among them.
fn noise(line: &mut Vec<u8>, random: &mut Random) {
    let count = random.between(1, 200) as usize;
    line.clear();
    line.resize_with(count, || random.draw() as u8);
    line.push(b'\n');
}
