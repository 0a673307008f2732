//! Input lines and answer lines: numbers in columns, right-justified with
//! spaces, without leading zeros.

use crate::call::{Answer, Asked, Call, Code, Entry, Message, Settings, Shown, RECORD_FIELDS};

/// Columns of a call's code or an answer's number.
pub const CODE_BYTES: usize = 2;
/// Columns of each number after it.
pub const FIELD_BYTES: usize = 14;
/// Numbers of an input line: those of a call, then its caller.
pub const MESSAGE_FIELDS: usize = CALL_FIELDS + 1;
/// Bytes of an input line without its line feed.
pub const MESSAGE_BYTES: usize = CODE_BYTES + MESSAGE_FIELDS * FIELD_BYTES;
/// Bytes of an answer line without its line feed.
pub const ANSWER_BYTES: usize = CODE_BYTES + ANSWER_FIELDS * FIELD_BYTES;
/// Bytes of the desk's answer line without its line feed: an answer line, then
/// the record.
pub const SHOWN_BYTES: usize = CODE_BYTES + SHOWN_FIELDS * FIELD_BYTES;
/// The greatest number that fits into its columns.
pub const WIDEST: u64 = 10_u64.pow(FIELD_BYTES as u32) - 1;

const CALL_FIELDS: usize = 5;
const ANSWER_FIELDS: usize = 3;
const SHOWN_FIELDS: usize = ANSWER_FIELDS + RECORD_FIELDS;
/// The code of a preview is its call's and so much more.
const PREVIEW: u64 = 50;

/// None where the line is unreadable. The session program has no previews.
pub fn read_message(line: &[u8]) -> Option<Message> {
    match read_asked(line)? {
        Asked::Call(message) => Some(message),
        Asked::Preview(_) => None,
    }
}

/// None where the line is unreadable at the desk.
pub fn read_asked(line: &[u8]) -> Option<Asked> {
    let (code, fields) = read_columns::<MESSAGE_FIELDS>(line)?;
    match code.checked_sub(PREVIEW) {
        Some(code) => message_of(code, fields).map(Asked::Preview),
        None => message_of(code, fields).map(Asked::Call),
    }
}

/// Whether a line, be it readable or not, begins with the code of a preview.
pub fn has_preview_code(line: &[u8]) -> bool {
    let code = line.get(..CODE_BYTES).and_then(read_number);
    let call = code.and_then(|code| code.checked_sub(PREVIEW));
    Code::ALL.iter().any(|known| Some(known.number()) == call)
}

/// None where the line is not an answer of the session program.
pub fn read_answer(line: &[u8]) -> Option<Answer> {
    let (number, values) = read_columns::<ANSWER_FIELDS>(line)?;
    Some(Answer { number, values })
}

/// None where the line is not an answer of the desk program.
pub fn read_shown(line: &[u8]) -> Option<Shown> {
    let (number, fields) = read_columns::<SHOWN_FIELDS>(line)?;
    let [first, second, third, record @ ..] = fields;
    let values = [first, second, third];
    let answer = Answer { number, values };
    Some(Shown { answer, record })
}

/// Adds an answer line with its line feed.
pub fn put_answer(answer: Answer, out: &mut Vec<u8>) {
    let mut line = [b' '; ANSWER_BYTES + 1];
    put_columns(answer.number, answer.values, &mut line);
    out.extend_from_slice(&line);
}

/// Adds an answer line of the desk with its line feed.
pub fn put_shown(shown: Shown, out: &mut Vec<u8>) {
    let mut fields = [0; SHOWN_FIELDS];
    let (values, record) = fields.split_at_mut(ANSWER_FIELDS);
    values.copy_from_slice(&shown.answer.values);
    record.copy_from_slice(&shown.record);
    let mut line = [b' '; SHOWN_BYTES + 1];
    put_columns(shown.answer.number, fields, &mut line);
    out.extend_from_slice(&line);
}

/// Adds an input line with its line feed.
pub fn put_message(message: Message, out: &mut Vec<u8>) {
    put_asked(Asked::Call(message), out);
}

/// Adds an input line of the desk with its line feed.
pub fn put_asked(asked: Asked, out: &mut Vec<u8>) {
    let (Message { caller, call }, more) = match asked {
        Asked::Call(message) => (message, 0),
        Asked::Preview(message) => (message, PREVIEW),
    };
    let [first, second, third, fourth, fifth] = fields_of(call);
    let fields = [first, second, third, fourth, fifth, caller];
    let mut line = [b' '; MESSAGE_BYTES + 1];
    put_columns(call.code().number() + more, fields, &mut line);
    out.extend_from_slice(&line);
}

/// The lines of a text, each with its line feed; the last may lack it.
pub fn lines(text: &[u8]) -> impl Iterator<Item = &[u8]> {
    text.split_inclusive(|&byte| byte == b'\n')
}

/// A line without its line feed; none where the line feed is missing.
pub fn whole_line(line: &[u8]) -> Option<&[u8]> {
    line.strip_suffix(b"\n")
}

fn read_columns<const N: usize>(line: &[u8]) -> Option<(u64, [u64; N])> {
    if line.len() != CODE_BYTES + N * FIELD_BYTES {
        return None;
    }
    let (code, columns) = line.split_at(CODE_BYTES);
    let code = read_number(code)?;
    let mut fields = [0; N];
    for (field, column) in fields.iter_mut().zip(columns.chunks_exact(FIELD_BYTES)) {
        *field = read_number(column)?;
    }
    Some((code, fields))
}

fn read_number(column: &[u8]) -> Option<u64> {
    let first = column.iter().position(|&byte| byte != b' ')?;
    let digits = &column[first..];
    if digits[0] == b'0' && digits.len() > 1 {
        return None;
    }
    let mut value = 0;
    for &byte in digits {
        if !byte.is_ascii_digit() {
            return None;
        }
        value = 10 * value + u64::from(byte - b'0');
    }
    Some(value)
}

/// None where no call has this code, or an unused number is not 0.
fn message_of(code: u64, [fields @ .., caller]: [u64; MESSAGE_FIELDS]) -> Option<Message> {
    let (call, used) = call_of(code, fields)?;
    let unused_are_zero = fields[used..].iter().all(|&field| field == 0);
    unused_are_zero.then_some(Message { caller, call })
}

/// The call of a code and how many of its numbers are used.
fn call_of(code: u64, fields: [u64; CALL_FIELDS]) -> Option<(Call, usize)> {
    let [first, second, third, fourth, fifth] = fields;
    let id = first;
    let code = Code::ALL.iter().find(|known| known.number() == code)?;
    let found = match code {
        Code::Open => {
            let settings = Settings {
                line_end: first,
                safety: second,
                ceiling: third,
                traction: fourth,
            };
            (Call::Open(settings), 4)
        }
        Code::Enter => {
            let entry = Entry {
                id,
                head: second,
                feet: third,
                class: fourth,
                start: fifth,
            };
            (Call::Enter(entry), 5)
        }
        Code::Report => {
            let (head, speed) = (second, third);
            (Call::Report { id, head, speed }, 3)
        }
        Code::Extend => {
            let (number, length) = (second, third);
            (Call::Extend { id, number, length }, 3)
        }
        Code::CallBack => (Call::CallBack { id, place: second }, 2),
        Code::Hold => (Call::Hold { id }, 1),
        Code::Lift => (Call::Lift { id }, 1),
        Code::TakeOff => (Call::TakeOff { id }, 1),
    };
    Some(found)
}

fn fields_of(call: Call) -> [u64; CALL_FIELDS] {
    match call {
        Call::Open(s) => [s.line_end, s.safety, s.ceiling, s.traction, 0],
        Call::Enter(e) => [e.id, e.head, e.feet, e.class, e.start],
        Call::Report { id, head, speed } => [id, head, speed, 0, 0],
        Call::Extend { id, number, length } => [id, number, length, 0, 0],
        Call::CallBack { id, place } => [id, place, 0, 0, 0],
        Call::Hold { id } | Call::Lift { id } | Call::TakeOff { id } => [id, 0, 0, 0, 0],
    }
}

fn put_columns<const N: usize>(code: u64, fields: [u64; N], line: &mut [u8]) {
    let (code_column, columns) = line.split_at_mut(CODE_BYTES);
    put_number(code, code_column);
    for (field, column) in fields
        .into_iter()
        .zip(columns.chunks_exact_mut(FIELD_BYTES))
    {
        put_number(field, column);
    }
    columns[N * FIELD_BYTES] = b'\n';
}

/// Sets the digits of a value at the right of a column filled with spaces.
fn put_number(mut value: u64, column: &mut [u8]) {
    for byte in column.iter_mut().rev() {
        *byte = b'0' + (value % 10) as u8;
        value /= 10;
        if value == 0 {
            return;
        }
    }
    panic!("a number is wider than its column");
}
