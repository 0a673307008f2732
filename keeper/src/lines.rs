//! The lines of an input.

/// Bytes of a call, without its line feed.
const CALL: usize = 86;
/// Bytes of an answer, with its line feed.
pub const ANSWER: usize = 45;
/// Bytes that are read at once: what arrives together is flushed together.
pub const BLOCK: usize = 1 << 16;
/// Bytes of calls that are kept at once: those of a block, and a line that began
/// before it.
pub const MOST_AT_ONCE: usize = BLOCK + CALL + 1;

/// Cuts an input into whole lines.
#[derive(Default)]
pub struct Lines {
    /// The line whose line feed has not come yet.
    begun: Vec<u8>,
}

impl Lines {
    /// The lines that these bytes end, each with its line feed.
    pub fn whole(&mut self, bytes: &[u8]) -> Vec<u8> {
        let mut whole = Vec::new();
        for part in each(bytes) {
            let text = part.strip_suffix(b"\n");
            self.begin(text.unwrap_or(part));
            if text.is_some() {
                whole.append(&mut self.begun);
                whole.push(b'\n');
            }
        }
        whole
    }

    /// Only the first bytes are kept, one more than a call has: a longer line is
    /// unreadable, whatever follows, and must fill neither memory nor disk.
    fn begin(&mut self, bytes: &[u8]) {
        let room = CALL + 1 - self.begun.len();
        self.begun.extend(&bytes[..bytes.len().min(room)]);
    }

    /// A last line without its line feed is answer 1. In the log it gets a line
    /// feed, and an `x` before it, so that no replay reads a call there.
    pub fn last(mut self) -> Vec<u8> {
        if !self.begun.is_empty() {
            self.begun.extend(b"x\n");
        }
        self.begun
    }
}

/// Each line with its line feed; the last may lack it.
pub fn each(bytes: &[u8]) -> impl Iterator<Item = &[u8]> {
    bytes.split_inclusive(|&byte| byte == b'\n')
}

pub fn count(bytes: &[u8]) -> usize {
    bytes.iter().filter(|&&byte| byte == b'\n').count()
}
