//! Lines of bytes from a stream, with a bound on what is kept of each.

use std::io::{self, BufRead};

/// Reads lines one by one. Of a line of more than `keep` bytes the rest is read and dropped.
pub struct Lines<R> {
    input: R,
    keep: usize,
    line: Vec<u8>,
}

impl<R: BufRead> Lines<R> {
    pub fn new(input: R, keep: usize) -> Self {
        Lines { input, keep, line: Vec::new() }
    }

    /// The next line without its newline, or None at the end. The last line may lack its newline.
    pub fn next(&mut self) -> io::Result<Option<&[u8]>> {
        self.line.clear();
        let mut any = false;
        loop {
            let chunk = match self.input.fill_buf() {
                Err(error) if error.kind() == io::ErrorKind::Interrupted => continue,
                other => other?,
            };
            if chunk.is_empty() {
                return Ok(any.then_some(self.line.as_slice()));
            }
            any = true;
            let end = chunk.iter().position(|byte| *byte == b'\n');
            let text = &chunk[..end.unwrap_or(chunk.len())];
            let room = self.keep - self.line.len();
            self.line.extend_from_slice(&text[..text.len().min(room)]);
            let used = text.len() + usize::from(end.is_some());
            self.input.consume(used);
            if end.is_some() {
                return Ok(Some(&self.line));
            }
        }
    }
}
