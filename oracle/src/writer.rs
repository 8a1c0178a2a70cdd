//! Case text on its way out, with the replies that it will get counted.

use std::io::Write;

use crate::calls::{self, Call};
use crate::text::{Line, Words};

pub struct Writer<'a> {
    output: &'a mut dyn Write,
    pub replies: u64,
    pub bytes: u64,
}

impl<'a> Writer<'a> {
    pub fn new(output: &'a mut dyn Write) -> Self {
        Writer { output, replies: 0, bytes: 0 }
    }

    fn put(&mut self, text: &[u8]) {
        self.bytes += text.len() as u64;
        self.output.write_all(text).expect("written");
    }

    pub fn call(&mut self, call: &Call) {
        let mut line = Line::default();
        calls::write(&mut line, call);
        self.put(&line.0);
        self.replies += u64::from(call.has_reply());
    }

    /// The value at a stage time, and the sample that it was read from.
    pub fn value_and_sample(&mut self, t: f64) {
        self.call(&Call::Value(t));
        self.call(&Call::Read(t));
    }

    /// A line as it stands.
    pub fn line(&mut self, line: &str) {
        self.put(line.as_bytes());
        self.put(b"\n");
        self.replies += u64::from(has_reply(line.as_bytes()));
    }
}

/// Whether a part of the case text is to be written: not where the variable of that name is 0, for a program that does not
/// know it.
pub fn wanted(part: &str) -> bool {
    std::env::var(part).as_deref() != Ok("0")
}

/// Whether a line gets a reply: empty lines do not, nor do lists that are lent, where they can be read.
pub fn has_reply(line: &[u8]) -> bool {
    let mut words = Words::new(line);
    match words.word() {
        None => false,
        Some(first @ (b"samples" | b"order" | b"dsamples")) => calls::read(first, words).is_none(),
        Some(_) => true,
    }
}
