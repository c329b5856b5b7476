//! The output, in pieces of 64 KiB, with numbers faster than by `write!`.

use std::io::{self, Write};

const PIECE: usize = 1 << 16;

#[derive(Default)]
pub struct Output {
    bytes: Vec<u8>,
}

impl Output {
    pub fn text(&mut self, text: &[u8]) {
        self.bytes.extend_from_slice(text);
        if self.bytes.len() >= PIECE {
            self.flush();
        }
    }

    pub fn number(&mut self, number: i128) {
        let Ok(mut size) = u64::try_from(number.unsigned_abs()) else {
            return self.text(number.to_string().as_bytes());
        };
        let mut digits = [0; 20];
        let mut at = digits.len();
        while size > 0 || at == digits.len() {
            at -= 1;
            digits[at] = b'0' + (size % 10) as u8;
            size /= 10;
        }
        if number < 0 {
            self.text(b"-");
        }
        self.text(&digits[at..]);
    }

    /// A word and a number, on a line of their own.
    pub fn row(&mut self, word: &str, number: i128) {
        self.text(word.as_bytes());
        self.number(number);
        self.text(b"\n");
    }

    /// A word and a bit for each node, on a line of their own.
    pub fn bits(&mut self, word: &str, bits: &[bool]) {
        self.text(word.as_bytes());
        self.bytes.extend(bits.iter().map(|&bit| b'0' + u8::from(bit)));
        self.text(b"\n");
    }

    pub fn flush(&mut self) {
        io::stdout().write_all(&self.bytes).expect("cannot write");
        self.bytes.clear();
    }
}
