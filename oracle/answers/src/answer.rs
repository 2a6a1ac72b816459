//! An answer as it comes: a line of text, and the digest of the words that are too many for a line.

use std::fmt::Display;

/// The digest's prime. Words go in by their halves, which are both below it.
const PRIME: u64 = 4_294_967_291;
/// A primitive root of it: no two changes of sign cancel, however many words lie between them.
const ROOT: u64 = 1_664_525;

pub struct Answer {
    pub line: String,
    /// Whether the words are shown too, as `replay` does after a case with the letter V.
    whole: bool,
    /// What each token of the line is, where the answer is whole.
    pub names: Vec<String>,
    /// Stands before the names: which call of a sequence is being answered.
    pub part: String,
    sum: u64,
    /// Of `decode`: whether the frame is good, and whether a field of it is a NaN.
    pub good: bool,
    pub nan: bool,
}

impl Answer {
    pub fn new(letter: u8, whole: bool) -> Self {
        let line = char::from(letter).to_string();
        Answer { line, whole, names: vec!["letter".into()], part: String::new(), sum: 1, good: false, nan: false }
    }

    /// A token of the line.
    pub fn say(&mut self, name: &str, token: impl Display) {
        self.line.push(' ');
        self.line.push_str(&token.to_string());
        if self.whole {
            self.names.push(format!("{}{name}", self.part));
        }
    }

    pub fn given(&mut self, count: usize) {
        self.say("outcome", "given");
        self.say("count or position", count);
    }

    pub fn refused(&mut self, number: u8) {
        self.say("outcome", "refused");
        self.say("refusal", number);
    }

    pub fn cut_short(&mut self) {
        self.say("outcome", "cut");
        self.say("outcome", "short");
    }

    /// A word of the digest.
    pub fn word(&mut self, name: &str, word: u32) {
        for half in [word >> 16, word & 0xFFFF] {
            self.sum = (self.sum * ROOT + half as u64) % PRIME;
        }
        if self.whole {
            self.say(name, format!("{word:08x}"));
        }
    }

    pub fn wide(&mut self, name: &str, number: u64) {
        self.word(name, (number >> 32) as u32);
        self.word(name, number as u32);
    }

    pub fn byte(&mut self, name: &str, byte: u8) {
        self.word(name, byte as u32);
    }

    pub fn flag(&mut self, name: &str, flag: bool) {
        self.word(name, flag as u32);
    }

    /// A float by its bits, any NaN as 7fc00000.
    pub fn float(&mut self, name: &str, x: f32) {
        self.nan |= x.is_nan();
        self.word(name, if x.is_nan() { 0x7FC0_0000 } else { x.to_bits() });
    }

    pub fn bytes(&mut self, name: &str, bytes: &[u8]) {
        for (at, byte) in bytes.iter().enumerate() {
            if self.whole {
                self.byte(&format!("{name}[{at}]"), *byte);
            } else {
                self.byte(name, *byte);
            }
        }
    }

    pub fn digest(&mut self) {
        self.part.clear();
        self.say("digest", format!("{:08x}", self.sum));
    }
}

pub fn hex(bytes: &[u8]) -> String {
    bytes.iter().map(|b| format!("{b:02x}")).collect()
}
