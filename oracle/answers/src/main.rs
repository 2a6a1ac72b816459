//! Makes cases, and the Rust's answers to them, which our `replay` is held to.
//!
//!     answers FOLDER BLOCK..     writes FOLDER/stdin (the cases) and FOLDER/stdout (the Rust's answers)
//!
//!     answers compare SEED DECODES ENCODES SEQUENCES READS PROGRAM..     fresh random cases, asked of the Rust and of our PROGRAM; so many
//!                                                                         ENCODES twice, commands written and command frames read, and
//!                                                                         SEQUENCES three times: without the gateway feed, with it, and
//!                                                                         over late frames
//!     answers lateness SEED STREAMS                                       how late frames are given, by the distance of a false start
//!     answers traffic BYTES FILE [SEED]                                   so many bytes of frames and noise
//!     answers line                                                        the Rust's decoder in the place of `vescline`: prints the same
//!     answers line bare                                                   the same without the figures, for `make speed`
//!
//! A case is a letter, a length (16 bits, big-endian) and so many bytes. Its answer is a line of text that begins with the letter; each
//! block's file says what stands in its lines. The stored files are made from fixed seeds: the same files each time.

// The Rust's packer is private to its crate, so the same file is compiled here once more, unchanged.
#[path = "../../vesc/src/packer.rs"]
#[allow(dead_code)]
mod packer;
pub use vesc::{CommandReply, DecodeError, EncodeError, decode};

mod answer;
mod commands;
mod compare;
mod decoder;
mod figures;
mod gateway;
mod lateness;
mod line;
mod numbers;
mod reader;
mod replies;
mod streams;
mod unpackers;

use answer::Answer;

/// The cases of a block and the answers to them.
#[derive(Default)]
pub struct Block {
    pub cases: Vec<u8>,
    pub answers: String,
    pub count: usize,
    /// Of the cases of `decode`: good frames, and those with a NaN in a field.
    pub good: usize,
    pub nans: usize,
    /// The stream that the sequences of calls take their bytes from.
    pub stream: Vec<u8>,
    /// The lateness that was measured over its streams.
    pub late: lateness::Tally,
}

impl Block {
    pub fn case(&mut self, letter: u8, bytes: &[u8]) {
        self.cases.push(letter);
        self.cases.extend(u16::try_from(bytes.len()).unwrap().to_be_bytes());
        self.cases.extend(bytes);
        if letter == b'L' {
            self.stream = bytes.to_vec();
        }
        let answer = answer_to(letter, bytes, &self.stream, false);
        self.answers.push_str(&answer.line);
        self.answers.push('\n');
        self.count += 1;
        self.good += usize::from(answer.good);
        self.nans += usize::from(answer.nan);
    }
}

/// The Rust's answer to a case.
pub fn answer_to(letter: u8, case: &[u8], stream: &[u8], whole: bool) -> Answer {
    let mut answer = Answer::new(letter, whole);
    match letter {
        b'L' => {
            answer.say("outcome", "loaded");
            answer.say("length", case.len());
        }
        b'C' => streams::answer(&mut answer, case, stream),
        b'c' => commands::answer(&mut answer, case),
        b'r' => replies::answer(&mut answer, case),
        b'R' => reader::read_back(&mut answer, case),
        b'P' => reader::put_together(&mut answer, case),
        b'M' => commands::masks(&mut answer),
        b'H' => commands::asked(&mut answer, case),
        b'T' => numbers::text(&mut answer, case),
        b'X' => unpackers::answer(&mut answer, case),
        b'Y' => unpackers::in_a_row(&mut answer, case),
        b'B' | b'S' | b'U' | b'I' | b'W' => numbers::written(&mut answer, letter, case),
        b'b' | b's' | b'u' | b't' | b'i' | b'h' | b'w' | b'F' | b'n' | b'm' | b'd' => numbers::read(&mut answer, letter, case),
        _ => {
            answer.say("outcome", "unknown");
            answer.say("outcome", "case");
        }
    }
    answer
}

/// xorshift64*: the same numbers on every machine.
pub struct Random(pub u64);

impl Random {
    pub fn next(&mut self) -> u64 {
        self.0 ^= self.0 >> 12;
        self.0 ^= self.0 << 25;
        self.0 ^= self.0 >> 27;
        self.0.wrapping_mul(0x2545_F491_4F6C_DD1D)
    }

    pub fn below(&mut self, n: usize) -> usize {
        (self.next() >> 33) as usize % n
    }

    pub fn one_of<T: Copy>(&mut self, all: &[T]) -> T {
        all[self.below(all.len())]
    }

    pub fn bytes(&mut self, n: usize) -> Vec<u8> {
        (0..n).map(|_| (self.next() >> 40) as u8).collect()
    }
}

/// Document 01's number of a refusal.
pub fn number(error: &DecodeError) -> u8 {
    match error {
        DecodeError::IncompleteData => 1,
        DecodeError::InvalidFrame => 2,
        DecodeError::UnknownPacket { .. } => 3,
        DecodeError::ChecksumMismatch { .. } => 4,
        _ => unreachable!(),
    }
}

/// Cases that are no cases: a letter that is not known, cases too short for their letter, and at the end a case that the input cuts off.
fn faults() -> Block {
    let mut block = Block::default();
    block.case(b'?', &[]);
    block.case(b'Z', &[1, 2, 3]);
    for letter in *b"bsutihwFnmdBSUIWXYHP" {
        block.case(letter, &[0x3F, 0x80, 0]);
    }
    for letter in *b"BSUIW" {
        block.case(letter, &[0x3F, 0x80, 0, 0, 0, 4, 1, 2, 3]);
    }
    block.case(b'c', &[1, 0, 0, 0, 0, 0]);
    block.case(b'C', &[0, 0, 0, 0]);
    block.case(b'X', &[0x3F, 0x80, 0, 0, 0, 3, 0, 0]);
    block.cases.extend([b'r', 0, 6, 2, 1, 129]);
    block.answers.push_str("input cut short after 6 bytes of a case\n");
    block.count += 1;
    block
}

fn main() {
    let args: Vec<String> = std::env::args().collect();
    match args.get(1).map(String::as_str) {
        Some("compare") => return compare::run(&args[2..]),
        Some("lateness") => return lateness::run(&args[2..]),
        Some("traffic") => return line::traffic(&args[2..]),
        Some("line") if args.get(2).is_some_and(|how| how == "bare") => return line::bare(),
        Some("line") => return line::run(),
        _ => {}
    }
    let (Some(folder), true) = (args.get(1), args.len() > 2) else {
        eprintln!("usage: answers FOLDER BLOCK..   the blocks: numbers unpackers commands replies streams gateway late readers faults");
        std::process::exit(2);
    };
    let mut cases = vec![];
    let mut answers = String::new();
    for block in &args[2..] {
        let made = match block.as_str() {
            "numbers" => numbers::block(),
            "unpackers" => unpackers::block(),
            "commands" => commands::block(),
            "replies" => replies::block(),
            "streams" => streams::block(),
            "gateway" => streams::gateway_block(),
            "late" => lateness::block(),
            "readers" => reader::block(),
            "faults" => faults(),
            _ => {
                eprintln!("answers: no block {block}");
                std::process::exit(2);
            }
        };
        let frames = if made.good > 0 { format!(", {} good frames, {} of them with a NaN", made.good, made.nans) } else { String::new() };
        println!("{block}: {} cases{frames}", made.count);
        cases.extend(made.cases);
        answers.push_str(&made.answers);
    }
    std::fs::write(format!("{folder}/stdin"), cases).unwrap();
    std::fs::write(format!("{folder}/stdout"), answers).unwrap();
}
