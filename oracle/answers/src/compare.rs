//! Comparison at scale: fresh random cases, answered by the Rust here and by our `replay` program, block by block. The first case that
//! differs is shown with its bytes and both answers whole, field by field.

use crate::lateness::{self, Tally};
use crate::{Block, Random, answer_to, commands, numbers, reader, replies, streams, unpackers};
use std::io::Write;
use std::process::{Command, Stdio};

/// What the codes of a sequence of calls mean. One that is not known means what 5 means.
const CODES: [&str; 9] = [
    "next",
    "next until nothing comes",
    "feed",
    "feed, next until nothing comes",
    "drop",
    "offer again",
    "gateway feed",
    "gateway feed, next until nothing comes",
    "look at the mark",
];

/// What the program prints for these cases.
fn answered(program: &[String], cases: &[u8]) -> String {
    let mut command = Command::new(&program[0]);
    command.args(&program[1..]).stdin(Stdio::piped()).stdout(Stdio::piped());
    let mut child = command.spawn().unwrap_or_else(|error| {
        eprintln!("answers: {}: {error}", program.join(" "));
        std::process::exit(2);
    });
    let mut stdin = child.stdin.take().unwrap();
    let cases = cases.to_vec();
    // a program that stops early closes its input: what it printed until then is compared
    let writer = std::thread::spawn(move || _ = stdin.write_all(&cases));
    let output = child.wait_with_output().unwrap();
    writer.join().unwrap();
    if !output.status.success() {
        eprintln!("answers: {} ended with {}", program.join(" "), output.status);
        std::process::exit(2);
    }
    String::from_utf8_lossy(&output.stdout).into_owned()
}

/// The letter and the bytes of each case.
fn cases(mut bytes: &[u8]) -> Vec<(u8, &[u8])> {
    let mut all = vec![];
    while let [letter, high, low, rest @ ..] = bytes {
        let (case, rest) = rest.split_at(u16::from_be_bytes([*high, *low]) as usize);
        all.push((*letter, case));
        bytes = rest;
    }
    all
}

fn framed(letter: u8, case: &[u8]) -> Vec<u8> {
    let mut bytes = vec![letter];
    bytes.extend((case.len() as u16).to_be_bytes());
    bytes.extend(case);
    bytes
}

fn decimal(bytes: &[u8]) -> String {
    bytes.iter().map(|b| b.to_string()).collect::<Vec<_>>().join(" ")
}

/// Shows the k-th case of a block: its bytes, and both answers whole. Of a sequence of calls, each call before the first that differs is a line.
fn show(program: &[String], block: &Block, k: usize) {
    let all = cases(&block.cases);
    let (letter, case) = all[k];
    println!("case {}, letter {}, {} bytes: {}", k + 1, letter as char, case.len(), decimal(case));
    let mut asked = framed(b'V', &[]);
    let mut stream: &[u8] = &[];
    if letter == b'C' {
        stream = all[..k].iter().rev().find(|(l, _)| *l == b'L').unwrap().1;
        println!("its stream, {} bytes: {}", stream.len(), decimal(stream));
        for (code, size, times) in streams::calls(case) {
            let what = CODES.get(code as usize).unwrap_or(&CODES[5]);
            println!("  {what}, size {size}, {times} times");
        }
        asked.extend(framed(b'L', stream));
    }
    asked.extend(framed(letter, case));
    let rust = answer_to(letter, case, stream, true);
    let ours = answered(program, &asked);
    let ours: Vec<&str> = ours.lines().last().unwrap_or("").split_whitespace().collect();
    let rust_tokens: Vec<&str> = rust.line.split_whitespace().collect();
    let part = |name: &str| name.split_once(": ").map_or("", |(part, _)| part).to_string();
    let differ = (0..rust_tokens.len().max(ours.len())).find(|i| rust_tokens.get(*i) != ours.get(*i));
    let shown = differ.map(|i| part(rust.names.get(i).map_or("", String::as_str)));
    let mut last = String::new();
    println!("{:>10} {:>10}   the Rust's answer and ours", "the Rust", "ours");
    for i in 0..rust_tokens.len().max(ours.len()) {
        let name = rust.names.get(i).map_or("nothing", String::as_str);
        let token = |tokens: &[&str]| tokens.get(i).map_or("nothing", |t| *t).to_string();
        let (a, b) = (token(&rust_tokens), token(&ours));
        let here = part(name);
        if letter == b'C' && shown.as_ref() != Some(&here) && !here.is_empty() {
            if differ.is_none_or(|d| i < d) && here != last {
                println!("{:>10} {:>10}   {here}", "same", "same");
            }
            last = here;
            continue;
        }
        println!("{a:>10} {b:>10}   {name}{}", if a == b { "" } else { "   <-- differs" });
    }
}

/// Gives the block's cases to the program and counts the answers that differ. The first of all is shown.
fn differences(program: &[String], block: &Block, show_first: bool) -> usize {
    let ours = answered(program, &block.cases);
    let (mut a, mut b) = (block.answers.lines(), ours.lines());
    let mut count = 0;
    for k in 0..block.count {
        if a.next() != b.next() {
            if count == 0 && show_first {
                show(program, block, k);
            }
            count += 1;
        }
    }
    count + b.count()
}

/// A number of the command line.
fn number<T: std::str::FromStr>(text: &str, what: &str) -> T {
    text.parse().unwrap_or_else(|_| {
        eprintln!("answers: {what} is no number: {text}");
        std::process::exit(2);
    })
}

fn reads(block: &mut Block, random: &mut Random, count: usize) {
    block.case(b'M', &[]);
    numbers::some(block, random, count - 1 - count / 4 - count / 20);
    unpackers::some(block, random, count / 4);
    commands::some_asked(block, random, count / 20);
}

/// What was measured of the lateness, where it was.
fn measured(tally: &Tally) -> String {
    if tally.streams == 0 {
        return String::new();
    }
    let (late, distance) = tally.latest();
    format!(" ({} streams, {} frames, the latest {late}, false start {distance} bytes before)", tally.streams, tally.frames)
}

/// Exits with 1 where any answer differs. A frame that is too late stops it.
pub fn run(args: &[String]) {
    let [seed, decodes, encodes, sequences, read, program @ ..] = args else {
        eprintln!("usage: answers compare SEED DECODES ENCODES SEQUENCES READS PROGRAM..");
        std::process::exit(2);
    };
    if program.is_empty() {
        eprintln!("answers: no program to compare with");
        std::process::exit(2);
    }
    let seed: u64 = number(seed, "the seed");
    let mut random = Random(seed ^ 0x9E37_79B9_7F4A_7C15);
    println!("seed {seed}");
    let sorts: [(&str, &str, usize, fn(&mut Block, &mut Random, usize)); 7] = [
        ("reads, writes, names, masks", read, 50_000, reads),
        ("decode", decodes, 100_000, replies::some),
        ("encode", encodes, 50_000, commands::some),
        ("call sequences", sequences, 500, streams::some),
        // the last three, so that the sorts before them draw what they drew without them
        ("gateway sequences", sequences, 500, streams::gateway_some),
        ("lateness sequences", sequences, 3_000, lateness::some),
        ("command frames read", encodes, 50_000, reader::some),
    ];
    let mut all = 0;
    for (name, wanted, most, make) in sorts {
        let wanted: usize = number(wanted, name);
        let (mut left, mut good, mut nans, mut differ) = (wanted, 0, 0, 0);
        let mut tally = Tally::default();
        while left > 0 {
            let now = left.min(most);
            let mut block = Block::default();
            make(&mut block, &mut random, now);
            differ += differences(program, &block, all + differ == 0);
            good += block.good;
            nans += block.nans;
            tally.add(&block.late);
            left -= now;
        }
        let frames = if good > 0 { format!(" ({good} good frames, {nans} of them with a NaN)") } else { String::new() };
        println!("{name}: {wanted} cases{frames}{}, {differ} differences", measured(&tally));
        all += differ;
    }
    if all > 0 {
        std::process::exit(1);
    }
}
