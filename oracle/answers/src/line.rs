//! The Rust's decoder in the place of `vescline`, and traffic to give to both: for `make compare` and docs/SPEED.md.

use crate::Random;
use crate::figures::Figured;
use crate::replies::{any, damaged, id};
use std::io::{Read, Write};
use vesc::Decoder;

/// Reads standard input as `vescline` does, 65,536 bytes at a time, and hands on what came.
fn pieces(mut take: impl FnMut(&[u8])) {
    let mut input = vec![0u8; 65536];
    loop {
        let n = std::io::stdin().lock().read(&mut input).unwrap();
        if n == 0 {
            break;
        }
        take(&input[..n]);
    }
}

fn output() -> impl Write {
    std::io::BufWriter::with_capacity(4096, std::io::stdout().lock())
}

/// Prints what `vescline` prints.
pub fn run() {
    let mut out = output();
    let mut line = Figured::default();
    pieces(|mut piece| {
        while !piece.is_empty() {
            piece = &piece[line.feed(piece)..];
            while let Some(reply) = line.next().0 {
                writeln!(out, "{}", id(&reply)).unwrap();
            }
        }
    });
    let figures = line.figures().map(|(name, figure)| format!("{name} {figure}"));
    writeln!(out, "{}", figures.join(" ")).unwrap();
}

/// Prints the ids alone: the Rust keeps no figures, and `make speed` times what the Rust does.
pub fn bare() {
    let mut out = output();
    let mut decoder = Decoder::default();
    pieces(|piece| {
        let mut at = 0;
        while at < piece.len() {
            at += decoder.feed(&piece[at..]).unwrap();
            for reply in decoder.by_ref() {
                writeln!(out, "{}", id(&reply)).unwrap();
            }
        }
    });
}

/// Good frames, damaged frames and noise: of 10 draws, 6, 1 and 3 (up to 80 bytes each).
pub fn traffic(args: &[String]) {
    let bytes: usize = args[0].parse().unwrap();
    let seed = args.get(2).map_or(0, |seed| seed.parse().unwrap());
    let mut random = Random(0x5EED_0006 ^ seed);
    let mut all = Vec::with_capacity(bytes + 256);
    while all.len() < bytes {
        match random.below(10) {
            0..=5 => all.extend(any(&mut random)),
            6 => {
                let frame = any(&mut random);
                all.extend(damaged(&mut random, &frame));
            }
            _ => {
                let n = random.below(80);
                all.extend(random.bytes(n));
            }
        }
    }
    all.truncate(bytes);
    std::fs::write(&args[1], &all).unwrap();
}
