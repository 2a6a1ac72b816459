//! The thin `Unpacker`: several reads in a row.
//!
//! A case, letter X: the scale's bits (four bytes), the position to start at (one), the number of reads (one), a code for each read
//! (0 u8, 1 u32, 2 f32, else a name of 39) and the slice. The answer: the position of a new one, then for each read what it answers,
//! as the readers' cases have it, and where it leaves the position.
//! A case, letter Y: the scale's bits and the slice. One new `Unpacker` reads a u8, a name of 39, a u32 and an f32; the answer is what each
//! answers, and where it then stands.

use crate::answer::{Answer, hex};
use crate::numbers::{outcome, shown};
use crate::packer::Unpacker;
use crate::{Block, Random};

fn read(answer: &mut Answer, unpacker: &mut Unpacker, scale: f32, code: u8) {
    match code {
        0 => outcome(answer, unpacker.unpack_u8().map(|v| (format!("{v:08x}"), unpacker.pos)), ""),
        1 => outcome(answer, unpacker.unpack_u32().map(|v| (format!("{v:08x}"), unpacker.pos)), ""),
        2 => outcome(answer, unpacker.unpack_f32(scale).map(|v| (shown(v), unpacker.pos)), ""),
        _ => outcome(answer, unpacker.unpack_c_string::<39>().map(|v| (hex(&v), unpacker.pos)), &hex(&[0; 39])),
    }
}

fn scale_of(case: &[u8]) -> f32 {
    f32::from_bits(u32::from_be_bytes(case[..4].try_into().unwrap()))
}

pub fn answer(answer: &mut Answer, case: &[u8]) {
    let reads = case.get(5).map_or(0, |n| *n as usize);
    if case.len() < 6 + reads {
        return answer.cut_short();
    }
    let slice = &case[6 + reads..];
    answer.say("position of a new one", Unpacker::new(slice).pos);
    let mut unpacker = Unpacker { buf: slice, pos: case[4] as usize };
    for code in &case[6..6 + reads] {
        read(answer, &mut unpacker, scale_of(case), *code);
        answer.say("position", unpacker.pos);
    }
}

pub fn in_a_row(answer: &mut Answer, case: &[u8]) {
    if case.len() < 4 {
        return answer.cut_short();
    }
    let mut unpacker = Unpacker::new(&case[4..]);
    for code in [0, 3, 1, 2] {
        read(answer, &mut unpacker, scale_of(case), code);
    }
    answer.say("position", unpacker.pos);
}

const SCALES: [f32; 8] = [1.0, 10.0, 100.0, 1000.0, 10000.0, 1000000.0, -10.0, 0.0];

/// Bytes with a zero here and there, so that names end.
fn slice(random: &mut Random) -> Vec<u8> {
    let length = random.below(120);
    random.bytes(length).into_iter().map(|b| if random.below(16) == 0 { 0 } else { b }).collect()
}

/// Fresh random cases.
pub fn some(block: &mut Block, random: &mut Random, count: usize) {
    for _ in 0..count {
        let mut case = random.one_of(&SCALES).to_bits().to_be_bytes().to_vec();
        let in_a_row = random.below(4) == 0;
        if !in_a_row {
            let reads = random.below(9);
            case.push(if random.below(3) == 0 { random.below(70) as u8 } else { random.below(4) as u8 });
            case.push(reads as u8);
            case.extend((0..reads).map(|_| random.below(4) as u8));
        }
        case.extend(slice(random));
        block.case(if in_a_row { b'Y' } else { b'X' }, &case);
    }
}

pub fn block() -> Block {
    let mut block = Block::default();
    let mut random = Random(0x5EED_0002);
    some(&mut block, &mut random, 1000);
    block
}
