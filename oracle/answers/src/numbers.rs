//! Numbers and names: what `Unpacker` and `Packer` do at a position, and the text of a name.
//!
//! Letters of the readers: b u8, s u16, u u32, t i16, i i32, h f16, w f32, F f32_auto, n and m a name of 39 and 47,
//! d a uuid; their case is the scale's bits (four bytes), the position (one) and the slice. The answer is `given NEXT VALUE`
//! or `refused NUMBER`; a float's value is its bits, `nan` for any NaN. A refused name or uuid is followed by zeros.
//! Letters of the writers: B S U I u8 u16 u32 i32, W f32; their case is the scale's bits, the position, the slice's length and
//! the value's bits (four bytes), and the slice holds A5 everywhere. The answer ends with what the slice then holds.
//! T: the text of a name of 39 or 47 bytes, `text BYTES` or `none`; both names of the reply that has such names are asked.

use crate::answer::{Answer, hex};
use crate::packer::{Packer, Unpacker};
use crate::{Block, DecodeError, Random, number};
use vesc::{FwInfo, FwVersion};

const SCALES: [f32; 14] = [
    1.0, 10.0, 100.0, 1000.0, 10000.0, 100000.0, 1000000.0, -10.0, 0.0, -0.0, f32::INFINITY, f32::NAN, 1e-45, 3.4e38,
];

/// The whole numbers around every boundary.
fn whole() -> Vec<i32> {
    let mut all = vec![i32::MIN, i32::MIN + 1, i32::MAX, i32::MAX - 1, i32::MAX - 63, i32::MAX - 64, i32::MAX - 65];
    for base in [0i32, 1 << 15, 1 << 16, 1 << 23, 1 << 24, 1 << 25, 1 << 30] {
        for step in -3..=3 {
            all.push(base + step);
            all.push(-(base + step));
        }
    }
    all
}

pub fn shown(x: f32) -> String {
    if x.is_nan() { "nan".into() } else { format!("{:08x}", x.to_bits()) }
}

/// A reader's value and the position after it, or the refusal and what stands in for the value.
pub fn outcome(answer: &mut Answer, read: Result<(String, usize), DecodeError>, zeros: &str) {
    match read {
        Ok((value, next)) => {
            answer.given(next);
            answer.say("value", value);
        }
        Err(error) => {
            answer.refused(number(&error));
            if !zeros.is_empty() {
                answer.say("value", zeros);
            }
        }
    }
}

pub fn read(answer: &mut Answer, letter: u8, case: &[u8]) {
    if case.len() < 5 {
        return answer.cut_short();
    }
    let scale = f32::from_bits(u32::from_be_bytes(case[..4].try_into().unwrap()));
    let mut unpacker = Unpacker { buf: &case[5..], pos: case[4] as usize };
    let mut zeros = String::new();
    let value: Result<String, DecodeError> = match letter {
        b'b' => unpacker.unpack_u8().map(|v| format!("{v:08x}")),
        b's' => unpacker.unpack_u16().map(|v| format!("{v:08x}")),
        b'u' => unpacker.unpack_u32().map(|v| format!("{v:08x}")),
        b't' => unpacker.unpack_i16().map(|v| format!("{:08x}", v as i32)),
        b'i' => unpacker.unpack_i32().map(|v| format!("{v:08x}")),
        b'h' => unpacker.unpack_f16(scale).map(shown),
        b'w' => unpacker.unpack_f32(scale).map(shown),
        b'F' => unpacker.unpack_f32_auto().map(shown),
        b'n' => {
            zeros = hex(&[0; 39]);
            unpacker.unpack_c_string::<39>().map(|v| hex(&v))
        }
        b'm' => {
            zeros = hex(&[0; 47]);
            unpacker.unpack_c_string::<47>().map(|v| hex(&v))
        }
        _ => {
            zeros = hex(&[0; 12]);
            unpacker.unpack_uuid().map(|v| hex(&v))
        }
    };
    outcome(answer, value.map(|v| (v, unpacker.pos)), &zeros);
}

fn read_case(block: &mut Block, letter: u8, scale: f32, pos: usize, slice: &[u8]) {
    let mut case = scale.to_bits().to_be_bytes().to_vec();
    case.push(pos as u8);
    case.extend(slice);
    block.case(letter, &case);
}

pub fn written(answer: &mut Answer, letter: u8, case: &[u8]) {
    if case.len() < 10 {
        return answer.cut_short();
    }
    let scale = f32::from_bits(u32::from_be_bytes(case[..4].try_into().unwrap()));
    let value = u32::from_be_bytes(case[6..10].try_into().unwrap());
    let mut slice = vec![0xA5u8; case[5] as usize];
    let mut packer = Packer { buf: &mut slice, pos: case[4] as usize };
    let packed = match letter {
        b'B' => packer.pack_u8(value as u8),
        b'S' => packer.pack_u16(value as u16),
        b'U' => packer.pack_u32(value),
        b'I' => packer.pack_i32(value as i32),
        _ => packer.pack_f32(f32::from_bits(value), scale),
    };
    match packed {
        Ok(()) => answer.given(packer.pos),
        Err(_) => answer.refused(5),
    }
    answer.say("slice", hex(&slice));
}

fn write_case(block: &mut Block, letter: u8, scale: f32, pos: usize, room: usize, value: u32) {
    let mut case = scale.to_bits().to_be_bytes().to_vec();
    case.extend([pos as u8, room as u8]);
    case.extend(value.to_be_bytes());
    block.case(letter, &case);
}

pub fn text(answer: &mut Answer, name: &[u8]) {
    // both names of a reply are asked, each while the other one has no NUL and so no text
    let shown = |t: Option<&str>| t.map(|t| hex(t.as_bytes()));
    let (text, other) = if let Ok(bytes) = <[u8; 39]>::try_from(name) {
        let none = FwVersion { hw_name: [b'x'; 39], fw_name: [b'x'; 39], ..crate::replies::no_fw_version() };
        (shown(FwVersion { hw_name: bytes, ..none }.hw_name()), shown(FwVersion { fw_name: bytes, ..none }.fw_name()))
    } else {
        let bytes = name.try_into().expect("a name of 39 or 47 bytes");
        let none = FwInfo { commit_hash: [b'x'; 47], user_commit_hash: [b'x'; 47], ..crate::replies::no_fw_info() };
        (shown(FwInfo { commit_hash: bytes, ..none }.commit_hash()), shown(FwInfo { user_commit_hash: bytes, ..none }.user_commit_hash()))
    };
    if text != other {
        answer.say("outcome", "the two names of a reply differ in their text");
    }
    match text {
        Some(text) => {
            answer.say("outcome", "text");
            answer.say("text", text);
        }
        None => answer.say("outcome", "none"),
    }
}

/// Unicode's table 3-7: the lowest and the highest byte at each place of each row.
const ROWS: [&[(u8, u8)]; 9] = [
    &[(0x00, 0x7F)],
    &[(0xC2, 0xDF), (0x80, 0xBF)],
    &[(0xE0, 0xE0), (0xA0, 0xBF), (0x80, 0xBF)],
    &[(0xE1, 0xEC), (0x80, 0xBF), (0x80, 0xBF)],
    &[(0xED, 0xED), (0x80, 0x9F), (0x80, 0xBF)],
    &[(0xEE, 0xEF), (0x80, 0xBF), (0x80, 0xBF)],
    &[(0xF0, 0xF0), (0x90, 0xBF), (0x80, 0xBF), (0x80, 0xBF)],
    &[(0xF1, 0xF3), (0x80, 0xBF), (0x80, 0xBF), (0x80, 0xBF)],
    &[(0xF4, 0xF4), (0x80, 0x8F), (0x80, 0xBF), (0x80, 0xBF)],
];

fn texts(block: &mut Block, random: &mut Random) {
    let mut sequences: Vec<Vec<u8>> = vec![vec![]];
    for row in ROWS {
        let low: Vec<u8> = row.iter().map(|r| r.0).collect();
        let high: Vec<u8> = row.iter().map(|r| r.1).collect();
        for place in 0..row.len() {
            for byte in [row[place].0.wrapping_sub(1), row[place].0, row[place].1, row[place].1.wrapping_add(1)] {
                let mut one = low.clone();
                one[place] = byte;
                sequences.push(one);
            }
            // cut off, and with the last byte missing
            sequences.push(high[..place].to_vec());
        }
        sequences.push(low);
        sequences.push(high);
    }
    for room in [39usize, 47] {
        for sequence in &sequences {
            for front in [0, 5, room - 1 - sequence.len().min(room - 1)] {
                let mut name = vec![b'a'; front];
                name.extend(sequence);
                name.resize(room, 0);
                block.case(b'T', &name);
            }
        }
        for length in 0..=room {
            let mut name = vec![b'x'; length];
            name.resize(room, 0);
            block.case(b'T', &name);
        }
        for _ in 0..60 {
            block.case(b'T', &random.bytes(room));
        }
    }
}

pub fn block() -> Block {
    let mut block = Block::default();
    let mut random = Random(0x5EED_0001);
    for raw in whole() {
        for scale in SCALES {
            read_case(&mut block, b'w', scale, 0, &raw.to_be_bytes());
        }
    }
    for raw in [0i16, 1, -1, 2, -2, 9, -9, 255, 256, 1234, -1234, 32766, 32767, -32767, -32768] {
        for scale in SCALES {
            read_case(&mut block, b'h', scale, 0, &raw.to_be_bytes());
        }
    }
    let floats = [
        0, 1, 2, 0x007F_FFFF, 0x0080_0000, 0x3F80_0000, 0x3FC0_0000, 0x7F7F_FFFF, 0x7F80_0000, 0x7F80_0001, 0x7FC0_0000, 0x7FFF_FFFF,
    ];
    for bits in floats {
        for sign in [0u32, 0x8000_0000] {
            read_case(&mut block, b'F', 1.0, 0, &(bits | sign).to_be_bytes());
            for scale in SCALES {
                write_case(&mut block, b'W', scale, 0, 4, bits | sign);
            }
        }
    }
    for whole in whole() {
        for scale in &SCALES[..7] {
            let value = whole as f32 / scale;
            for bits in [value.to_bits().wrapping_sub(1), value.to_bits(), value.to_bits().wrapping_add(1)] {
                write_case(&mut block, b'W', *scale, 1, 6, bits);
            }
        }
        write_case(&mut block, b'I', 1.0, 0, 5, whole as u32);
    }
    for letter in *b"bsutihwFd" {
        for room in 0..=14 {
            for pos in 0..=room + 2 {
                let slice = random.bytes(room);
                read_case(&mut block, letter, 10.0, pos, &slice);
            }
        }
    }
    for letter in *b"BSUIW" {
        for room in 0..=6 {
            for pos in 0..=room + 2 {
                let value = random.next() as u32;
                write_case(&mut block, letter, 1000.0, pos, room, value);
            }
        }
    }
    for (letter, room) in [(b'n', 39usize), (b'm', 47)] {
        for length in 0..=room + 1 {
            // a name, a NUL, and bytes after it; then the same cut off before its NUL
            let mut slice = vec![b'n'; length];
            read_case(&mut block, letter, 1.0, 0, &slice);
            slice.push(0);
            slice.extend(random.bytes(9));
            read_case(&mut block, letter, 1.0, 0, &slice);
            read_case(&mut block, letter, 1.0, 3, &slice);
            read_case(&mut block, letter, 1.0, slice.len() + 1, &slice);
        }
    }
    texts(&mut block, &mut random);
    block
}

/// Fresh random cases: numbers near their ends among them, names of every length, and texts of Unicode's rows with a byte changed.
pub fn some(block: &mut Block, random: &mut Random, count: usize) {
    let whole = whole();
    for _ in 0..count {
        match random.below(4) {
            0 => {
                let letter = random.one_of(b"bsutihwFd");
                let scale = random.one_of(&SCALES);
                let pos = if random.below(16) == 0 { random.below(256) } else { random.below(6) };
                let mut slice = random.bytes(pos);
                match random.below(3) {
                    0 => slice.extend(random.one_of(&whole).to_be_bytes()),
                    1 => slice.extend(&random.one_of(&whole).to_be_bytes()[2..]),
                    _ => {}
                }
                let more = random.below(14);
                slice.extend(random.bytes(more));
                let pos = if random.below(16) == 0 { slice.len() + random.below(4) } else { pos };
                read_case(block, letter, scale, pos, &slice);
            }
            1 => {
                let letter = random.one_of(b"BSUIW");
                let scale = random.one_of(&SCALES);
                let value = match random.below(3) {
                    0 => random.next() as u32,
                    1 => random.one_of(&whole) as u32,
                    _ => (random.one_of(&whole) as f32 / scale).to_bits().wrapping_add(random.below(3) as u32),
                };
                let (pos, room) = if random.below(16) == 0 { (random.below(256), 200 + random.below(56)) } else { (random.below(5), random.below(12)) };
                write_case(block, letter, scale, pos, room, value);
            }
            2 => {
                let (letter, room) = random.one_of(&[(b'n', 39usize), (b'm', 47)]);
                let pos = random.below(4);
                let mut slice = random.bytes(pos);
                let length = random.below(room + 3);
                slice.extend((0..length).map(|_| 1 + random.below(255) as u8));
                if random.below(4) > 0 {
                    slice.push(0);
                    let more = random.below(60);
                    slice.extend(random.bytes(more));
                }
                let pos = if random.below(16) == 0 { slice.len() + random.below(4) } else { pos };
                read_case(block, letter, 1.0, pos, &slice);
            }
            _ => {
                let room = random.one_of(&[39usize, 47]);
                let mut name = vec![];
                let length = random.below(room + 8);
                while name.len() < length {
                    let row = random.one_of(&ROWS);
                    name.extend(row.iter().map(|(low, high)| low + random.below((high - low) as usize + 1) as u8));
                }
                if !name.is_empty() && random.below(2) == 0 {
                    let at = random.below(name.len());
                    name[at] = random.next() as u8;
                }
                name.resize(room, 0);
                block.case(b'T', &name);
            }
        }
    }
}
