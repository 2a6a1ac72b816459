//! Command frames in: a reader and a writer-back, which the Rust does not have. This is a reference for both, from document 02's words (W2).
//! The sum is the Rust's, and the good frames are made by its own `encode`: it is asserted that each is read as it was given (hops, command,
//! whole number) and written back the same.
//!
//! A frame read, letter R: the slice. The answer: `given COUNT`, or `refused NUMBER` with the values returned with it, as for letter r. Into the
//! digest go the command's place in the list of commands.rs, its number's bits as letter c has them (of a scaled one, those of the whole number
//! sent; 0 where it carries none), the length of the hop part, and the hop part; where it is refused, zeros and an empty hop part.
//! What was given is written back into a buffer of COUNT + 1 bytes of A5: `given COUNT` or `refused NUMBER`, and the buffer goes into the digest.
//! A hop part and a command put into a frame, letter P: the command's place, its number's bits (four bytes), the buffer's length (two bytes),
//! and the hop part. The buffer holds A5 everywhere. The answer: `given COUNT` or `refused NUMBER`, and a digest of the whole buffer.

use crate::answer::Answer;
use crate::commands::{COMMANDS, command, ends, plain_length, scale, with_hops};
use crate::gateway::ASSERTED;
use crate::replies::{damaged, framed, refused, summed};
use crate::{Block, DecodeError, Random};

/// As the Rust has it.
const CRC16: crc::Crc<u16> = crc::Crc::<u16>::new(&crc::CRC_16_XMODEM);
/// `CommandId`, in the order of the commands' places; that of a hop is not among them.
const IDS: [u8; COMMANDS as usize] = [0, 4, 5, 6, 7, 8, 9, 10, 29, 30, 50, 51, 84, 110, 128, 129, 156, 157, 159];
const FORWARD: u8 = 34;
const START: u8 = 2;
const END: u8 = 3;

/// Document 02's numbers of the writer's refusals.
const INVALID_FRAME: u8 = 2;
const BUFFER_TOO_SMALL: u8 = 5;
const PAYLOAD_TOO_LONG: u8 = 6;

/// What a frame is read into. The hops are the front part of the payload.
#[derive(Default)]
struct Reading {
    hops: Vec<u8>,
    place: u8,
    number: u32,
}

/// The frame's length and what it says.
fn read(slice: &[u8]) -> Result<(usize, Reading), DecodeError> {
    start_judged(slice)?;
    let frame = present(slice)?;
    end_judged(frame)?;
    sum_judged(frame)?;
    let reading = of_payload(&frame[2..frame.len() - 3])?;
    Ok((frame.len(), reading))
}

fn start_judged(slice: &[u8]) -> Result<(), DecodeError> {
    match slice.first() {
        None => Err(DecodeError::IncompleteData),
        Some(&START) => Ok(()),
        Some(_) => Err(DecodeError::InvalidFrame),
    }
}

/// The frame without the bytes behind it.
fn present(slice: &[u8]) -> Result<&[u8], DecodeError> {
    let length = *slice.get(1).ok_or(DecodeError::IncompleteData)? as usize;
    slice.get(..length + 5).ok_or(DecodeError::IncompleteData)
}

fn end_judged(frame: &[u8]) -> Result<(), DecodeError> {
    if frame[frame.len() - 1] == END { Ok(()) } else { Err(DecodeError::InvalidFrame) }
}

fn sum_judged(frame: &[u8]) -> Result<(), DecodeError> {
    let n = frame.len() - 3;
    let expected = u16::from_be_bytes([frame[n], frame[n + 1]]);
    let actual = CRC16.checksum(&frame[2..n]);
    if expected == actual { Ok(()) } else { Err(DecodeError::ChecksumMismatch { expected, actual }) }
}

/// From the left: the hops, the command's id, its number.
fn of_payload(payload: &[u8]) -> Result<Reading, DecodeError> {
    let mut at = 0;
    while payload.get(at) == Some(&FORWARD) {
        at += 2;
    }
    let (hops, plain) = payload.split_at_checked(at).ok_or(DecodeError::InvalidFrame)?;
    let (id, body) = plain.split_first().ok_or(DecodeError::InvalidFrame)?;
    let place = IDS.iter().position(|known| known == id).ok_or(DecodeError::UnknownPacket { id: *id })? as u8;
    let number = carried(place, body).ok_or(DecodeError::InvalidFrame)?;
    Ok(Reading { hops: hops.to_vec(), place, number })
}

/// The number behind a command's id. There is none where the bytes are too few or too many, or a flag is above 1.
fn carried(place: u8, body: &[u8]) -> Option<u32> {
    match (place, body) {
        (0 | 1 | 8 | 9 | 17, []) => Some(0),
        (15, [ack]) => flag(*ack),
        (16, [force, restart]) => Some(flag(*force)? | flag(*restart)? << 1),
        (14 | 18, [high, low]) => Some(u16::from_be_bytes([*high, *low]) as u32),
        (2..=7 | 10..=13, [a, b, c, d]) => Some(u32::from_be_bytes([*a, *b, *c, *d])),
        _ => None,
    }
}

fn flag(byte: u8) -> Option<u32> {
    (byte <= 1).then_some(byte as u32)
}

/// The length of the frame that was written, or the refusal's number: the buffer is then as it was.
fn put(hops: &[u8], place: u8, number: u32, buffer: &mut [u8]) -> Result<usize, u8> {
    if !well_formed(hops) {
        return Err(INVALID_FRAME);
    }
    let mut payload = hops.to_vec();
    payload.extend(plain(place, number));
    if payload.len() > 255 {
        return Err(PAYLOAD_TOO_LONG);
    }
    let mut frame = vec![START, payload.len() as u8];
    frame.extend(&payload);
    frame.extend(CRC16.checksum(&payload).to_be_bytes());
    frame.push(END);
    if buffer.len() < frame.len() {
        return Err(BUFFER_TOO_SMALL);
    }
    buffer[..frame.len()].copy_from_slice(&frame);
    Ok(frame.len())
}

/// 34 and an id by turns.
fn well_formed(hops: &[u8]) -> bool {
    hops.chunks(2).all(|hop| matches!(hop, [FORWARD, _]))
}

/// The payload without hops.
fn plain(place: u8, number: u32) -> Vec<u8> {
    let mut bytes = vec![IDS[place as usize]];
    match place {
        0 | 1 | 8 | 9 | 17 => {}
        15 => bytes.push((number & 1) as u8),
        16 => bytes.extend([(number & 1) as u8, (number >> 1 & 1) as u8]),
        14 | 18 => bytes.extend((number as u16).to_be_bytes()),
        _ => bytes.extend(number.to_be_bytes()),
    }
    bytes
}

fn of_reading(answer: &mut Answer, reading: &Reading) {
    answer.byte("place", reading.place);
    answer.word("number", reading.number);
    answer.word("length of the hop part", reading.hops.len() as u32);
    answer.bytes("hop part", &reading.hops);
}

/// The outcome of a writing into a buffer of A5, and the buffer.
fn of_put(answer: &mut Answer, reading: &Reading, room: usize) {
    let mut buffer = vec![0xA5; room];
    match put(&reading.hops, reading.place, reading.number, &mut buffer) {
        Ok(count) => answer.given(count),
        Err(number) => answer.refused(number),
    }
    answer.bytes("buffer", &buffer);
}

/// Letter R.
pub fn read_back(answer: &mut Answer, slice: &[u8]) {
    match read(slice) {
        Ok((count, reading)) => {
            answer.given(count);
            of_reading(answer, &reading);
            of_put(answer, &reading, count + 1);
        }
        Err(error) => {
            refused(answer, &error);
            of_reading(answer, &Reading::default());
        }
    }
    answer.digest();
}

/// Letter P.
pub fn put_together(answer: &mut Answer, case: &[u8]) {
    if case.len() < 7 {
        return answer.cut_short();
    }
    let number = u32::from_be_bytes(case[1..5].try_into().unwrap());
    let room = u16::from_be_bytes([case[5], case[6]]) as usize;
    // a place over the last means the last, as for letter c
    let reading = Reading { hops: case[7..].to_vec(), place: case[0].min(COMMANDS - 1), number };
    of_put(answer, &reading, room);
    answer.digest();
}

/// The frame that the Rust's own `encode` writes.
fn encoded(place: u8, bits: u32, ids: &[u8]) -> Vec<u8> {
    let mut frame = vec![0; 2 * ids.len() + plain_length(place) + 5];
    let count = with_hops(ids, command(place, bits), &mut |c| vesc::encode(c, &mut frame)).unwrap();
    frame.truncate(count);
    if ASSERTED {
        held_to(&frame, place, bits, ids);
    }
    frame
}

/// The Rust's frame is read as it was given, and written back the same.
fn held_to(frame: &[u8], place: u8, bits: u32, ids: &[u8]) {
    let (count, reading) = read(frame).unwrap();
    assert!(count == frame.len() && reading.place == place && reading.hops == hop_part(ids), "reader: {frame:?} is read wrong");
    assert!(reading.number == whole_number(place, bits), "reader: {frame:?} is read with the number {:08x}", reading.number);
    let mut again = vec![0; count];
    assert!(put(&reading.hops, place, reading.number, &mut again) == Ok(count) && again == frame, "reader: {frame:?} is written wrong");
}

/// What the Rust sends of a number's bits.
fn whole_number(place: u8, bits: u32) -> u32 {
    if let Some(scale) = scale(place) {
        return (f32::from_bits(bits) * scale) as i32 as u32;
    }
    match plain_length(place) {
        1 => 0,
        2 => bits & 1,
        3 if place == 16 => bits & 3,
        3 => bits & 0xFFFF,
        _ => bits,
    }
}

fn hop_part(ids: &[u8]) -> Vec<u8> {
    ids.iter().flat_map(|id| [FORWARD, *id]).collect()
}

/// The most hops that a command's payload has room for.
fn most_hops(place: u8) -> usize {
    (255 - plain_length(place)) / 2
}

fn reading(block: &mut Block, slice: &[u8]) {
    block.case(b'R', slice);
}

fn putting(block: &mut Block, place: u8, bits: u32, room: usize, hops: &[u8]) {
    let mut case = vec![place];
    case.extend(bits.to_be_bytes());
    case.extend((room as u16).to_be_bytes());
    case.extend(hops);
    block.case(b'P', &case);
}

/// Document 02's own examples, and the shortest inputs.
fn examples(block: &mut Block) {
    let payloads: [&[u8]; 12] =
        [&[34, 7, 99], &[34], &[34, 7], &[30, 0], &[34, 99], &[34, 34, 30], &[], &[99], &[30], &[34, 34], &[34, 34, 34], &[34, 34, 34, 34, 30]];
    for payload in payloads {
        reading(block, &framed(payload));
    }
    let slices: [&[u8]; 11] =
        [&[2, 0, 0, 0, 3], &[2, 0, 0, 1, 3], &[2, 0, 1, 0, 3], &[2, 0, 0, 0, 4], &[], &[2], &[2, 0], &[3], &[3, 0], &[2; 8], &[3; 8]];
    for slice in slices {
        reading(block, slice);
    }
}

/// The Rust's frames: every command at the ends of its number, and behind every number of hops that fits.
fn rusts_frames(block: &mut Block, random: &mut Random) {
    for place in 0..COMMANDS {
        for bits in ends(place) {
            for hops in [0, 1] {
                reading(block, &encoded(place, bits, &random.bytes(hops)));
            }
        }
        for count in 0..=most_hops(place) {
            let (bits, ids) = (random.next() as u32, random.bytes(count));
            let mut slice = encoded(place, bits, &ids);
            let more = random.one_of(&[0, 0, 1, 2, 9]);
            slice.extend(random.bytes(more));
            reading(block, &slice);
        }
    }
    for more in [255, 256, 600, 1500] {
        let mut slice = encoded(5, 1500, &[7]);
        slice.extend(random.bytes(more));
        reading(block, &slice);
    }
}

/// Each bit of a mask alone, known or not, and all but it.
fn mask_bits(block: &mut Block) {
    for bit in 0..32 {
        for place in [10, 11, 14] {
            reading(block, &encoded(place, 1 << bit, &[]));
            reading(block, &encoded(place, !(1 << bit), &[1]));
        }
    }
}

/// Behind right sums: every byte for an id, with nothing or a number behind it, and every length for each id.
fn ids_and_lengths(block: &mut Block) {
    for id in 0..=255 {
        reading(block, &framed(&[id]));
        reading(block, &framed(&[34, 7, id]));
        reading(block, &framed(&[34, 7, id, 0, 0, 1, 0]));
    }
    for id in IDS.into_iter().chain([FORWARD]) {
        for length in 0..10 {
            for byte in [1, FORWARD] {
                let mut payload = vec![id];
                payload.extend(vec![byte; length]);
                reading(block, &framed(&payload));
            }
        }
    }
}

fn flags(block: &mut Block) {
    let bytes = [0, 1, 2, 255];
    for a in bytes {
        reading(block, &framed(&[129, a]));
        reading(block, &framed(&[34, 7, 129, a]));
        for b in bytes {
            reading(block, &framed(&[156, a, b]));
            reading(block, &framed(&[34, 7, 156, a, b]));
        }
    }
}

/// Start, end, sum and payload wrong in every way at once, whole and cut: the order of the refusals.
fn orders(block: &mut Block) {
    let payloads: [&[u8]; 8] = [&[30], &[99], &[30, 0], &[], &[129, 2], &[34], &[34, 7], &[34, 7, 99]];
    for payload in payloads {
        for wrong in 0..8u8 {
            let mut slice = framed(payload);
            let n = slice.len();
            for (bit, at) in [0, n - 1, n - 2].into_iter().enumerate() {
                slice[at] ^= wrong >> bit & 1;
            }
            for length in [1, 2, n - 1, n] {
                reading(block, &slice[..length]);
            }
        }
    }
}

/// Frames of every form; the last is the longest.
fn a_few(random: &mut Random) -> Vec<Vec<u8>> {
    let ids = random.bytes(most_hops(5));
    vec![
        encoded(9, 0, &[]),
        encoded(3, 1.5f32.to_bits(), &[7]),
        encoded(16, 3, &[7, 34]),
        encoded(15, 1, &[]),
        encoded(10, 0x0040_0001, &[]),
        encoded(14, 0x8001, &[1, 2, 3]),
        encoded(5, -1500i32 as u32, &ids),
    ]
}

/// Each byte of a few frames changed, with the sum as it was and put right again; and every cut of them.
fn damage_and_cuts(block: &mut Block, random: &mut Random) {
    for frame in a_few(random) {
        for (at, byte) in frame.iter().enumerate() {
            let values = if frame.len() > 100 { vec![byte ^ 0x80] } else { vec![0, 1, 2, 3, 34, 99, 255, byte ^ 1, byte ^ 0x80] };
            for value in values {
                let mut bad = frame.clone();
                bad[at] = value;
                reading(block, &bad);
                reading(block, &summed(&bad));
            }
        }
        for length in 0..frame.len() {
            reading(block, &frame[..length]);
        }
    }
}

/// Every command behind hop parts of the right form, in rooms around the frame's size and from 0.
fn puts(block: &mut Block, random: &mut Random) {
    for place in 0..=COMMANDS {
        let all = if place < COMMANDS { ends(place) } else { vec![u32::MAX] };
        for bits in all.into_iter().chain([u32::MAX, 0x8001_0002]) {
            putting(block, place, bits, 12, &[34, 7]);
        }
        let most = most_hops(place.min(COMMANDS - 1));
        for count in [0, 1, 2, 64, most, most + 1, 128, 130] {
            let (bits, hops) = (random.next() as u32, hop_part(&random.bytes(count)));
            let size = hops.len() + plain_length(place.min(COMMANDS - 1)) + 5;
            let rooms = if count < 2 { (0..=size + 1).collect() } else { vec![0, 1, size - 1, size, size + 1] };
            for room in rooms {
                putting(block, place, bits, room, &hops);
            }
        }
    }
    putting(block, 255, 0x1234, 8, &[]);
}

/// Hop parts of any other form, some of them too long or with too little room as well.
fn ill_formed(block: &mut Block, random: &mut Random) {
    let mut parts = vec![];
    for length in [1usize, 2, 3, 4, 5, 9, 10, 251, 253, 255, 257, 300, 301] {
        let right = hop_part(&random.bytes(length.div_ceil(2)))[..length].to_vec();
        if length % 2 == 1 {
            parts.push(right.clone());
        }
        // a wrong byte at the first even place, one in the middle and the last
        for at in [0, length / 4 * 2, (length - 1) / 2 * 2] {
            for byte in [0, 33, 35, 162] {
                let mut part = right.clone();
                part[at] = byte;
                parts.push(part);
            }
        }
    }
    for part in parts {
        for place in [9, 5] {
            for room in [0, part.len() + 4, part.len() + 20] {
                putting(block, place, 1500, room, &part);
            }
        }
    }
}

pub fn block() -> Block {
    let mut block = Block::default();
    let mut random = Random(0x5EED_000A);
    examples(&mut block);
    rusts_frames(&mut block, &mut random);
    mask_bits(&mut block);
    ids_and_lengths(&mut block);
    flags(&mut block);
    orders(&mut block);
    damage_and_cuts(&mut block, &mut random);
    puts(&mut block, &mut random);
    ill_formed(&mut block, &mut random);
    some(&mut block, &mut random, 1000);
    block
}

fn any_place(random: &mut Random) -> u8 {
    random.below(COMMANDS as usize) as u8
}

/// Few hops most of the time, at times about as many as a payload has room for. One id in 8 is a hop's own.
fn any_ids(random: &mut Random, most: usize) -> Vec<u8> {
    let count = match random.below(8) {
        0..=4 => random.below(4),
        5 => random.below(most),
        _ => most - random.below(8),
    };
    random.bytes(count).into_iter().map(|id| if id % 8 == 0 { FORWARD } else { id }).collect()
}

fn any_bits(random: &mut Random, place: u8) -> u32 {
    if random.below(2) == 0 { random.next() as u32 } else { random.one_of(&ends(place)) }
}

/// A good frame by the Rust.
fn any_frame(random: &mut Random) -> Vec<u8> {
    let place = any_place(random);
    let ids = any_ids(random, most_hops(place));
    encoded(place, any_bits(random, place), &ids)
}

/// A payload that may be empty, short, overlong, or of an id that is not known. One in three has flags, right or not.
fn any_payload(random: &mut Random) -> Vec<u8> {
    let count = random.below(3);
    let mut payload = hop_part(&random.bytes(count));
    let place = if random.below(3) == 0 { random.one_of(&[15, 16]) } else { any_place(random) };
    match random.below(8) {
        0 => {}
        1 => payload.push(random.next() as u8),
        _ => payload.push(IDS[place as usize]),
    }
    let more = if random.below(2) == 0 { plain_length(place) - 1 } else { random.below(6) };
    payload.extend(random.bytes(more).iter().map(|byte| if *byte < 160 { byte % 3 } else { *byte }));
    payload
}

/// Several of start, end and sum changed at once, half of them cut too: the order of the refusals.
fn several_wrong(random: &mut Random) -> Vec<u8> {
    let mut bad = framed(&any_payload(random));
    let n = bad.len();
    for at in [0, n - 2, n - 1] {
        if random.below(2) == 0 {
            bad[at] ^= 1 + random.below(255) as u8;
        }
    }
    if random.below(2) == 0 {
        bad.truncate(random.below(n));
    }
    bad
}

/// Any hop part, right or not, and any command into any room.
fn some_put(block: &mut Block, random: &mut Random) {
    let place = any_place(random);
    let mut hops = hop_part(&any_ids(random, 131));
    match random.below(4) {
        0 => hops.push(random.one_of(&[FORWARD, 0])),
        1 if !hops.is_empty() => {
            // the last hop, or any
            let hop = if random.below(2) == 0 { hops.len() / 2 - 1 } else { random.below(hops.len() / 2) };
            hops[2 * hop] ^= 1 << random.below(8);
        }
        _ => {}
    }
    let size = hops.len() + plain_length(place) + 5;
    let room = match random.below(8) {
        0..=2 => random.below(size),
        3 => size + random.below(300),
        4 => size - 1,
        _ => size + random.below(3),
    };
    putting(block, place, any_bits(random, place), room, &hops);
}

/// Fresh random cases: the Rust's frames with bytes behind them, frames around any payload, damage, cuts and noise; and any writing.
pub fn some(block: &mut Block, random: &mut Random, count: usize) {
    for _ in 0..count {
        let slice = match random.below(16) {
            0..=3 => {
                let mut slice = any_frame(random);
                let more = if random.below(64) == 0 { random.below(1500) } else { random.below(8) };
                slice.extend(random.bytes(more));
                slice
            }
            4..=6 => framed(&any_payload(random)),
            7 => {
                let frame = any_frame(random);
                damaged(random, &frame)
            }
            8 => {
                let frame = any_frame(random);
                summed(&damaged(random, &frame))
            }
            9 | 10 => several_wrong(random),
            11 => {
                let frame = any_frame(random);
                frame[..random.below(frame.len())].to_vec()
            }
            12 => {
                let n = random.below(12);
                let mut slice = vec![2, random.below(8) as u8];
                slice.extend(random.bytes(n));
                slice
            }
            _ => {
                some_put(block, random);
                continue;
            }
        };
        reading(block, &slice);
    }
}
