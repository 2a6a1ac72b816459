//! Commands out: `encode`, of every command, behind hops, into buffers of every length; and the masks' constants.
//!
//! A case, letter c: the command's place in the list below, its number's bits (four bytes; two flags are the lowest two bits),
//! the buffer's length (two bytes), and the hops. The buffer holds A5 everywhere.
//! The answer: `given COUNT` or `refused NUMBER`, and a digest of the whole buffer after the call. Where the Rust refuses, its buffer is
//! not compared and the untouched one stands in; where the payload is over 255 bytes, `refused 6` stands for its wrapped length (document 01).
//! The case of the masks, letter M, has no bytes; its answer is every constant of the three, in the order of the bits.
//! A mask asked for bits, letter H: the sort of record (0 values, 1 setup values, else statistics), the mask and the bits (four bytes each). The
//! answer is `yes` or `no`, the Rust's `contains`; of statistics the lowest 16 bits are asked for, and the mask has no others in the Rust.

use crate::answer::Answer;
use crate::{Block, Random};
use vesc::{Command, StatsMask, ValuesMask, ValuesSetupMask};

pub const COMMANDS: u8 = 19;

pub fn command(place: u8, bits: u32) -> Command<'static> {
    let float = f32::from_bits(bits);
    match place {
        0 => Command::FwVersion,
        1 => Command::GetValues,
        2 => Command::SetDuty(float),
        3 => Command::SetCurrent(float),
        4 => Command::SetCurrentBrake(float),
        5 => Command::SetRpm(bits as i32),
        6 => Command::SetPos(float),
        7 => Command::SetHandbrake(float),
        8 => Command::Reboot,
        9 => Command::Alive,
        10 => Command::GetValuesSelective(ValuesMask::from_bits_retain(bits)),
        11 => Command::GetValuesSetupSelective(ValuesSetupMask::from_bits_retain(bits)),
        12 => Command::SetCurrentRel(float),
        13 => Command::SetOdometer(bits),
        14 => Command::GetStats(StatsMask::from_bits_retain(bits as u16)),
        15 => Command::ResetStats(bits & 1 == 1),
        16 => Command::Shutdown(bits & 1 == 1, bits & 2 == 2),
        17 => Command::FwInfo,
        _ => Command::MotorEstop(bits as u16),
    }
}

pub fn plain_length(place: u8) -> usize {
    match place {
        0 | 1 | 8 | 9 | 17 => 1,
        15 => 2,
        14 | 16 | 18 => 3,
        _ => 5,
    }
}

/// The command behind its hops: the first hop is the outermost ForwardCan.
pub fn with_hops<T>(hops: &[u8], command: Command, run: &mut dyn FnMut(Command) -> T) -> T {
    match hops.split_last() {
        None => run(command),
        Some((last, rest)) => with_hops(rest, Command::ForwardCan(*last, &command), run),
    }
}

pub fn answer(answer: &mut Answer, case: &[u8]) {
    if case.len() < 7 {
        return answer.cut_short();
    }
    let (place, hops) = (case[0], &case[7..]);
    let bits = u32::from_be_bytes(case[1..5].try_into().unwrap());
    let untouched = vec![0xA5u8; u16::from_be_bytes([case[5], case[6]]) as usize];
    let mut buffer = untouched.clone();
    if 2 * hops.len() + plain_length(place) > 255 {
        answer.refused(6);
    } else {
        match with_hops(hops, command(place, bits), &mut |c| vesc::encode(c, &mut buffer)) {
            Ok(count) => answer.given(count),
            Err(_) => {
                answer.refused(5);
                buffer = untouched;
            }
        }
    }
    answer.bytes("buffer", &buffer);
    answer.digest();
}

pub fn masks(answer: &mut Answer) {
    for (name, flag) in ValuesMask::all().iter_names() {
        answer.say(&format!("ValuesMask::{name}"), format!("{:08x}", flag.bits()));
    }
    for (name, flag) in ValuesSetupMask::all().iter_names() {
        answer.say(&format!("ValuesSetupMask::{name}"), format!("{:08x}", flag.bits()));
    }
    for (name, flag) in StatsMask::all().iter_names() {
        answer.say(&format!("StatsMask::{name}"), format!("{:08x}", flag.bits()));
    }
}

pub fn asked(answer: &mut Answer, case: &[u8]) {
    if case.len() < 9 {
        return answer.cut_short();
    }
    let word = |at: usize| u32::from_be_bytes(case[at..at + 4].try_into().unwrap());
    let (mask, bits) = (word(1), word(5));
    let has = match case[0] {
        0 => ValuesMask::from_bits_retain(mask).contains(ValuesMask::from_bits_retain(bits)),
        1 => ValuesSetupMask::from_bits_retain(mask).contains(ValuesSetupMask::from_bits_retain(bits)),
        _ => StatsMask::from_bits_retain(mask as u16).contains(StatsMask::from_bits_retain(bits as u16)),
    };
    answer.say("outcome", if has { "yes" } else { "no" });
}

fn ask(block: &mut Block, sort: u8, mask: u32, bits: u32) {
    let mut case = vec![sort];
    case.extend(mask.to_be_bytes());
    case.extend(bits.to_be_bytes());
    block.case(b'H', &case);
}

/// Each bit of a mask alone, of masks that have it alone, have all but it, or have all or none.
fn each_bit(block: &mut Block) {
    for sort in 0..3 {
        for bit in 0..32 {
            for mask in [1 << bit, !(1 << bit), u32::MAX, 0, 0x003F_FFFF] {
                ask(block, sort, mask, 1 << bit);
            }
        }
    }
}

/// Fresh random ones: some bits of the mask, some of those with one that it may lack, or any.
pub fn some_asked(block: &mut Block, random: &mut Random, count: usize) {
    for _ in 0..count {
        let mask = random.next() as u32;
        let bits = match random.below(4) {
            0 => mask & random.next() as u32,
            1 => mask & random.next() as u32 | 1 << random.below(32),
            2 => 1 << random.below(32),
            _ => random.next() as u32,
        };
        let sort = random.below(3) as u8;
        ask(block, sort, mask, bits);
    }
}

pub fn encode(block: &mut Block, place: u8, bits: u32, room: usize, hops: &[u8]) {
    let mut case = vec![place];
    case.extend(bits.to_be_bytes());
    case.extend((room as u16).to_be_bytes());
    case.extend(hops);
    block.case(b'c', &case);
}

/// What a scaled number is multiplied by.
pub fn scale(place: u8) -> Option<f32> {
    match place {
        2 | 12 => Some(100000.0),
        6 => Some(1000000.0),
        3 | 4 | 7 => Some(1000.0),
        _ => None,
    }
}

/// The bits that matter to a command's number.
pub fn ends(place: u8) -> Vec<u32> {
    match place {
        2 | 3 | 4 | 6 | 7 | 12 => {
            let scale = scale(place).unwrap();
            let mut all: Vec<u32> = [0u32, 1, 0x007F_FFFF, 0x0080_0000, 0x3FC0_0000, 0x7F7F_FFFF, 0x7F80_0000, 0x7FC0_0000]
                .iter()
                .flat_map(|b| [*b, *b | 0x8000_0000])
                .collect();
            for whole in [i32::MAX, i32::MIN, 1 << 24, 1500, -1500, 1] {
                let near = (whole as f32 / scale).to_bits();
                all.extend([near - 1, near, near + 1]);
            }
            all
        }
        5 | 10 | 11 | 13 => vec![0, 1, u32::MAX, u32::MAX - 1, 0x7FFF_FFFF, 0x8000_0000, (-1500i32) as u32, 0x0123_4567],
        14 | 18 => vec![0, 1, 0xFFFF, 0x8000, 0x1234],
        15 | 16 => vec![0, 1, 2, 3],
        _ => vec![0],
    }
}

pub fn block() -> Block {
    let mut block = Block::default();
    let mut random = Random(0x5EED_0003);
    block.case(b'M', &[]);
    each_bit(&mut block);
    for place in 0..COMMANDS {
        for bits in ends(place) {
            for count in [0usize, 1, 2] {
                let hops = random.bytes(count);
                let frame = 2 * count + plain_length(place) + 5;
                encode(&mut block, place, bits, frame, &hops);
                encode(&mut block, place, bits, frame + 1, &hops);
            }
        }
        for count in [0usize, 1, 2, 124, 125, 126, 127, 128, 129, 300] {
            let hops = random.bytes(count);
            let bits = random.next() as u32;
            let frame = 2 * count + plain_length(place) + 5;
            let lengths: Vec<usize> = match count {
                0..=2 => (0..=frame + 1).collect(),
                _ => vec![0, 1, 2, 3, frame - 4, frame - 3, frame - 2, frame - 1, frame, frame + 1],
            };
            for room in lengths {
                encode(&mut block, place, bits, room, &hops);
            }
        }
    }
    block
}

/// Fresh random cases.
pub fn some(block: &mut Block, random: &mut Random, count: usize) {
    for _ in 0..count {
        let place = random.below(COMMANDS as usize) as u8;
        let hops = match random.below(8) {
            0..=3 => random.below(4),
            4 => random.below(40),
            5 => 40 + random.below(80),
            _ => 120 + random.below(12),
        };
        let hops = random.bytes(hops);
        let frame = 2 * hops.len() + plain_length(place) + 5;
        let room = match random.below(8) {
            0 | 1 => random.below(frame + 8),
            2 => frame + random.below(1025 - frame),
            _ => frame + random.below(4),
        };
        let bits = match random.below(3) {
            0 => random.next() as u32,
            _ => {
                let all = ends(place);
                all[random.below(all.len())]
            }
        };
        encode(block, place, bits, room, &hops);
    }
}
