//! Replies in: `decode` of slices, good frames and damaged ones.
//!
//! A case, letter r: the slice. The answer: `given COUNT DIGEST`, or `refused NUMBER` with the values returned with it and a digest.
//! The digest takes in a whole reply as our struct has it: the kind's id, then every field of all five records as a word of 32 bits, in the
//! order of the Rust's structs (a float by its bits, any NaN as 7fc00000; a flag as 0 or 1; an enum by its number; each byte of a name
//! or uuid as a word). The records of other kinds, and all of them on a refusal, hold zeros, and the kind is then 0 (document 01).
//! In front of a telemetry record stands its mask, which the Rust does not keep (document 02, W1): it is taken from the frame's own bytes.

use crate::answer::Answer;
use crate::{Block, Random, number};
use vesc::{CommandReply, DecodeError, FwInfo, FwVersion, HwType, NrfFlags, QmlAppFlags, QmlHw, SetupValues, Stats, Values};

fn of_values(a: &mut Answer, mask: u32, v: &Values) {
    a.word("values.mask", mask);
    a.float("values.temp_mosfet", v.temp_mosfet);
    a.float("values.temp_motor", v.temp_motor);
    a.float("values.avg_current_motor", v.avg_current_motor);
    a.float("values.avg_current_input", v.avg_current_input);
    a.float("values.avg_current_d", v.avg_current_d);
    a.float("values.avg_current_q", v.avg_current_q);
    a.float("values.duty_cycle", v.duty_cycle);
    a.float("values.rpm", v.rpm);
    a.float("values.voltage_in", v.voltage_in);
    a.float("values.amp_hours", v.amp_hours);
    a.float("values.amp_hours_charged", v.amp_hours_charged);
    a.float("values.watt_hours", v.watt_hours);
    a.float("values.watt_hours_charged", v.watt_hours_charged);
    a.word("values.tachometer", v.tachometer as u32);
    a.word("values.tachometer_abs", v.tachometer_abs as u32);
    a.byte("values.fault_code", v.fault_code as u8);
    a.float("values.pid_pos", v.pid_pos);
    a.byte("values.controller_id", v.controller_id);
    a.float("values.temp_mosfet1", v.temp_mosfet1);
    a.float("values.temp_mosfet2", v.temp_mosfet2);
    a.float("values.temp_mosfet3", v.temp_mosfet3);
    a.float("values.avg_voltage_d", v.avg_voltage_d);
    a.float("values.avg_voltage_q", v.avg_voltage_q);
    a.byte("values.status", v.status);
}

fn of_setup_values(a: &mut Answer, mask: u32, v: &SetupValues) {
    a.word("setup_values.mask", mask);
    a.float("setup_values.temp_mosfet", v.temp_mosfet);
    a.float("setup_values.temp_motor", v.temp_motor);
    a.float("setup_values.avg_current_motor", v.avg_current_motor);
    a.float("setup_values.avg_current_input", v.avg_current_input);
    a.float("setup_values.duty_cycle", v.duty_cycle);
    a.float("setup_values.rpm", v.rpm);
    a.float("setup_values.speed", v.speed);
    a.float("setup_values.voltage_in", v.voltage_in);
    a.float("setup_values.battery_level", v.battery_level);
    a.float("setup_values.amp_hours", v.amp_hours);
    a.float("setup_values.amp_hours_charged", v.amp_hours_charged);
    a.float("setup_values.watt_hours", v.watt_hours);
    a.float("setup_values.watt_hours_charged", v.watt_hours_charged);
    a.float("setup_values.distance", v.distance);
    a.float("setup_values.distance_abs", v.distance_abs);
    a.float("setup_values.pid_pos", v.pid_pos);
    a.byte("setup_values.fault_code", v.fault_code as u8);
    a.byte("setup_values.controller_id", v.controller_id);
    a.byte("setup_values.num_vescs", v.num_vescs);
    a.float("setup_values.watt_hours_battery_left", v.watt_hours_battery_left);
    a.word("setup_values.odometer", v.odometer);
    a.word("setup_values.uptime_ms", v.uptime_ms);
}

fn of_stats(a: &mut Answer, mask: u32, v: &Stats) {
    a.word("stats.mask", mask);
    a.float("stats.speed_avg", v.speed_avg);
    a.float("stats.speed_max", v.speed_max);
    a.float("stats.power_avg", v.power_avg);
    a.float("stats.power_max", v.power_max);
    a.float("stats.current_avg", v.current_avg);
    a.float("stats.current_max", v.current_max);
    a.float("stats.temp_mosfet_avg", v.temp_mosfet_avg);
    a.float("stats.temp_mosfet_max", v.temp_mosfet_max);
    a.float("stats.temp_motor_avg", v.temp_motor_avg);
    a.float("stats.temp_motor_max", v.temp_motor_max);
    a.float("stats.count_time", v.count_time);
}

fn of_fw_version(a: &mut Answer, v: &FwVersion) {
    a.byte("fw_version.major", v.major);
    a.byte("fw_version.minor", v.minor);
    a.bytes("fw_version.hw_name", &v.hw_name);
    a.bytes("fw_version.uuid", &v.uuid);
    a.flag("fw_version.pairing_done", v.pairing_done);
    a.byte("fw_version.test_version_number", v.test_version_number);
    a.byte("fw_version.hw_type", v.hw_type as u8);
    a.byte("fw_version.custom_config_num", v.custom_config_num);
    a.flag("fw_version.has_phase_filters", v.has_phase_filters);
    a.byte("fw_version.qml_hw", v.qml_hw as u8);
    a.byte("fw_version.qml_app", v.qml_app.bits());
    a.byte("fw_version.nrf_flags", v.nrf_flags.bits());
    a.bytes("fw_version.fw_name", &v.fw_name);
    a.word("fw_version.hw_crc", v.hw_crc);
}

fn of_fw_info(a: &mut Answer, v: &FwInfo) {
    a.byte("fw_info.major", v.major);
    a.byte("fw_info.minor", v.minor);
    a.byte("fw_info.test_version_number", v.test_version_number);
    a.bytes("fw_info.commit_hash", &v.commit_hash);
    a.bytes("fw_info.user_commit_hash", &v.user_commit_hash);
}

pub fn no_fw_version() -> FwVersion {
    FwVersion {
        major: 0,
        minor: 0,
        hw_name: [0; 39],
        uuid: [0; 12],
        pairing_done: false,
        test_version_number: 0,
        hw_type: HwType::Vesc,
        custom_config_num: 0,
        has_phase_filters: false,
        qml_hw: QmlHw::None,
        qml_app: QmlAppFlags::empty(),
        nrf_flags: NrfFlags::empty(),
        fw_name: [0; 39],
        hw_crc: 0,
    }
}

pub fn no_fw_info() -> FwInfo {
    FwInfo { major: 0, minor: 0, test_version_number: 0, commit_hash: [0; 47], user_commit_hash: [0; 47] }
}

/// A reply's id.
pub fn id(reply: &CommandReply) -> u8 {
    match reply {
        CommandReply::FwVersion(_) => 0,
        CommandReply::GetValues(_) => 4,
        CommandReply::GetValuesSelective(_) => 50,
        CommandReply::GetValuesSetupSelective(_) => 51,
        CommandReply::GetStats(_) => 128,
        CommandReply::ResetStats => 129,
        CommandReply::FwInfo(_) => 157,
    }
}

/// The four bytes behind a frame's id. A masked frame has them; a wrong variant of the Rust may give a reply for fewer.
fn received(frame: &[u8]) -> u32 {
    frame.get(3..7).map_or(0, |mask| u32::from_be_bytes(mask.try_into().unwrap()))
}

/// Document 02's mask of GetValues, whose frame has none.
const ALL_VALUES: u32 = 0x3F_FFFF;

/// A whole reply and the frame that it was read from, or the one that stands where there is none.
pub fn whole(a: &mut Answer, reply: Option<&CommandReply>, frame: &[u8]) {
    a.byte("kind", reply.map_or(0, id));
    match reply {
        Some(CommandReply::GetValues(v)) => of_values(a, ALL_VALUES, v),
        Some(CommandReply::GetValuesSelective(v)) => of_values(a, received(frame), v),
        _ => of_values(a, 0, &Values::default()),
    }
    match reply {
        Some(CommandReply::GetValuesSetupSelective(v)) => of_setup_values(a, received(frame), v),
        _ => of_setup_values(a, 0, &SetupValues::default()),
    }
    match reply {
        Some(CommandReply::GetStats(v)) => of_stats(a, received(frame), v),
        _ => of_stats(a, 0, &Stats::default()),
    }
    match reply {
        Some(CommandReply::FwVersion(v)) => of_fw_version(a, v),
        _ => of_fw_version(a, &no_fw_version()),
    }
    match reply {
        Some(CommandReply::FwInfo(v)) => of_fw_info(a, v),
        _ => of_fw_info(a, &no_fw_info()),
    }
}

/// A refusal's number and the values returned with it.
pub fn refused(answer: &mut Answer, error: &DecodeError) {
    answer.refused(number(error));
    match error {
        DecodeError::UnknownPacket { id } => answer.say("id", id),
        DecodeError::ChecksumMismatch { expected, actual } => {
            answer.say("expected", expected);
            answer.say("actual", actual);
        }
        _ => {}
    }
}

pub fn answer(answer: &mut Answer, slice: &[u8]) {
    let decoded = vesc::decode(slice);
    match &decoded {
        Ok((count, _)) => {
            answer.good = true;
            answer.given(*count);
        }
        Err(error) => refused(answer, error),
    }
    whole(answer, decoded.ok().as_ref().map(|(_, reply)| reply), slice);
    answer.digest();
}

fn decode(block: &mut Block, slice: &[u8]) {
    block.case(b'r', slice);
}

fn crc(bytes: &[u8]) -> u16 {
    bytes.iter().fold(0u16, |sum, b| {
        (0..8).fold(sum ^ ((*b as u16) << 8), |r, _| if r & 0x8000 != 0 { (r << 1) ^ 0x1021 } else { r << 1 })
    })
}

pub fn framed(payload: &[u8]) -> Vec<u8> {
    let mut frame = vec![2, payload.len() as u8];
    frame.extend(payload);
    frame.extend(crc(payload).to_be_bytes());
    frame.push(3);
    frame
}

/// The widths of the fields that each bit governs.
const VALUES: [usize; 22] = [2, 2, 4, 4, 4, 4, 2, 4, 2, 4, 4, 4, 4, 4, 4, 1, 4, 1, 6, 4, 4, 1];
const SETUP: [usize; 22] = [2, 2, 4, 4, 2, 4, 4, 2, 2, 4, 4, 4, 4, 4, 4, 4, 1, 1, 1, 4, 4, 4];
const STATS: [usize; 11] = [4; 11];

pub fn widths_of(id: u8) -> &'static [usize] {
    match id {
        51 => &SETUP,
        128 => &STATS,
        _ => &VALUES,
    }
}

/// A masked reply with the given bytes for its fields: `bytes` is asked for each field in turn, by its width.
pub fn masked(id: u8, mask: u32, mut bytes: impl FnMut(usize) -> Vec<u8>) -> Vec<u8> {
    let mut payload = vec![id];
    let mask = if id == 4 { (1 << 22) - 1 } else { mask };
    if id != 4 {
        payload.extend(mask.to_be_bytes());
    }
    for (bit, width) in widths_of(id).iter().enumerate() {
        if mask >> bit & 1 == 1 {
            // bit 18 of the values governs three halves
            for part in if *width == 6 { vec![2, 2, 2] } else { vec![*width] } {
                payload.extend(bytes(part));
            }
        }
    }
    framed(&payload)
}

/// The lowest bytes of a number, as many as a field is wide.
fn lowest(number: i32, width: usize) -> Vec<u8> {
    number.to_be_bytes()[4 - width..].to_vec()
}

pub fn name(random: &mut Random, length: usize) -> Vec<u8> {
    let mut name: Vec<u8> = (0..length).map(|_| 1 + random.below(255) as u8).collect();
    name.push(0);
    name
}

pub fn fw_version(random: &mut Random, hw: usize, fw: usize) -> Vec<u8> {
    let mut payload = vec![0];
    payload.extend(random.bytes(2));
    payload.extend(name(random, hw));
    payload.extend(random.bytes(20));
    payload.extend(name(random, fw));
    payload.extend(random.bytes(4));
    framed(&payload)
}

pub fn fw_info(random: &mut Random, commit: usize, user: usize) -> Vec<u8> {
    let mut payload = vec![157];
    payload.extend(random.bytes(3));
    payload.extend(name(random, commit));
    payload.extend(name(random, user));
    framed(&payload)
}

/// A length up to `most`; one in four is 0 or `most`.
fn near_ends(random: &mut Random, most: usize) -> usize {
    match random.below(8) {
        0 => 0,
        1 => most,
        _ => random.below(most + 1),
    }
}

/// A good frame of any kind.
pub fn any(random: &mut Random) -> Vec<u8> {
    match random.below(7) {
        0 => {
            let (hw, fw) = (near_ends(random, 38), near_ends(random, 38));
            fw_version(random, hw, fw)
        }
        1 => {
            let (commit, user) = (near_ends(random, 46), near_ends(random, 46));
            fw_info(random, commit, user)
        }
        2 => framed(&[129]),
        kind => {
            let id = [4, 50, 51, 128][kind - 3];
            let mut mask = random.next() as u32;
            if random.below(2) == 0 {
                mask &= (1 << 22) - 1;
            }
            if random.below(3) == 0 {
                mask &= random.next() as u32;
            }
            match random.below(16) {
                0 => mask |= (1 << 22) - 1,
                1 => mask &= !((1 << 22) - 1),
                2 => mask = 1 << random.below(32),
                3 => mask = 0,
                _ => {}
            }
            let (near, ends) = (random.below(3) == 0, ends());
            masked(id, mask, |n| if near { lowest(random.one_of(&ends), n) } else { random.bytes(n) })
        }
    }
}

/// The whole numbers' ends, those around 2^24, and the floats' ends by their bits.
fn ends() -> Vec<i32> {
    let mut all = vec![0, 1, -1, i32::MAX, i32::MIN, 32767, -32768, 0x7FFF_7FFF, -0x7FFF_8000];
    for step in -3..=3 {
        all.extend([(1 << 24) + step, -(1 << 24) + step]);
    }
    for bits in [0x7F80_0000u32, 0x7F7F_FFFF, 0x7FC0_0000, 0x7F80_0001, 0x0080_0000, 0x007F_FFFF] {
        all.extend([bits as i32, (bits | 0x8000_0000) as i32]);
    }
    all
}

/// A copy with one byte changed.
pub fn damaged(random: &mut Random, frame: &[u8]) -> Vec<u8> {
    let mut bad = frame.to_vec();
    let at = random.below(bad.len());
    bad[at] ^= 1 + random.below(255) as u8;
    bad
}

/// A copy with one bit changed.
fn bit_changed(random: &mut Random, frame: &[u8]) -> Vec<u8> {
    let mut bad = frame.to_vec();
    // the frame's own five bytes half of the time: start, length, sum, end
    let n = bad.len();
    let at = if random.below(2) == 0 { random.one_of(&[0, 1, n - 3, n - 2, n - 1]) } else { random.below(n) };
    bad[at] ^= 1 << random.below(8);
    bad
}

/// Several of the frame's own bytes changed at once, so that the order of the refusals shows; half of them cut somewhere too.
fn several_changed(random: &mut Random, frame: &[u8]) -> Vec<u8> {
    let mut bad = frame.to_vec();
    let n = bad.len();
    for at in [1, 2, n - 3, n - 1] {
        if random.below(2) == 0 {
            bad[at] = random.one_of(&[0, 1, 2, 3, 4, 34, 159, 255, bad[at] ^ 0x80, bad[at].wrapping_add(1), bad[at].wrapping_sub(1)]);
        }
    }
    if random.below(2) == 0 {
        bad.truncate(n - random.below(n.min(8)));
    }
    bad
}

/// A frame whose right sum is 0: the last two bytes of the payload are the sum of those before. And one that has 0 or FFFF for its sum.
fn rare_sum(random: &mut Random) -> Vec<u8> {
    let (hw, fw) = (random.below(39), random.below(39));
    let mut frame = fw_version(random, hw, fw);
    let n = frame.len();
    if random.below(2) == 0 {
        let sum = crc(&frame[2..n - 5]).to_be_bytes();
        frame[n - 5..n - 3].copy_from_slice(&sum);
        return summed(&frame);
    }
    let byte = random.one_of(&[0, 255]);
    frame[n - 3..n - 1].fill(byte);
    frame
}

/// The sum put right again, over the declared length where the frame has it.
pub fn summed(frame: &[u8]) -> Vec<u8> {
    let mut again = frame.to_vec();
    let n = frame.len() - 5;
    let sum = crc(&again[2..2 + n]).to_be_bytes();
    again[2 + n..4 + n].copy_from_slice(&sum);
    again
}

pub fn block() -> Block {
    let mut block = Block::default();
    let mut random = Random(0x5EED_0004);
    // every masked reply with no bit, each bit, all bits, unknown bits; random bytes, and every number at its ends
    for id in [50u8, 51, 128] {
        let mut masks: Vec<u32> = (0..32).map(|bit| 1 << bit).collect();
        masks.extend([0, u32::MAX, (1 << 22) - 1, (1 << 11) - 1, 0xFFC0_0000, 0x0004_0001]);
        for mask in masks {
            for _ in 0..12 {
                decode(&mut block, &masked(id, mask, |n| random.bytes(n)));
            }
            for whole in ends() {
                decode(&mut block, &masked(id, mask, |n| lowest(whole, n)));
            }
        }
    }
    for _ in 0..200 {
        decode(&mut block, &masked(4, 0, |n| random.bytes(n)));
    }
    // every byte field at all 256 values
    for byte in 0..=255u8 {
        decode(&mut block, &masked(50, 1 << 15 | 1 << 17 | 1 << 21, |n| vec![byte; n]));
        decode(&mut block, &masked(51, 1 << 16 | 1 << 17 | 1 << 18, |n| vec![byte; n]));
        let mut version = fw_version(&mut random, 3, 4);
        version[3] = byte;
        version[4] = byte;
        for at in 9..29 {
            version[at] = byte;
        }
        decode(&mut block, &summed(&version));
        let mut info = fw_info(&mut random, 5, 6);
        for at in 3..6 {
            info[at] = byte;
        }
        decode(&mut block, &summed(&info));
    }
    // names of every length, and with damage
    for length in 0..=40 {
        for other in [0, 1, 20, 38] {
            for frame in [fw_version(&mut random, length, other), fw_version(&mut random, other, length)] {
                decode(&mut block, &frame);
                let bad = damaged(&mut random, &frame);
                decode(&mut block, &bad);
                decode(&mut block, &summed(&bad));
            }
        }
    }
    for length in 0..=48 {
        for other in [0, 1, 20, 46] {
            for frame in [fw_info(&mut random, length, other), fw_info(&mut random, other, length)] {
                decode(&mut block, &frame);
                let bad = damaged(&mut random, &frame);
                decode(&mut block, &bad);
                decode(&mut block, &summed(&bad));
            }
        }
    }
    // a longest frame of each kind: cut at every length, with more behind it, and damaged at every byte
    let mut longest = vec![framed(&[129]), fw_version(&mut random, 38, 38), fw_info(&mut random, 46, 46)];
    for id in [4u8, 50, 51, 128] {
        longest.push(masked(id, (1 << 22) - 1, |n| random.bytes(n)));
    }
    for frame in &longest {
        for length in 0..=frame.len() {
            decode(&mut block, &frame[..length]);
            let mut more = frame.clone();
            more.extend(random.bytes(length));
            decode(&mut block, &more);
        }
        for at in 0..frame.len() {
            for flip in [1u8, 0x80, 0xFF] {
                let mut bad = frame.clone();
                bad[at] ^= flip;
                decode(&mut block, &bad);
                decode(&mut block, &summed(&bad));
                // the same byte damaged, and the rest cut off behind it
                decode(&mut block, &bad[..=at]);
            }
        }
    }
    // all inputs of length 0 to 2 over the bytes that matter, and those of length 3 behind a start byte
    let matter: Vec<u8> = vec![0, 1, 2, 3, 4, 5, 6, 7, 8, 9, 10, 29, 30, 34, 50, 51, 84, 110, 128, 129, 156, 157, 159, 254, 255];
    decode(&mut block, &[]);
    for a in &matter {
        decode(&mut block, &[*a]);
        for b in &matter {
            decode(&mut block, &[*a, *b]);
            decode(&mut block, &[2, *a, *b]);
        }
    }
    some(&mut block, &mut random, 4000);
    block
}

/// Fresh random cases: good frames with bytes behind them, damage, cuts and noise.
pub fn some(block: &mut Block, random: &mut Random, count: usize) {
    for _ in 0..count {
        let frame = any(random);
        let slice = match random.below(15) {
            0..=6 => {
                // one in 64 is longer than a decoder holds
                let more = if random.below(64) == 0 { random.below(1500) } else { random.below(8) };
                let mut slice = frame;
                slice.extend(random.bytes(more));
                slice
            }
            7 => damaged(random, &frame),
            8 => {
                let bad = damaged(random, &frame);
                summed(&bad)
            }
            9 => bit_changed(random, &frame),
            10 => several_changed(random, &frame),
            12 if random.below(4) == 0 => {
                // only the byte fields: fault code, id, status or number
                let id = random.one_of(&[50, 51]);
                let mask = if id == 50 { 1 << 15 | 1 << 17 | 1 << 21 } else { 1 << 16 | 1 << 17 | 1 << 18 };
                masked(id, mask, |n| random.bytes(n))
            }
            11 if random.below(4) == 0 => rare_sum(random),
            11 => {
                // any id, behind any length
                let n = random.below(8);
                let mut slice = vec![2];
                slice.extend(random.bytes(2 + n));
                slice
            }
            _ => {
                let length = random.below(frame.len() + 1);
                frame[..length].to_vec()
            }
        };
        decode(block, &slice);
    }
}
