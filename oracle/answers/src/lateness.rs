//! How late a frame is given: streams with a false start before a good frame, and the Rust's own decoder measured on them.
//!
//! A false start is a byte 2 from which `decode` answers IncompleteData for a while: the reading waits there, and a good frame behind it is
//! given late. Document 02's bound (W13): a good frame that no earlier frame of the reading overlaps is given once 107 bytes, counted from
//! its first, have been taken in and asked for, or its own last byte if that is later. The cases are those of `streams.rs`.

use crate::figures::Figured;
use crate::gateway::ASSERTED;
use crate::replies::{any, framed, fw_info, fw_version, masked, summed, widths_of};
use crate::streams::{Script, long_frame, stretch};
use crate::{Block, CommandReply, DecodeError, Random, decode};

/// Document 02's bound.
const LATEST: usize = 107;
/// So many zeros end a stream: a false start before them is decided.
const ENOUGH: usize = 110;

/// A frame that the reading finds: its place, its bytes and its reply.
struct Read {
    place: usize,
    size: usize,
    reply: CommandReply,
}

/// The reading of a stream: a good frame is given and passed whole; where `decode` answers IncompleteData it stops; else it moves on one byte.
fn reading(stream: &[u8]) -> Vec<Read> {
    let (mut frames, mut place) = (vec![], 0);
    while place < stream.len() {
        match decode(&stream[place..]) {
            Ok((size, reply)) => {
                frames.push(Read { place, size, reply });
                place += size;
            }
            Err(DecodeError::IncompleteData) => break,
            Err(_) => place += 1,
        }
    }
    frames
}

/// A frame that the decoder gave. Late: the bytes taken in when it came, counted from its first. Behind: how far before it the decoder had
/// waited until then.
struct Given {
    frame: Read,
    late: usize,
    behind: usize,
}

/// The frames that the Rust's decoder gives, fed a byte at a time and asked until nothing comes after each.
fn one_by_one(stream: &[u8]) -> Vec<Given> {
    let mut line = Figured::default();
    let (mut all, mut waited) = (vec![], 0);
    for (k, byte) in stream.iter().enumerate() {
        line.feed(&[*byte]);
        loop {
            let (reply, frame) = line.next();
            let read = k + 1 - line.decoder.unread().len();
            let Some(reply) = reply else {
                waited = read;
                break;
            };
            let (place, size) = (read - frame.len(), frame.len());
            all.push(Given { frame: Read { place, size, reply }, late: k + 1 - place, behind: place.saturating_sub(waited) });
        }
    }
    all
}

/// Places, sizes and replies. By their text: a NaN is no equal of itself.
fn text<'a>(frames: impl Iterator<Item = &'a Read>) -> String {
    frames.map(|f| format!("{} {} {:?}\n", f.place, f.size, f.reply)).collect()
}

/// The good frames that no earlier frame of the reading overlaps, each with its lateness. It is asserted that the replies that come byte by byte
/// are those of the reading of the whole stream, and that none of these frames is too late.
fn lateness(stream: &[u8]) -> Vec<Given> {
    let (read, given) = (reading(stream), one_by_one(stream));
    let overlapped = |p: usize| read.iter().any(|f| f.place < p && p < f.place + f.size);
    let good: Vec<usize> = (0..stream.len()).filter(|p| decode(&stream[*p..]).is_ok() && !overlapped(*p)).collect();
    if ASSERTED {
        assert!(text(given.iter().map(|g| &g.frame)) == text(read.iter()), "lateness: other replies byte by byte: {stream:?}");
        let in_time = |p: &usize| given.iter().any(|g| g.frame.place == *p && g.late <= LATEST.max(g.frame.size));
        assert!(good.iter().all(in_time), "lateness: a frame is too late: {stream:?}");
    }
    given.into_iter().filter(|g| good.contains(&g.frame.place)).collect()
}

/// What was measured: streams, frames and, by the distance of the false start, the latest frame that came later than its own last byte.
#[derive(Default)]
pub struct Tally {
    pub streams: usize,
    pub frames: usize,
    by_distance: Vec<usize>,
}

impl Tally {
    fn late(&mut self, distance: usize, late: usize) {
        self.by_distance.resize(self.by_distance.len().max(distance + 1), 0);
        self.by_distance[distance] = self.by_distance[distance].max(late);
    }

    fn measure(&mut self, stream: &[u8]) -> Vec<Given> {
        let all = lateness(stream);
        self.streams += 1;
        self.frames += all.len();
        all.iter().filter(|g| g.late > g.frame.size).for_each(|g| self.late(g.behind, g.late));
        all
    }

    pub fn add(&mut self, more: &Tally) {
        self.streams += more.streams;
        self.frames += more.frames;
        more.by_distance.iter().enumerate().for_each(|(distance, late)| self.late(distance, *late));
    }

    /// The latest of all and its false start's distance, the least one.
    pub fn latest(&self) -> (usize, usize) {
        let late = self.by_distance.iter().copied().max().unwrap_or(0);
        (late, self.by_distance.iter().position(|l| *l == late).unwrap_or(0))
    }
}

/// A false start in the making, with a good frame at a distance behind its first byte: the frame's own bytes stand, the others are chosen.
struct Laid<'a> {
    random: &'a mut Random,
    frame: &'a [u8],
    distance: usize,
    bytes: Vec<u8>,
}

impl Laid<'_> {
    fn frames_own(&self, at: usize) -> Option<u8> {
        self.frame.get(at.checked_sub(self.distance)?).copied()
    }

    fn push(&mut self, byte: u8) {
        let own = self.frames_own(self.bytes.len());
        self.bytes.push(own.unwrap_or(byte));
    }

    fn any(&mut self, count: usize) {
        for byte in self.random.bytes(count) {
            self.push(byte);
        }
    }

    /// A name of at most so many bytes with its NUL. It ends at the frame's first 0 there, if there is one, else as late as a byte can be chosen.
    fn name(&mut self, most: usize) {
        let start = self.bytes.len();
        let mut room = start..start + most;
        let zero = room.clone().find(|at| self.frames_own(*at) == Some(0));
        let end = zero.or(room.clone().rev().find(|at| self.frames_own(*at).is_none()));
        room.end = end.map_or(room.end, |at| at + 1);
        for at in room {
            let byte = 1 + self.random.below(255) as u8;
            self.push(if Some(at) == end { 0 } else { byte });
        }
    }

    /// The fields of a reply, as long as they can be, or with `less` for their names' rooms and any mask.
    fn fields(&mut self, id: u8, less: [usize; 2]) {
        match id {
            0 => {
                self.any(2);
                self.name(39 - less[0]);
                self.any(20);
                self.name(39 - less[1]);
                self.any(4);
            }
            157 => {
                self.any(3);
                self.name(47 - less[0]);
                self.name(47 - less[1]);
            }
            4 => self.any(widths_of(4).iter().sum()),
            50 | 51 | 128 => {
                let mask = if less == [0, 0] { vec![255; 4] } else { self.random.bytes(4) };
                mask.iter().for_each(|byte| self.push(*byte));
                let mask = u32::from_be_bytes(self.bytes[3..7].try_into().unwrap());
                self.any(widths_of(id).iter().enumerate().filter(|(bit, _)| mask >> bit & 1 == 1).map(|(_, width)| width).sum());
            }
            _ => {}
        }
    }
}

/// A false start with a reply's id, and a good frame so many bytes behind its first; its length byte is what its fields come to. One byte before
/// the frame its length byte is the frame's start byte and its id the frame's length byte; two bytes before, its id is the frame's start byte.
fn laid(random: &mut Random, id: u8, less: [usize; 2], frame: &[u8], distance: usize) -> Vec<u8> {
    let mut laid = Laid { random, frame, distance, bytes: vec![] };
    for byte in [2, 0, id] {
        laid.push(byte);
    }
    laid.fields(laid.bytes[2], less);
    if distance > 1 {
        laid.bytes[1] = (laid.bytes.len() - 2) as u8;
    }
    laid.any(3);
    let behind = (distance + frame.len()).saturating_sub(laid.bytes.len());
    laid.any(behind);
    laid.bytes
}

/// The ids of replies with fields. The first two have the longest frames.
const IDS: [u8; 6] = [0, 157, 50, 51, 128, 4];

/// A good frame with so many bytes of payload, 50 or 51, which are a reply's id too. The bytes that a false start one byte before it takes for its
/// mask ask for every field, as far as they can be chosen. The other kinds have no such frame, and none has 4, 128 or 157 bytes of payload.
fn of_length(random: &mut Random, id: u8, length: usize) -> Vec<u8> {
    let first = 1 + random.below(length - 32);
    let mut frame = match id {
        0 => fw_version(random, first, length - 29 - first),
        157 => fw_info(random, first, length - 6 - first),
        _ => loop {
            let mask = random.next() as u32 | 0xFFC0_0000;
            let frame = masked(id, mask, |n| random.bytes(n));
            if frame[1] as usize == length {
                return frame;
            }
        },
    };
    frame[3..6].fill(255);
    summed(&frame)
}

/// A good frame, short or long. One in four has a length that is a reply's id.
fn good_frame(random: &mut Random) -> Vec<u8> {
    match random.below(8) {
        0 | 1 => framed(&[129]),
        2 | 3 => any(random),
        4 => long_frame(random),
        5 => masked(random.one_of(&[50, 51, 128]), 1 << random.below(22), |n| random.bytes(n)),
        _ => {
            let (id, length) = (random.one_of(&[0, 157, 50, 51]), random.one_of(&[50, 51]));
            of_length(random, id, length)
        }
    }
}

/// A stream with a false start before a good frame, and the frame's place. Noise, frames and other false starts may stand before it.
struct Stream {
    bytes: Vec<u8>,
    place: usize,
}

impl Stream {
    fn new(random: &mut Random, id: u8, less: [usize; 2], frame: &[u8], distance: usize) -> Self {
        let mut bytes: Vec<u8> = (0..random.below(4)).flat_map(|_| stretch(random)).collect();
        let place = bytes.len() + distance;
        bytes.extend(laid(random, id, less, frame, distance));
        bytes.extend([0; ENOUGH]);
        Stream { bytes, place }
    }

    /// The first of a hundred whose frame comes later than its own last byte, by the false start itself. Two bytes before the frame there is none,
    /// nor from 104 bytes on.
    fn held_up(random: &mut Random, id: u8, distance: usize) -> Self {
        let mut draw = || {
            let frame = good_frame(random);
            Stream::new(random, id, [0, 0], &frame, distance)
        };
        let held_up = |stream: &Stream| {
            let by_it = |g: &Given| g.frame.place == stream.place && g.behind == distance && g.late > g.frame.size;
            lateness(&stream.bytes).iter().any(by_it)
        };
        let first = (0..100).map(|_| draw()).find(held_up);
        first.unwrap_or_else(draw)
    }

    /// Any of them. Small distances come often, and one in three has frames behind it.
    fn any(random: &mut Random) -> Self {
        let (id, frame) = (random.one_of(&[0, 0, 0, 0, 157, 50, 51, 128, 4]), good_frame(random));
        let less = if random.below(2) == 0 { [0, 0] } else { [random.below(39), random.below(39)] };
        let distance = if random.below(3) == 0 { random.one_of(&[1, 1, 2, 3, 3, 3, 4, 5]) } else { 1 + random.below(109) };
        let mut stream = Stream::new(random, id, less, &frame, distance);
        if random.below(3) == 0 {
            stream.bytes.truncate(stream.bytes.len() - ENOUGH);
            (0..1 + random.below(3)).for_each(|_| stream.bytes.extend(stretch(random)));
            stream.bytes.extend([0; ENOUGH]);
        }
        stream
    }

    /// Measures it, and says how many replies come before its frame and with how many bytes taken in the frame is given.
    fn load(&self, block: &mut Block) -> (usize, usize) {
        block.case(b'L', &self.bytes);
        let all = block.late.measure(&self.bytes);
        let at = all.iter().position(|g| g.frame.place == self.place);
        // a frame that another one overlaps is not given: then the cut is anywhere
        at.map_or((0, self.place), |at| (at, self.place + all[at].late))
    }
}

impl Script {
    /// All but one of so many bytes, which are wanted before a frame is given, then that byte, then the rest; asked until nothing comes after each.
    /// Also how many replies had come before that byte and with it.
    fn one_missing(mut self, code: u8, stream: &[u8], wanted: usize) -> (Self, usize, usize) {
        for _ in 0..2 * stream.len() {
            if self.run.at + 1 < wanted {
                self.call(stream, code, wanted - 1 - self.run.at);
            }
        }
        let before = self.run.replies.len();
        self.call(stream, code, 1);
        let then = self.run.replies.len();
        (self.pieces_by(code, stream, 4000), before, then)
    }
}

/// A stream's cases in a stored block: one byte missing, by each of these feeds. The frame is not given before that byte, and is with it.
fn stored(block: &mut Block, stream: &Stream, codes: &[u8]) {
    let (earlier, wanted) = stream.load(block);
    for code in codes {
        let (script, before, then) = Script::new().one_missing(*code, &stream.bytes, wanted);
        assert!(before == earlier && then > earlier, "late block: {before} replies, then {then}, where {earlier} come before the frame");
        script.case(block);
    }
}

/// Document 02's stream: a false start of FwVersion, the longest frame, 3 bytes before a frame of ResetStats. 109 bytes, 106 of them from the
/// frame's first on, do not decide it.
fn known() -> Stream {
    let mut bytes = vec![2, 105, 0];
    bytes.extend(framed(&[129]));
    bytes.extend([65; 34]);
    bytes.extend([0; 21]);
    bytes.extend([66; 38]);
    bytes.extend([0; 7]);
    bytes.extend([0; 1 + ENOUGH]);
    Stream { bytes, place: 3 }
}

/// The known stream; one stream for each distance of the false start; and the frames whose length is a reply's id, with one or two bytes of 2
/// before them.
pub fn block() -> Block {
    let mut block = Block::default();
    let mut random = Random(0x5EED_0008);
    let stream = known();
    assert!(stream.load(&mut Block::default()) == (0, 110), "late block: the known frame is not given with 107 bytes");
    stored(&mut block, &stream, &[3, 7]);
    for code in [3, 7] {
        Script::new().pieces_by(code, &stream.bytes, 1).case(&mut block);
    }
    for distance in 1..=109 {
        // FwVersion every other time, and the kinds that are still undecided at the frame
        let undecided = match distance {
            ..50 => &IDS[..],
            ..90 => &IDS[..2],
            _ => &IDS[..1],
        };
        let id = if distance % 2 == 0 { 0 } else { undecided[distance / 2 % undecided.len()] };
        let stream = Stream::held_up(&mut random, id, distance);
        stored(&mut block, &stream, &[3, 7]);
    }
    for (k, id) in [0, 157, 50, 51].into_iter().enumerate() {
        for (distance, length) in [(1 + k % 2, 50), (2 - k % 2, 51)] {
            let frame = of_length(&mut random, id, length);
            let mut stream = Stream::new(&mut random, 0, [0, 0], &frame, 1);
            if distance == 2 {
                stream.bytes.insert(stream.place - 1, 2);
                stream.place += 1;
            }
            stored(&mut block, &stream, &[[3, 7][length % 2]]);
        }
    }
    let (late, distance) = block.late.latest();
    assert!((late, distance) == (LATEST, 3), "late block: the latest is {late}, a false start {distance} bytes before");
    assert!(block.late.by_distance[4..].iter().all(|late| *late < LATEST), "late block: as late at another distance");
    block
}

/// So many sequences of calls, three to a stream: one byte missing, by `feed` and by the gateway feed, and one in pieces of a few bytes by either.
pub fn some(block: &mut Block, random: &mut Random, count: usize) {
    let (mut stream, mut wanted) = (known(), 0);
    for k in 0..count {
        let script = match k % 3 {
            0 => {
                stream = Stream::any(random);
                wanted = stream.load(block).1;
                Script::new().one_missing(3, &stream.bytes, wanted).0
            }
            1 => Script::new().one_missing(7, &stream.bytes, wanted).0,
            _ => Script::new().pieces_by(random.one_of(&[3, 7]), &stream.bytes, 1 + random.below(40)),
        };
        script.case(block);
    }
}

/// Measures so many fresh streams and prints the latest by the distance of the false start: answers lateness SEED STREAMS
pub fn run(args: &[String]) {
    let [seed, count] = args else {
        eprintln!("usage: answers lateness SEED STREAMS");
        std::process::exit(2);
    };
    let mut random = Random(seed.parse::<u64>().unwrap() ^ 0x5EED_0009);
    let mut tally = Tally::default();
    for _ in 0..count.parse().unwrap() {
        tally.measure(&Stream::any(&mut random).bytes);
    }
    println!("{} streams, {} frames. Distance of the false start, and the latest frame that it held up:", tally.streams, tally.frames);
    for (distance, late) in tally.by_distance.iter().enumerate().filter(|(_, late)| **late > 0) {
        println!("{distance} {late}");
    }
}
