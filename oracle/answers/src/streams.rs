//! The stream: `Decoder` under calls in any order, over streams of frames, damage and noise.
//!
//! A case with letter L brings a stream; its answer is `loaded LENGTH`. A case with letter C makes calls on a fresh decoder, five bytes
//! each: a code, a size (two bytes) and how many times (two bytes). The codes: 0 `next`; 1 `next` until nothing comes; 2 `feed` of the next
//! SIZE bytes of the stream, which goes on behind the bytes taken; 3 the same, then `next` until nothing comes; 4 SIZE bytes of the
//! stream are dropped; 5 the last SIZE bytes are offered again, as for a code that is not known; 6 the gateway feed (`gateway.rs`) of the
//! next SIZE bytes, which goes on behind the bytes taken; 7 the same, then `next` until nothing comes; 8 a look at the mark.
//! The answer: `replies NUMBER unread NUMBER DIGEST`. The digest takes in, after each call, what it answered (the count of `feed`; of the gateway
//! feed whether it is refused, then the count or the refusal's number; of `next` whether a reply is given, its count and the whole reply) and
//! the state: the two positions, the five figures (`figures.rs`) and every unread byte. Of a look it takes in the mark and nothing else.

use crate::answer::Answer;
use crate::gateway::Marked;
use crate::replies::{any, damaged, framed, fw_info, fw_version, masked, whole};
use crate::{Block, CommandReply, Random};

#[derive(Default)]
pub struct Run {
    marked: Marked,
    pub replies: Vec<CommandReply>,
    pub at: usize,
    calls: usize,
}

impl Run {
    fn state(&self, answer: &mut Answer) {
        let decoder = &self.marked.figured.decoder;
        answer.wide("rpos", decoder.rpos() as u64);
        answer.wide("wpos", decoder.wpos() as u64);
        for (name, figure) in self.marked.figured.figures() {
            answer.wide(name, figure);
        }
        answer.bytes("unread", decoder.unread());
    }

    fn named(&mut self, answer: &mut Answer, what: &str) {
        self.calls += 1;
        answer.part = format!("call {} {what}: ", self.calls);
    }

    fn feed(&mut self, answer: &mut Answer, stream: &[u8], size: usize) {
        let piece = &stream[self.at..stream.len().min(self.at + size)];
        self.named(answer, &format!("feed of {} bytes", piece.len()));
        let count = self.marked.feed(piece);
        self.at += count;
        answer.wide("count", count as u64);
        self.state(answer);
    }

    fn gateway_feed(&mut self, answer: &mut Answer, stream: &[u8], size: usize) {
        let piece = &stream[self.at..stream.len().min(self.at + size)];
        self.named(answer, &format!("gateway feed of {} bytes", piece.len()));
        let taken = self.marked.gateway_feed(piece);
        self.at += taken.unwrap_or(0);
        answer.flag("refused", taken.is_err());
        answer.wide("count or refusal", taken.map_or_else(u64::from, |count| count as u64));
        self.state(answer);
    }

    fn look(&mut self, answer: &mut Answer) {
        self.named(answer, "look at the mark");
        answer.flag("drained", self.marked.drained());
    }

    fn next(&mut self, answer: &mut Answer) -> bool {
        self.named(answer, "next");
        let (reply, frame) = self.marked.next();
        answer.flag("given", reply.is_some());
        answer.wide("count", frame.len() as u64);
        whole(answer, reply.as_ref(), &frame);
        self.state(answer);
        let given = reply.is_some();
        self.replies.extend(reply);
        given
    }

    fn drain(&mut self, answer: &mut Answer) {
        while self.next(answer) {}
    }

    fn call(&mut self, answer: &mut Answer, stream: &[u8], code: u8, size: usize) {
        match code {
            0 => _ = self.next(answer),
            1 => self.drain(answer),
            2 => self.feed(answer, stream, size),
            3 => {
                self.feed(answer, stream, size);
                self.drain(answer);
            }
            4 => self.at = stream.len().min(self.at + size),
            6 => self.gateway_feed(answer, stream, size),
            7 => {
                self.gateway_feed(answer, stream, size);
                self.drain(answer);
            }
            8 => self.look(answer),
            // 5, and the codes that are not known
            _ => self.at = self.at.saturating_sub(size),
        }
    }
}

/// The calls of a case, each with its size and how many times.
pub fn calls(case: &[u8]) -> impl Iterator<Item = (u8, usize, usize)> {
    let two = |high: u8, low: u8| u16::from_be_bytes([high, low]) as usize;
    case.chunks(5).map(move |c| (c[0], two(c[1], c[2]), two(c[3], c[4])))
}

pub fn answer(answer: &mut Answer, case: &[u8], stream: &[u8]) {
    if case.len() % 5 != 0 {
        return answer.cut_short();
    }
    let mut run = Run::default();
    for (code, size, times) in calls(case) {
        for _ in 0..times {
            run.call(answer, stream, code, size);
        }
    }
    answer.part.clear();
    answer.say("outcome", "replies");
    answer.say("replies", run.replies.len());
    answer.say("outcome", "unread");
    answer.say("unread", run.marked.figured.decoder.unread().len());
    answer.digest();
}

/// A sequence of calls in the making. It runs them as it goes, so that a piece can be fitted to the free tail.
pub struct Script {
    pub run: Run,
    aside: Answer,
    calls: Vec<(u8, usize, usize)>,
}

impl Script {
    pub fn new() -> Self {
        Script { run: Run::default(), aside: Answer::new(b'C', false), calls: vec![] }
    }

    pub fn call(&mut self, stream: &[u8], code: u8, size: usize) {
        self.run.call(&mut self.aside, stream, code, size);
        match self.calls.last_mut() {
            Some((c, s, times)) if *c == code && *s == size && *times < 65535 => *times += 1,
            _ => self.calls.push((code, size, 1)),
        }
    }

    /// The room behind what was fed, and all the room there is.
    fn tail(&self) -> usize {
        512 - self.run.marked.figured.decoder.wpos()
    }

    fn free(&self) -> usize {
        512 - self.run.marked.figured.decoder.unread().len()
    }

    /// The whole stream in pieces of one size, asked until nothing comes after each. The count of turns guards against a decoder that takes nothing.
    fn pieces(self, stream: &[u8], size: usize) -> Self {
        self.pieces_by(3, stream, size)
    }

    /// The same by either feed: code 3 or 7.
    pub fn pieces_by(mut self, code: u8, stream: &[u8], size: usize) -> Self {
        for _ in 0..2 * stream.len() {
            if self.run.at < stream.len() {
                self.call(stream, code, size);
            }
        }
        self
    }

    /// Calls in any order until the stream is at its end, and some after it.
    fn anyhow(mut self, random: &mut Random, stream: &[u8]) -> Self {
        let draining = random.below(3);
        let longest = random.one_of(&[40, 600, 2000]);
        for _ in 0..400 {
            if self.run.at == stream.len() {
                break;
            }
            let (tail, free) = (self.tail(), self.free());
            match random.below(16) {
                0 => (0..1 + random.below(3)).for_each(|_| self.call(stream, 0, 0)),
                1 => self.call(stream, 1, 0),
                2 => (0..1 + random.below(3)).for_each(|_| self.call(stream, 2, 0)),
                3 => {
                    let size = random.below(30);
                    self.call(stream, 4, size);
                }
                4 => {
                    let size = random.below(120);
                    self.call(stream, 5, size);
                }
                5 | 6 => self.call(stream, 2, (tail + random.below(3)).saturating_sub(1)),
                7 => self.call(stream, 2, (free + random.below(3)).saturating_sub(1)),
                _ => {
                    let size = 1 + random.below(longest);
                    self.call(stream, if random.below(3) < draining { 3 } else { 2 }, size);
                }
            }
        }
        for _ in 0..random.below(6) {
            let code = random.below(3) as u8;
            self.call(stream, code, 0);
        }
        self
    }

    /// Brings the read position behind so many zeros, fills the buffer to its end or near it, and feeds what then moves, clears or just fits.
    fn placed(mut self, random: &mut Random, stream: &[u8], zeros: usize) -> Self {
        self.call(stream, 3, zeros.min(511) + 1);
        for _ in 0..3 {
            let tail = self.tail();
            self.call(stream, 2, random.one_of(&[tail, tail, tail.saturating_sub(1), tail / 2]));
            if random.below(4) == 0 {
                self.call(stream, 1, 0);
            }
            let free = self.free();
            self.call(stream, 2, random.one_of(&[0, 1, 1, 2, free, free + 1, 4000]));
        }
        self.call(stream, 1, 0);
        self
    }

    /// Empty pieces of the gateway feed, or none.
    fn empties(&mut self, random: &mut Random, stream: &[u8]) {
        (0..random.below(6).saturating_sub(3)).for_each(|_| self.call(stream, 6, 0));
    }

    /// The whole stream by the gateway feed, in pieces of any size with empty ones strewn in. One piece in eight is not asked for at once, so that
    /// the next one is refused.
    fn strewn(mut self, random: &mut Random, stream: &[u8]) -> Self {
        let longest = random.one_of(&[20, 40, 150, 600, 2000]);
        for _ in 0..2 * stream.len() {
            if self.run.at == stream.len() {
                break;
            }
            self.empties(random, stream);
            let size = match random.below(8) {
                0 => (self.tail() + random.below(3)).saturating_sub(1),
                1 => (self.free() + random.below(3)).saturating_sub(1),
                _ => 1 + random.below(longest),
            };
            match random.below(8) {
                0..=3 => self.call(stream, 7, size),
                4..=6 => {
                    self.call(stream, 6, size);
                    self.empties(random, stream);
                    for _ in 0..random.below(3) {
                        self.call(stream, 0, 0);
                        self.empties(random, stream);
                    }
                    self.call(stream, 1, 0);
                }
                _ => self.call(stream, 6, size),
            }
            if random.below(3) == 0 {
                self.call(stream, 8, 0);
            }
        }
        self.call(stream, 1, 0);
        self.empties(random, stream);
        self.call(stream, 8, 0);
        self
    }

    /// A call and a look at the mark that it leaves.
    fn looked(&mut self, stream: &[u8], code: u8, size: usize) {
        self.call(stream, code, size);
        self.call(stream, 8, 0);
    }

    /// Both feeds in any order, each call with a look behind it. At the stream's end some of it is offered again, three times out of four.
    fn mixed(mut self, random: &mut Random, stream: &[u8]) -> Self {
        // of four feeds so many are asked for at once: where none is, nearly every piece of the gateway feed is refused
        let draining = random.below(4);
        let longest = random.one_of(&[40, 600, 2000]);
        for _ in 0..50 {
            if self.run.at == stream.len() {
                if random.below(4) == 0 {
                    break;
                }
                let size = 1 + random.below(stream.len());
                self.looked(stream, 5, size);
            }
            let (tail, free) = (self.tail(), self.free());
            let feed = random.one_of(&[2, 6]) + u8::from(random.below(4) < draining);
            match random.below(20) {
                0 | 1 => (0..1 + random.below(3)).for_each(|_| self.looked(stream, 0, 0)),
                2 => self.looked(stream, 1, 0),
                3 => self.looked(stream, 2, 0),
                4 => self.looked(stream, feed, 0),
                5 => {
                    let size = random.below(30);
                    self.looked(stream, 4, size);
                }
                6 => {
                    let size = random.below(120);
                    self.looked(stream, 5, size);
                }
                7 | 8 => self.looked(stream, feed, (tail + random.below(3)).saturating_sub(1)),
                9 => self.looked(stream, feed, (free + random.below(3)).saturating_sub(1)),
                10 | 11 => {
                    // the tail filled, asked for or not, then an empty piece, on which `feed` clears, then the gateway feed
                    self.looked(stream, feed, tail);
                    (0..random.below(3)).for_each(|_| self.looked(stream, 0, 0));
                    self.looked(stream, random.one_of(&[2, 2, 6]), 0);
                    let size = 1 + random.below(longest);
                    self.looked(stream, 6, size);
                }
                _ => {
                    let size = 1 + random.below(longest);
                    self.looked(stream, feed, size);
                }
            }
        }
        for _ in 0..random.below(6) {
            let code = random.one_of(&[0, 1, 2, 6]);
            self.looked(stream, code, 0);
        }
        self
    }

    /// The buffer is filled just behind the first `cut` bytes of a frame and asked until nothing comes; then an empty piece; then the rest. By the
    /// gateway feed (code 7) the frame's reply comes. By `feed` (code 3) the empty piece clears what was held of the frame, and the reply is lost.
    fn filled(mut self, random: &mut Random, stream: &[u8], cut: usize, code: u8) -> Self {
        self.call(stream, 4, cut - 1);
        self.call(stream, code, random.one_of(&[512, 512, 513, 4000]));
        self.call(stream, code - 1, 0);
        self.call(stream, 8, 0);
        self.call(stream, code, 4000);
        self.call(stream, 8, 0);
        self
    }

    pub fn case(self, block: &mut Block) {
        let mut case = vec![];
        for (code, size, times) in self.calls.into_iter().take(800) {
            case.push(code);
            case.extend((size as u16).to_be_bytes());
            case.extend((times as u16).to_be_bytes());
        }
        block.case(b'C', &case);
    }
}

/// A stretch of a stream: a good frame, a damaged one, a cut one, noise, false starts or zeros.
pub fn stretch(random: &mut Random) -> Vec<u8> {
    match random.below(10) {
        0..=4 => any(random),
        5 => {
            let frame = any(random);
            damaged(random, &frame)
        }
        6 => {
            let frame = any(random);
            let end = random.below(frame.len() + 1);
            frame[..end].to_vec()
        }
        7 => {
            let n = random.below(60);
            random.bytes(n)
        }
        8 => (0..random.below(20)).map(|_| random.one_of(&[2, 2, 0, 4, 50, 51, 128, 129, 157, 255])).collect(),
        _ => vec![0; random.below(40)],
    }
}

/// A frame of a kind's greatest length, or a few bytes shorter where names allow it.
pub fn long_frame(random: &mut Random) -> Vec<u8> {
    let (less, also) = (random.below(4), random.below(4));
    match random.below(6) {
        0..=2 => fw_version(random, 38 - less, 38 - also),
        3 => fw_info(random, 46 - less, 46 - also),
        4 => framed(&[129]),
        _ => {
            let id = random.one_of(&[4, 50, 51, 128]);
            masked(id, (1 << 22) - 1, |n| random.bytes(n))
        }
    }
}

fn stream(random: &mut Random, length: usize, long: bool) -> Vec<u8> {
    let mut all = vec![];
    while all.len() < length {
        all.extend(if long && random.below(8) > 0 { long_frame(random) } else { stretch(random) });
    }
    all.truncate(length);
    all
}

/// The k-th stream: one in four is of longest frames.
fn load(block: &mut Block, random: &mut Random, k: usize) -> Vec<u8> {
    let length = match k % 4 {
        0 => 1 + random.below(700),
        1 => 500 + random.below(100),
        _ => 600 + random.below(900),
    };
    let stream = stream(random, length, k % 4 == 3);
    block.case(b'L', &stream);
    stream
}

const SIZES: [usize; 8] = [1, 1, 7, 110, 256, 511, 512, 513];

/// So many streams: each in every size of pieces and under calls in any order; and as many with the read position at a chosen place.
pub fn block() -> Block {
    let mut block = Block::default();
    let mut random = Random(0x5EED_0005);
    for k in 0..400 {
        let stream = load(&mut block, &mut random, k);
        for size in &SIZES[1..] {
            Script::new().pieces(&stream, *size).case(&mut block);
        }
        for _ in 0..6 {
            Script::new().anyhow(&mut random, &stream).case(&mut block);
        }
        let zeros = k * 37 % 513;
        let behind = load_behind(&mut block, &mut random, zeros);
        Script::new().placed(&mut random, &behind, zeros).case(&mut block);
    }
    block
}

/// A stream that begins with so many zeros, which `next` moves over.
fn load_behind(block: &mut Block, random: &mut Random, zeros: usize) -> Vec<u8> {
    let mut all = vec![0; zeros];
    let length = 600 + random.below(2400);
    all.extend(stream(random, length, true));
    block.case(b'L', &all);
    all
}

/// So many sequences of calls. Every other one brings the read position to a chosen place. The rest go four to a stream: of those with longest
/// frames one a byte at a time, of the others one in pieces of one size, and all else in any order.
pub fn some(block: &mut Block, random: &mut Random, count: usize) {
    let mut stream = vec![];
    for k in 0..count {
        if k % 2 == 1 {
            let zeros = match random.below(3) {
                0 => random.below(4),
                1 => 508 + random.below(5),
                // 37 and 513 have no common divisor, so that every place comes up
                _ => k / 2 * 37 % 513,
            };
            let behind = load_behind(block, random, zeros);
            Script::new().placed(random, &behind, zeros).case(block);
            block.case(b'L', &stream);
            continue;
        }
        let k = k / 2;
        if k % 4 == 0 {
            stream = load(block, random, k / 4);
        }
        let script = match (k % 4, k / 4 % 4) {
            (0, 3) => Script::new().pieces(&stream, 1),
            (0, _) => Script::new().pieces(&stream, random.one_of(&SIZES)),
            _ => Script::new().anyhow(random, &stream),
        };
        script.case(block);
    }
}

/// A stream of 511 bytes, a good frame and one more behind it. The 511 are noise without a start byte, as many at least as the frame has, and
/// then whole frames or none: with the first CUT - 1 bytes dropped, 512 bytes end behind the frame's first CUT.
fn load_filling(block: &mut Block, random: &mut Random, frame: &[u8]) -> Vec<u8> {
    let mut frames = vec![];
    for _ in 0..random.below(8) {
        let more = any(random);
        if frame.len() + frames.len() + more.len() <= 511 {
            frames.extend(more);
        }
    }
    let mut all = random.bytes(511 - frames.len());
    all.iter_mut().filter(|byte| **byte == 2).for_each(|byte| *byte = 0);
    all.extend(frames);
    all.extend(frame);
    all.extend(any(random));
    block.case(b'L', &all);
    all
}

/// What the gateway is promised of a stream that was fed its way, with empty pieces or without: the same replies and the same bytes unread as if
/// the Rust is fed a byte at a time, and nothing cleared.
fn promised(script: Script, stream: &[u8]) -> Script {
    let whole = Script::new().pieces(stream, 1);
    let (run, wanted) = (&script.run, &whole.run);
    assert!(run.at == stream.len(), "gateway block: not all is taken");
    // by their text: a NaN is no equal of itself
    assert!(format!("{:?}", run.replies) == format!("{:?}", wanted.replies), "gateway block: other replies");
    assert!(run.marked.figured.decoder.unread() == wanted.marked.figured.decoder.unread(), "gateway block: other bytes are unread");
    assert!(run.marked.figured.figures()[3] == ("cleared", 0), "gateway block: bytes were cleared");
    script
}

/// So many streams by the gateway feed, with empty pieces and without, and by both feeds; and three frames that the buffer's end cuts at every
/// place, by either feed.
pub fn gateway_block() -> Block {
    let mut block = Block::default();
    let mut random = Random(0x5EED_0007);
    for k in 0..24 {
        let stream = load(&mut block, &mut random, k);
        for size in [1, SIZES[2 + k % 6]] {
            promised(Script::new().pieces_by(7, &stream, size), &stream).case(&mut block);
        }
        for _ in 0..4 {
            promised(Script::new().strewn(&mut random, &stream), &stream).case(&mut block);
        }
        for _ in 0..5 {
            Script::new().mixed(&mut random, &stream).case(&mut block);
        }
    }
    let longest = fw_version(&mut random, 38, 38);
    let stats = masked(128, (1 << 11) - 1, |n| random.bytes(n));
    for frame in [longest, stats, framed(&[129])] {
        let stream = load_filling(&mut block, &mut random, &frame);
        for cut in 1..frame.len() {
            let kept = promised(Script::new().filled(&mut random, &stream, cut, 7), &stream);
            let lost = Script::new().filled(&mut random, &stream, cut, 3);
            assert!(lost.run.replies.len() < kept.run.replies.len(), "gateway block: no reply is lost at {cut}");
            kept.case(&mut block);
            lost.case(&mut block);
        }
    }
    block
}

/// So many sequences of calls with the gateway feed. Eight to a stream: one in pieces of one size, three with empty pieces strewn in, four by
/// both feeds. Then two over a frame that the buffer's end cuts, the one by the gateway feed and the other by `feed`.
pub fn gateway_some(block: &mut Block, random: &mut Random, count: usize) {
    let (mut stream, mut cut) = (vec![], 0);
    for k in 0..count {
        let script = match k % 10 {
            0 => {
                stream = load(block, random, k / 10);
                Script::new().pieces_by(7, &stream, random.one_of(&SIZES))
            }
            1..=3 => Script::new().strewn(random, &stream),
            4..=7 => Script::new().mixed(random, &stream),
            8 => {
                let frame = if random.below(2) == 0 { long_frame(random) } else { any(random) };
                stream = load_filling(block, random, &frame);
                cut = 1 + random.below(frame.len() - 1);
                Script::new().filled(random, &stream, cut, 7)
            }
            _ => Script::new().filled(random, &stream, cut, 3),
        };
        script.case(block);
    }
}
