//! The Rust's decoder and the line figures, which it does not keep. They follow documents 01 and 02 from what its calls do to its state: fed,
//! the bytes copied; handed, the bytes of frames given; passed, the bytes that its read position moved over besides; cleared, the unread
//! bytes that a `feed` let go; held, the bytes unread now.

use crate::CommandReply;
use crate::decoder::Decoder;

#[derive(Default)]
pub struct Figured {
    pub decoder: Decoder,
    fed: u64,
    handed: u64,
    passed: u64,
    cleared: u64,
}

impl Figured {
    pub fn feed(&mut self, piece: &[u8]) -> usize {
        let before = self.decoder.unread().len();
        let count = self.decoder.feed(piece).unwrap();
        self.fed += count as u64;
        self.cleared += (before + count - self.decoder.unread().len()) as u64;
        count
    }

    /// The reply, if one is given, and its frame.
    pub fn next(&mut self) -> (Option<CommandReply>, Vec<u8>) {
        let (start, before) = (self.decoder.rpos(), self.decoder.unread().to_vec());
        let reply = self.decoder.next();
        let moved = self.decoder.rpos() - start;
        let mut frame = vec![];
        if reply.is_some() {
            // the frame that was given is the one that ends where the reading now stands
            let ends = |p: &usize| crate::decode(&before[*p..]).is_ok_and(|(n, _)| p + n == moved);
            frame = (0..moved).find(ends).map_or(vec![], |p| before[p..moved].to_vec());
        }
        self.handed += frame.len() as u64;
        self.passed += (moved - frame.len()) as u64;
        (reply, frame)
    }

    pub fn figures(&self) -> [(&'static str, u64); 5] {
        let held = self.decoder.unread().len() as u64;
        [("fed", self.fed), ("handed", self.handed), ("passed", self.passed), ("cleared", self.cleared), ("held", held)]
    }
}
