//! The gateway feed, which the Rust does not have. This is a reference for it, from document 02's words (W12): the Rust's own decoder, its
//! figures, and the mark `drained`. The mark is set in a fresh one and by a `next` that gives nothing; it is taken away by a nonempty piece
//! of either feed and by a `next` that gives. An empty piece leaves it as it is, also one on which `feed` clears the buffer.
//! A nonempty piece into a drained state goes through the Rust's own `feed`. It is asserted that `feed` clears nothing there and takes a byte
//! or more. An empty piece is never given to the Rust.

use crate::CommandReply;
use crate::figures::Figured;

/// Document 02's number of the refusal.
pub const NOT_DRAINED: u8 = 15;
/// The most bytes unread in a drained state: one fewer than the longest frame.
const DRAINED_MOST: usize = 109;
/// `oracle/variants` turns this off: the comparison must find a wrong program by itself.
pub const ASSERTED: bool = true;

pub struct Marked {
    pub figured: Figured,
    drained: bool,
}

impl Default for Marked {
    fn default() -> Self {
        Marked { figured: Figured::default(), drained: true }
    }
}

impl Marked {
    pub fn drained(&self) -> bool {
        self.drained
    }

    /// The Rust's `feed`, for any piece in any state.
    pub fn feed(&mut self, piece: &[u8]) -> usize {
        let count = self.figured.feed(piece);
        if !piece.is_empty() {
            self.drained = false;
        }
        count
    }

    /// The bytes taken, or the refusal's number.
    pub fn gateway_feed(&mut self, piece: &[u8]) -> Result<usize, u8> {
        if piece.is_empty() {
            return Ok(0);
        }
        if !self.drained {
            return Err(NOT_DRAINED);
        }
        let mut unread = self.figured.decoder.unread().to_vec();
        let fits = piece.len().min(512 - unread.len());
        let count = self.feed(piece);
        if ASSERTED {
            assert!(unread.len() <= DRAINED_MOST, "gateway feed: {} bytes unread in a drained state", unread.len());
            assert!(count >= 1 && count == fits, "gateway feed: {count} bytes taken where {fits} fit");
            unread.extend(&piece[..count]);
            assert!(self.figured.decoder.unread() == unread, "gateway feed: the Rust cleared");
        }
        Ok(count)
    }

    /// The reply, if one is given, and its frame.
    pub fn next(&mut self) -> (Option<CommandReply>, Vec<u8>) {
        let (reply, frame) = self.figured.next();
        self.drained = reply.is_none();
        (reply, frame)
    }
}
