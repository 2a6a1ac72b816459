//! The Rust's decoder with its private state in view: the same file, unchanged, compiled once more inside this module.

include!("../../vesc/src/decoder.rs");

impl Decoder {
    pub fn rpos(&self) -> usize {
        self.rpos
    }

    pub fn wpos(&self) -> usize {
        self.wpos
    }

    pub fn unread(&self) -> &[u8] {
        &self.buf[self.rpos..self.wpos]
    }
}
