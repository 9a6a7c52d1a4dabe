//! A buffer that is lent to the library, with known bytes on both sides, so
//! that a write outside it is seen.

const GUARD: usize = 32;
/// Bytes that no table has by chance: eight in a row are enough to tell.
const KNOWN: u8 = 0xA7;

pub struct Room {
    bytes: Vec<u8>,
    start: usize,
    length: usize,
}

impl Room {
    pub fn new() -> Room {
        let mut room = Room { bytes: Vec::new(), start: 0, length: 0 };
        room.lay_out(0, 0);
        room
    }

    /// A room of `length` bytes at an address that is `shift` modulo 16.
    pub fn lay_out(&mut self, length: usize, shift: usize) {
        self.bytes.clear();
        self.bytes.resize(length + 2 * GUARD + 32, KNOWN);
        let address = self.bytes.as_ptr() as usize + GUARD;
        self.start = GUARD + (16 - address % 16) % 16 + shift % 16;
        self.length = length;
    }

    pub fn get(&self) -> &[u8] {
        &self.bytes[self.start..self.start + self.length]
    }

    pub fn lend(&mut self) -> &mut [u8] {
        &mut self.bytes[self.start..self.start + self.length]
    }

    /// Whether the bytes on both sides are as they were.
    pub fn guards_hold(&self) -> bool {
        let end = self.start + self.length;
        let before = &self.bytes[self.start - GUARD..self.start];
        let after = &self.bytes[end..end + GUARD];
        before.iter().chain(after).all(|&byte| byte == KNOWN)
    }
}
