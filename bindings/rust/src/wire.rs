//! The form of packets.

/// The bytes that a client sent, and the library has not read yet, cut into packets.
#[derive(Debug, Default)]
pub(crate) struct Packets {
    bytes: Vec<u8>,
    /// Where the next packet begins.
    start: usize,
    /// Its first packet, which is INIT, was read.
    pub(crate) has_begun: bool,
}

/// The bytes of a packet's length field.
pub(crate) const LENGTH: usize = 4;
/// The greatest length of a packet.
const LONGEST: usize = 262144;

impl Packets {
    pub(crate) fn add(&mut self, bytes: &[u8]) {
        if self.start * 2 > self.bytes.len() {
            self.bytes.drain(..self.start);
            self.start = 0;
        }
        self.bytes.extend_from_slice(bytes);
    }

    /// The next packet with its length field, if all of it arrived. A length that ends the session
    /// counts as a packet of four bytes.
    pub(crate) fn first(&self) -> Option<&[u8]> {
        let rest = &self.bytes[self.start..];
        let length = Fields::of(rest).number(LENGTH)? as usize;
        if length == 0 || length > LONGEST {
            return Some(&rest[..LENGTH]);
        }
        rest.get(..LENGTH + length)
    }

    /// Removes this number of bytes.
    pub(crate) fn remove(&mut self, count: usize) {
        self.start += count;
        self.has_begun = true;
    }
}

/// Reads the fields of a packet, one after another.
pub(crate) struct Fields<'a> {
    rest: &'a [u8],
}

impl<'a> Fields<'a> {
    pub(crate) fn of(bytes: &'a [u8]) -> Self {
        Self { rest: bytes }
    }

    pub(crate) fn take(&mut self, count: usize) -> Option<&'a [u8]> {
        let found = self.rest.get(..count)?;
        self.rest = &self.rest[count..];
        Some(found)
    }

    pub(crate) fn number(&mut self, size: usize) -> Option<u64> {
        Some(self.take(size)?.iter().fold(0, |number, byte| number << 8 | u64::from(*byte)))
    }

    pub(crate) fn string(&mut self) -> Option<&'a [u8]> {
        let length = self.number(4)? as usize;
        self.take(length)
    }

    /// What is left.
    pub(crate) fn rest(&self) -> &'a [u8] {
        self.rest
    }
}

/// A string with its length.
pub(crate) fn string(bytes: &[u8]) -> Vec<u8> {
    [&(bytes.len() as u32).to_be_bytes(), bytes].concat()
}

#[cfg(test)]
mod tests {
    use super::*;

    /// INIT, and MKDIR of `/a`.
    const SENT: &[u8] = b"\0\0\0\x05\x01\0\0\0\x03\0\0\0\x0f\x0e\0\0\0\x07\0\0\0\x02/a\0\0\0\0";

    #[test]
    fn packets_are_cut() {
        for cut in 0..=SENT.len() {
            let mut packets = Packets::default();
            let mut found = Vec::new();
            for part in [&SENT[..cut], &SENT[cut..]] {
                packets.add(part);
                while let Some(packet) = packets.first().map(<[u8]>::to_vec) {
                    packets.remove(packet.len());
                    found.push(packet);
                }
            }
            assert_eq!(found, [&SENT[..9], &SENT[9..]]);
        }
    }

    #[test]
    fn lengths_that_end_a_session() {
        for length in [&[0; 4], &[0, 4, 0, 1], &[255; 4]] {
            let mut packets = Packets::default();
            packets.add(&[&length[..], SENT].concat());
            assert_eq!(packets.first(), Some(&length[..]));
        }
    }
}
