//! The random generator of races, and counting packets.

use crate::wire::{Packets, LENGTH};

/// SplitMix64: the same numbers for a seed in every language.
#[derive(Debug)]
pub(crate) struct SplitMix64 {
    state: u64,
}

impl SplitMix64 {
    pub(crate) fn new(seed: u64) -> Self {
        Self { state: seed }
    }

    pub(crate) fn draw(&mut self) -> u64 {
        self.state = self.state.wrapping_add(0x9E37_79B9_7F4A_7C15);
        let mixed = self.state;
        let mixed = (mixed ^ mixed >> 30).wrapping_mul(0xBF58_476D_1CE4_E5B9);
        let mixed = (mixed ^ mixed >> 27).wrapping_mul(0x94D0_49BB_1331_11EB);
        mixed ^ mixed >> 31
    }
}

/// The packets that a client has sent and its session has not answered.
#[derive(Debug, Default)]
pub(crate) struct Unanswered {
    count: u64,
    packets: Packets,
    /// A bad length ended the session, which reads no further.
    has_ended: bool,
}

impl Unanswered {
    pub(crate) fn is_empty(&self) -> bool {
        self.count == 0
    }

    /// One of them was answered.
    pub(crate) fn answered(&mut self) {
        self.count = self.count.saturating_sub(1);
    }

    /// Counts the packets that these bytes complete. A bad length, which ends the session, counts
    /// as one.
    pub(crate) fn feed(&mut self, bytes: &[u8]) {
        self.packets.add(bytes);
        while let Some(length) = self.packets.first().map(<[u8]>::len).filter(|_| !self.has_ended) {
            self.packets.remove(length);
            self.has_ended = length == LENGTH;
            self.count += 1;
        }
    }
}

#[cfg(test)]
mod tests {
    use super::*;

    /// Values of other implementations of SplitMix64.
    #[test]
    fn draws() {
        let zero = [
            0xE220_A839_7B1D_CDAF,
            0x6E78_9E6A_A1B9_65F4,
            0x06C4_5D18_8009_454F,
            0xF88B_B8A8_724C_81EC,
            0x1B39_896A_51A8_749B,
        ];
        let other = [
            6457827717110365317,
            3203168211198807973,
            9817491932198370423,
            4593380528125082431,
            16408922859458223821,
        ];
        for (seed, wanted) in [(0, zero), (1234567, other)] {
            let mut drawn = SplitMix64::new(seed);
            assert!(wanted.iter().all(|next| drawn.draw() == *next));
        }
    }

    /// INIT, and MKDIR of `/a`.
    const SENT: &[u8] = b"\0\0\0\x05\x01\0\0\0\x03\0\0\0\x0f\x0e\0\0\0\x07\0\0\0\x02/a\0\0\0\0";

    #[test]
    fn packets_are_counted() {
        for cut in 0..=SENT.len() {
            let mut packets = Unanswered::default();
            packets.feed(&SENT[..cut]);
            assert_eq!(packets.count, u64::from(cut >= 9) + u64::from(cut == SENT.len()));
            packets.feed(&SENT[cut..]);
            assert_eq!(packets.count, 2);
        }
        let mut packets = Unanswered::default();
        SENT.iter().for_each(|byte| packets.feed(&[*byte]));
        packets.answered();
        assert!(!packets.is_empty());
        packets.answered();
        assert!(packets.is_empty());
    }

    /// The session ends before a packet of this length is complete.
    #[test]
    fn lengths_that_end_a_session() {
        for length in [b"\0\0\0\0", b"\0\x04\0\x01", b"\xff\xff\xff\xff"] {
            let mut packets = Unanswered::default();
            packets.feed(&[SENT, length, SENT].concat());
            assert_eq!(packets.count, 3);
        }
        let mut packets = Unanswered::default();
        packets.feed(b"\0\x04\0\0");
        assert!(packets.is_empty());
    }
}
