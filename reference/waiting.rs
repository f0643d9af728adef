//! The bytes that a unit holds back (docs/PROTOCOL.md, "The waiting bytes").

use crate::frames::{self, Front, Message, LONGEST_FRAME, START};

/// Bytes held back, settled at all times: nothing is left, or a proper start of a frame
/// stands at their front, or a whole frame does.
///
/// They lie behind one another at the end of `bytes`; those in front of `start` are passed or
/// dropped. They are moved to the front only when the room for them is used up, which happens
/// once in several thousand bytes at most.
#[derive(Debug, Clone)]
pub struct Waiting {
    bytes: Vec<u8>,
    start: usize,
    front: AtFront,
}

#[derive(Debug, Clone, Copy, PartialEq, Eq)]
enum AtFront {
    /// A whole frame of so many bytes.
    Whole(usize),
    /// Nothing, or a proper start; it stays one until so many bytes are there.
    WaitsUntil(usize),
}

/// Room for the longest list held back, several times.
const ROOM: usize = 4 * LONGEST_FRAME;

impl Waiting {
    pub fn new() -> Waiting {
        Waiting {
            bytes: Vec::with_capacity(ROOM),
            start: 0,
            front: AtFront::WaitsUntil(1),
        }
    }

    /// The bytes held back.
    pub fn held(&self) -> &[u8] {
        self.bytes.get(self.start..).unwrap_or_default()
    }

    pub fn whole_frame_waits(&self) -> bool {
        matches!(self.front, AtFront::Whole(_))
    }

    /// The bytes that must be taken before what stands at the front can change.
    pub fn bytes_to_next_look(&self) -> usize {
        match self.front {
            AtFront::Whole(_) => 0,
            AtFront::WaitsUntil(look) => look.saturating_sub(self.held().len()),
        }
    }

    /// The whole frame at the front.
    pub fn message(&self) -> Option<Message<'_>> {
        match self.front {
            AtFront::Whole(size) => Message::in_frame(self.held().get(..size)?),
            AtFront::WaitsUntil(_) => None,
        }
    }

    /// Passes the whole frame at the front, if one waits there.
    pub fn pass(&mut self) {
        if let AtFront::Whole(size) = self.front {
            self.start += size;
            self.settle();
        }
    }

    /// Takes bytes one after the other until a whole frame waits or all are taken; answers
    /// how many.
    pub fn take(&mut self, bytes: &[u8]) -> usize {
        let mut rest = bytes;
        while let AtFront::WaitsUntil(look) = self.front {
            let held = self.held().len();
            if held == 0 {
                // In front of the next `FA` each byte would be dropped as soon as it is taken.
                let noise = rest.iter().take_while(|&&byte| byte != START).count();
                rest = rest.get(noise..).unwrap_or_default();
            }
            if rest.is_empty() {
                break;
            }
            // Up to the next look the bytes held back are a proper start.
            let (now, later) = rest.split_at(look.saturating_sub(held).min(rest.len()));
            self.append(now);
            rest = later;
            if self.held().len() >= look {
                self.settle();
            }
        }
        bytes.len() - rest.len()
    }

    /// Adds bytes behind those held back.
    fn append(&mut self, bytes: &[u8]) {
        if self.bytes.len() + bytes.len() > ROOM {
            self.bytes.drain(..self.start);
            self.start = 0;
        }
        self.bytes.extend_from_slice(bytes);
    }

    /// Drops bytes from the front until the rest is settled.
    fn settle(&mut self) {
        loop {
            let held = self.held();
            match frames::front(held) {
                Front::Whole(size) => {
                    self.front = AtFront::Whole(size);
                    return;
                }
                Front::Waits => {
                    self.front = AtFront::WaitsUntil(frames::next_look(held));
                    break;
                }
                Front::Wrong => self.start += 1,
            }
        }
        if self.held().is_empty() {
            self.bytes.clear();
            self.start = 0;
        }
    }
}

#[cfg(test)]
mod tests {
    use super::*;
    use crate::frames::tests::{frame, Noise};
    use crate::frames::Piece;

    /// Bytes held back as the document says it, one byte at a time.
    struct Slow(Vec<u8>);

    impl Slow {
        fn settle(&mut self) {
            while frames::front(&self.0) == Front::Wrong {
                self.0.remove(0);
            }
        }

        fn whole(&self) -> Option<usize> {
            match frames::front(&self.0) {
                Front::Whole(size) => Some(size),
                _ => None,
            }
        }

        fn take(&mut self, bytes: &[u8]) -> usize {
            for (taken, &byte) in bytes.iter().enumerate() {
                if self.whole().is_some() {
                    return taken;
                }
                self.0.push(byte);
                self.settle();
            }
            bytes.len()
        }

        fn pass(&mut self) {
            if let Some(size) = self.whole() {
                self.0.drain(..size);
                self.settle();
            }
        }
    }

    fn noisy_recording(noise: &mut Noise) -> Vec<u8> {
        let mut recording = Vec::new();
        for _ in 0..noise.number(30) {
            let most = if noise.number(9) == 0 { 600 } else { 30 };
            let count = noise.number(most);
            let mut inside = noise.bytes(count);
            match noise.number(4) {
                0 => recording.extend(inside),
                1 => recording.extend(frame(1, 2, &inside)),
                2 => {
                    inside.extend(frame(0xFF, 0, &[]));
                    let mut failed = frame(1, 2, &inside);
                    let last = failed.len() - 1;
                    failed[last] ^= 1;
                    recording.extend(failed);
                }
                _ => recording.extend(&frame(1, 2, &inside)[..inside.len() + 2]),
            }
        }
        recording
    }

    #[test]
    fn agrees_with_one_byte_at_a_time() {
        let mut noise = Noise::new(21);
        let mut frames_seen = 0;
        for _ in 0..300 {
            let recording = noisy_recording(&mut noise);
            let (mut waiting, mut slow) = (Waiting::new(), Slow(Vec::new()));
            let mut rest = &recording[..];
            while !rest.is_empty() {
                let piece = &rest[..noise.number(rest.len()) + 1];
                let taken = waiting.take(piece);
                assert_eq!(taken, slow.take(piece));
                assert_eq!(waiting.held(), slow.0);
                assert_eq!(waiting.whole_frame_waits(), slow.whole().is_some());
                assert!(waiting.held().len() <= LONGEST_FRAME);
                rest = &rest[taken..];
                if noise.number(2) == 0 {
                    frames_seen += usize::from(waiting.whole_frame_waits());
                    waiting.pass();
                    slow.pass();
                    assert_eq!(waiting.held(), slow.0);
                }
            }
        }
        assert!(frames_seen > 500);
    }

    #[test]
    fn frames_are_those_of_reading_whatever_the_cuts() {
        let mut noise = Noise::new(22);
        for _ in 0..300 {
            let recording = noisy_recording(&mut noise);
            let pieces = frames::read(&recording);
            let expected = pieces.iter().filter_map(|piece| match piece {
                Piece::Frame(bytes) => Message::in_frame(bytes),
                _ => None,
            });
            let mut waiting = Waiting::new();
            let mut rest = &recording[..];
            for message in expected {
                while !waiting.whole_frame_waits() {
                    let piece = &rest[..noise.number(rest.len()) + 1];
                    rest = &rest[waiting.take(piece)..];
                }
                assert_eq!(waiting.message(), Some(message));
                waiting.pass();
            }
            assert_eq!(waiting.take(rest), rest.len());
            let left = match pieces.last() {
                Some(Piece::Left(bytes)) => bytes,
                _ => &[][..],
            };
            assert_eq!(waiting.held(), left);
        }
    }

    #[test]
    fn a_start_is_at_most_2054_bytes_long() {
        let mut bytes = frame(1, 2, &[0xFA; 2048]);
        let mut waiting = Waiting::new();
        assert_eq!(waiting.take(&bytes[..2054]), 2054);
        assert_eq!(waiting.held().len(), 2054);
        assert_eq!(waiting.bytes_to_next_look(), 1);
        bytes.push(0xFA);
        assert_eq!(waiting.take(&bytes[2054..]), 1);
        assert!(waiting.whole_frame_waits());
        assert_eq!(waiting.take(&[1, 2, 3]), 0);
        waiting.pass();
        assert_eq!(waiting.held(), []);
        waiting.pass();
        assert_eq!(waiting.held(), []);
    }
}
