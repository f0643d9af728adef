//! Composing one data message (docs/DATA.md) with its refusals (docs/REFUSALS.md).

use crate::channels;
use crate::data_message::{ADDRESS, IDENTIFIER};
use crate::frames;

/// Why a packet is not added, or a draft not closed.
#[derive(Debug, Clone, Copy, PartialEq, Eq)]
pub enum Refusal {
    NoPacket,
    /// The record reaches past its bytes.
    RecordCut,
    /// More than 255 bytes, or not the data size of a known identifier.
    PacketSize,
    /// More data than a frame has.
    TooManyData,
    /// The frame would reach past the tray's end.
    NoRoom,
}

impl Refusal {
    pub fn number(self) -> u8 {
        match self {
            Refusal::NoPacket => 9,
            Refusal::RecordCut => 10,
            Refusal::PacketSize => 11,
            Refusal::TooManyData => 12,
            Refusal::NoRoom => 13,
        }
    }
}

/// A data message as far as it is composed.
#[derive(Debug, Clone, PartialEq, Eq)]
pub struct Draft {
    /// The bytes from where the draft began to the tray's end.
    room: usize,
    data: Vec<u8>,
    /// The frame of these data, once there is a packet.
    frame: Option<Vec<u8>>,
}

impl Draft {
    pub fn new(room: usize) -> Draft {
        Draft {
            room,
            data: Vec::new(),
            frame: None,
        }
    }

    /// Adds a packet whose data are so many of the bytes, from a place on. A refusal leaves
    /// the draft as it was.
    pub fn add(
        &mut self,
        identifier: u16,
        bytes: &[u8],
        place: usize,
        size: usize,
    ) -> Result<(), Refusal> {
        let record = record(bytes, place, size).ok_or(Refusal::RecordCut)?;
        let size = packet_size(identifier, record).ok_or(Refusal::PacketSize)?;
        let data = [&self.data, &identifier.to_be_bytes()[..], &[size], record].concat();
        let frame = frames::write(ADDRESS, IDENTIFIER, &data).ok_or(Refusal::TooManyData)?;
        if frame.len() > self.room {
            return Err(Refusal::NoRoom);
        }
        self.data = data;
        self.frame = Some(frame);
        Ok(())
    }

    /// The composed frame.
    pub fn close(self) -> Result<Vec<u8>, Refusal> {
        self.frame.ok_or(Refusal::NoPacket)
    }
}

/// So many bytes from a place on, if they are there.
fn record(bytes: &[u8], place: usize, size: usize) -> Option<&[u8]> {
    bytes.get(place..place.checked_add(size)?)
}

/// The size byte of a packet with these data, if a packet can have them.
fn packet_size(identifier: u16, record: &[u8]) -> Option<u8> {
    let fits = channels::known(identifier).is_none_or(|known| known.size() == record.len());
    u8::try_from(record.len()).ok().filter(|_| fits)
}

#[cfg(test)]
mod tests {
    use super::*;
    use crate::data_message;
    use crate::frames::tests::{frame, Noise};

    /// An unknown identifier.
    const UNKNOWN: u16 = 0x1021;

    fn add(draft: &mut Draft, identifier: u16, data: &[u8]) -> Result<(), Refusal> {
        draft.add(identifier, data, 0, data.len())
    }

    /// A draft of so many data bytes, in packets of an unknown identifier.
    fn draft_of(count: usize, room: usize) -> Draft {
        let mut draft = Draft::new(room);
        let mut left = count;
        while left > 0 {
            let packet = if left <= 258 { left } else { left.min(261) - 3 };
            assert_eq!(add(&mut draft, UNKNOWN, &vec![7; packet - 3]), Ok(()));
            left -= packet;
        }
        assert_eq!(draft.data.len(), count);
        draft
    }

    /// Asserts that a packet is refused by this number and that the draft stays.
    fn assert_refused(draft: &Draft, packet: (u16, &[u8], usize, usize), number: u8) {
        let (identifier, bytes, place, size) = packet;
        let mut after = draft.clone();
        let answer = after.add(identifier, bytes, place, size);
        assert_eq!(answer.map_err(Refusal::number), Err(number));
        assert_eq!(&after, draft);
    }

    #[test]
    fn example() {
        let mut draft = Draft::new(14);
        assert_eq!(add(&mut draft, 0x1020, &[0, 7]), Ok(()));
        assert_eq!(add(&mut draft, 0xE010, &[0x80]), Ok(()));
        let expected = [
            0xFA, 0xFF, 0x36, 9, 0x10, 0x20, 2, 0, 7, 0xE0, 0x10, 1, 0x80, 0x18,
        ];
        assert_eq!(draft.close(), Ok(expected.to_vec()));
    }

    #[test]
    fn data_are_taken_from_their_place() {
        let mut draft = Draft::new(2055);
        assert_eq!(draft.add(0x1020, &[1, 2, 3, 4], 1, 2), Ok(()));
        assert_eq!(draft.add(UNKNOWN, &[1, 2, 3, 4], 4, 0), Ok(()));
        let data = [0x10, 0x20, 2, 2, 3, 0x10, 0x21, 0];
        assert_eq!(draft.close(), Ok(frame(0xFF, 0x36, &data)));
    }

    #[test]
    fn closing_without_a_packet() {
        assert_eq!(Draft::new(2055).close().map_err(Refusal::number), Err(9));
        let mut draft = Draft::new(2055);
        assert_eq!(add(&mut draft, 0x1020, &[1]), Err(Refusal::PacketSize));
        assert_eq!(draft.close(), Err(Refusal::NoPacket));
    }

    #[test]
    fn records_past_their_bytes() {
        for draft in [Draft::new(2055), draft_of(2048, 2055), Draft::new(0)] {
            for (place, size) in [(0, 4), (2, 2), (4, 0), (1, usize::MAX), (usize::MAX, 1)] {
                assert_refused(&draft, (0x1020, &[1, 2, 3], place, size), 10);
            }
            assert_refused(&draft, (UNKNOWN, &[0; 300], 0, 301), 10);
        }
    }

    #[test]
    fn sizes_of_packets() {
        for draft in [Draft::new(2055), draft_of(2048, 2055), Draft::new(0)] {
            for size in [256, 257, 300] {
                assert_refused(&draft, (UNKNOWN, &[0; 300], 0, size), 11);
                assert_refused(&draft, (0x1020, &[0; 300], 0, size), 11);
            }
            for size in [0, 1, 3] {
                assert_refused(&draft, (0x1020, &[0; 3], 0, size), 11);
            }
            assert_refused(&draft, (0x2012, &[0; 32], 0, 32), 11);
        }
        for size in 0..=255 {
            assert_eq!(add(&mut Draft::new(2055), UNKNOWN, &vec![0; size]), Ok(()));
        }
    }

    #[test]
    fn data_of_messages() {
        for room in [2055, 3000, usize::MAX] {
            let draft = draft_of(2045, room);
            assert_refused(&draft, (UNKNOWN, &[0], 0, 1), 12);
            assert_eq!(add(&mut draft.clone(), UNKNOWN, &[]), Ok(()));
            assert_refused(&draft_of(2048, room), (UNKNOWN, &[], 0, 0), 12);
        }
        // Too many data come before the room.
        assert_refused(&draft_of(2045, 2052), (UNKNOWN, &[0], 0, 1), 12);
    }

    #[test]
    fn room() {
        for room in 0..8 {
            assert_refused(&Draft::new(room), (UNKNOWN, &[], 0, 0), 13);
        }
        for (count, size) in [(3, 8), (254, 259), (255, 262), (2048, 2055)] {
            let draft = draft_of(count - 3, size - 1);
            assert_refused(&draft, (UNKNOWN, &[], 0, 0), 13);
            let answer = draft_of(count, size).close().map(|frame| frame.len());
            assert_eq!(answer, Ok(size));
        }
    }

    #[test]
    fn a_refusal_lets_the_draft_go_on() {
        let mut draft = Draft::new(10);
        assert_eq!(add(&mut draft, UNKNOWN, &[0; 3]), Err(Refusal::NoRoom));
        assert_eq!(add(&mut draft, 0x1020, &[0, 7]), Ok(()));
        assert_eq!(add(&mut draft, 0xE010, &[0x80]), Err(Refusal::NoRoom));
        let expected = frame(0xFF, 0x36, &[0x10, 0x20, 2, 0, 7]);
        assert_eq!(draft.close(), Ok(expected));
    }

    #[test]
    fn messages_read_are_composed_again() {
        let mut noise = Noise::new(7);
        let mut composed = 0;
        for _ in 0..20_000 {
            let count = noise.number(600);
            let input = frame(0xFF, 0x36, &noise.bytes(count));
            let Ok(packets) = data_message::read(&input) else {
                continue;
            };
            let mut draft = Draft::new(input.len());
            for packet in packets {
                assert_eq!(add(&mut draft, packet.identifier, packet.data), Ok(()));
            }
            assert_eq!(draft.close(), Ok(input));
            composed += 1;
        }
        assert!(composed > 100);
    }
}
