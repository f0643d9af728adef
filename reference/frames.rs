//! Frames, what stands at the front of a list of bytes, and the reading of a recording
//! (docs/PROTOCOL.md).

/// The first byte of every frame.
pub const START: u8 = 0xFA;
/// The length byte that announces a length in two bytes.
pub const EXTENDED: u8 = 0xFF;
/// The fewest data bytes of an extended frame.
pub const SHORTEST_EXTENDED: u16 = 255;
/// The most data bytes of a frame.
pub const LONGEST_DATA: u16 = 2048;
/// The bytes of the shortest frame.
const SHORTEST_FRAME: usize = 5;
/// The bytes of the longest frame.
pub const LONGEST_FRAME: usize = 2055;

/// What stands at the front of a list of bytes.
#[derive(Debug, Clone, Copy, PartialEq, Eq)]
pub enum Front {
    /// The first so many bytes are a frame.
    Whole(usize),
    /// The list is empty or a proper start of some frame.
    Waits,
    /// Neither.
    Wrong,
}

/// A part of a recording, after what reading does with it.
#[derive(Debug, Clone, Copy, PartialEq, Eq)]
pub enum Piece<'a> {
    Frame(&'a [u8]),
    Dropped(&'a [u8]),
    Left(&'a [u8]),
}

/// A frame, taken apart.
#[derive(Debug, Clone, Copy, PartialEq, Eq)]
pub struct Message<'a> {
    pub address: u8,
    pub identifier: u8,
    pub data: &'a [u8],
}

impl Message<'_> {
    /// The message in a list of bytes that is a whole frame, with nothing behind it.
    pub fn in_frame(frame: &[u8]) -> Option<Message<'_>> {
        let (address, identifier, data) = match frame {
            [_, address, identifier, EXTENDED, _, _, data @ .., _] => (address, identifier, data),
            [_, address, identifier, _, data @ .., _] => (address, identifier, data),
            _ => return None,
        };
        Some(Message {
            address: *address,
            identifier: *identifier,
            data,
        })
    }
}

/// The sum of the bytes after `FA`, modulo 256.
fn sum_behind_start(frame: &[u8]) -> u8 {
    frame
        .iter()
        .skip(1)
        .fold(0, |sum: u8, &byte| sum.wrapping_add(byte))
}

/// Whether the bytes after `FA`, the checksum included, sum to 0 modulo 256.
pub fn checksum_is_right(frame: &[u8]) -> bool {
    sum_behind_start(frame) == 0
}

/// The header of a frame with so many data bytes: the bytes in front of them, in a buffer
/// that has room for both forms, and their number.
fn header_of(address: u8, identifier: u8, count: u16) -> ([u8; 6], usize) {
    let [high, low] = count.to_be_bytes();
    if count < SHORTEST_EXTENDED {
        ([START, address, identifier, low, 0, 0], 4)
    } else {
        ([START, address, identifier, EXTENDED, high, low], 6)
    }
}

/// Why a frame is not written.
#[derive(Debug, Clone, Copy, PartialEq, Eq)]
pub enum NotWritten {
    TooLong,
    NoRoom,
}

/// Writes the frame with these data to the tray from a place on, and answers its length. A
/// refusal leaves every byte of the tray.
pub fn write_to(tray: &mut [u8], place: usize, message: Message) -> Result<usize, NotWritten> {
    let count = u16::try_from(message.data.len())
        .ok()
        .filter(|&count| count <= LONGEST_DATA)
        .ok_or(NotWritten::TooLong)?;
    let (header, header_size) = header_of(message.address, message.identifier, count);
    let size = header_size + message.data.len() + 1;
    let frame = tray
        .get_mut(place..)
        .and_then(|room| room.get_mut(..size))
        .ok_or(NotWritten::NoRoom)?;
    let (head, body) = frame.split_at_mut(header_size);
    let (data, checksum) = body.split_at_mut(message.data.len());
    head.copy_from_slice(&header[..header_size]);
    data.copy_from_slice(message.data);
    checksum.fill(0);
    let sum = sum_behind_start(frame);
    if let Some(checksum) = frame.last_mut() {
        *checksum = sum.wrapping_neg();
    }
    Ok(size)
}

/// The frame with these data, or nothing if they are too long.
pub fn write(address: u8, identifier: u8, data: &[u8]) -> Option<Vec<u8>> {
    let mut frame = vec![0; data.len().min(usize::from(LONGEST_DATA)) + 7];
    let message = Message {
        address,
        identifier,
        data,
    };
    let size = write_to(&mut frame, 0, message).ok()?;
    frame.truncate(size);
    Some(frame)
}

/// What the bytes at the front of a list say of the frame that may begin there.
#[derive(Debug, Clone, Copy, PartialEq, Eq)]
enum Announced {
    /// Too little to tell its length; the next byte says more.
    NotYet,
    /// It would have so many bytes.
    Frame(usize),
    /// None begins there.
    Nothing,
}

fn announced(bytes: &[u8]) -> Announced {
    match *bytes {
        [] => Announced::NotYet,
        [first, ..] if first != START => Announced::Nothing,
        [_, _, _, EXTENDED, high, low, ..] => match u16::from_be_bytes([high, low]) {
            count @ SHORTEST_EXTENDED..=LONGEST_DATA => Announced::Frame(usize::from(count) + 7),
            _ => Announced::Nothing,
        },
        // With some second byte the length is right exactly if the first is 00 to 08.
        [_, _, _, EXTENDED, high] if high > 8 => Announced::Nothing,
        [_, _, _, EXTENDED, ..] => Announced::NotYet,
        [_, _, _, count, ..] => Announced::Frame(usize::from(count) + 5),
        _ => Announced::NotYet,
    }
}

/// What stands at the front of a list of bytes.
pub fn front(bytes: &[u8]) -> Front {
    match announced(bytes) {
        Announced::NotYet => Front::Waits,
        Announced::Nothing => Front::Wrong,
        Announced::Frame(size) => match bytes.get(..size) {
            None => Front::Waits,
            Some(frame) if checksum_is_right(frame) => Front::Whole(size),
            Some(_) => Front::Wrong,
        },
    }
}

/// How long a list that waits must be before what stands at its front can change.
pub fn next_look(waiting: &[u8]) -> usize {
    match announced(waiting) {
        Announced::Frame(size) => size,
        Announced::NotYet if waiting.is_empty() => 1,
        Announced::NotYet | Announced::Nothing => SHORTEST_FRAME.max(waiting.len() + 1),
    }
}

/// Reads a recording from the front; the pieces, one behind the other, are the recording.
pub fn read(recording: &[u8]) -> Vec<Piece<'_>> {
    let mut pieces = Vec::new();
    let mut rest = recording;
    let mut dropped = 0;
    loop {
        // The front of `rest` is so many dropped bytes, not yet handed out.
        let (wrong, unread) = rest.split_at(dropped);
        let front = front(unread);
        if front == Front::Wrong {
            dropped += 1;
            continue;
        }
        if !wrong.is_empty() {
            pieces.push(Piece::Dropped(wrong));
        }
        let Front::Whole(size) = front else {
            if !unread.is_empty() {
                pieces.push(Piece::Left(unread));
            }
            return pieces;
        };
        let (frame, behind) = unread.split_at(size);
        pieces.push(Piece::Frame(frame));
        rest = behind;
        dropped = 0;
    }
}

#[cfg(test)]
pub mod tests {
    use super::*;

    /// A right frame. The count of the data is the caller's care.
    pub fn frame(address: u8, identifier: u8, data: &[u8]) -> Vec<u8> {
        let mut frame = vec![START, address, identifier];
        match data.len() {
            0..=254 => frame.push(data.len() as u8),
            255..=2048 => {
                frame.extend([0xFF, (data.len() / 256) as u8, (data.len() % 256) as u8]);
            }
            _ => panic!("too many data"),
        }
        frame.extend(data);
        let sum: u32 = frame[1..].iter().map(|&byte| u32::from(byte)).sum();
        frame.push(((256 - sum % 256) % 256) as u8);
        frame
    }

    /// Bytes that are the same in every run, with many that matter to frames.
    pub struct Noise(u64);

    impl Noise {
        pub fn new(seed: u64) -> Noise {
            Noise(seed)
        }

        pub fn number(&mut self, below: usize) -> usize {
            self.0 = self
                .0
                .wrapping_mul(6364136223846793005)
                .wrapping_add(1442695040888963407);
            ((self.0 >> 33) as usize) % below
        }

        pub fn byte(&mut self) -> u8 {
            match self.number(8) {
                0 | 1 => START,
                2 => 0xFF,
                3 => 0,
                4 => self.number(10) as u8,
                _ => self.number(256) as u8,
            }
        }

        pub fn bytes(&mut self, count: usize) -> Vec<u8> {
            (0..count).map(|_| self.byte()).collect()
        }
    }

    /// The three cases once more, along the list of particular cases in docs/PROTOCOL.md.
    fn front_by_cases(bytes: &[u8]) -> Front {
        if bytes.is_empty() {
            return Front::Waits;
        }
        if bytes[0] != 0xFA {
            return Front::Wrong;
        }
        if bytes.len() < 4 {
            return Front::Waits;
        }
        let mut size = 5 + bytes[3] as usize;
        if bytes[3] == 0xFF {
            if bytes.len() == 4 {
                return Front::Waits;
            }
            if bytes.len() == 5 {
                return if bytes[4] <= 8 {
                    Front::Waits
                } else {
                    Front::Wrong
                };
            }
            let count = 256 * bytes[4] as usize + bytes[5] as usize;
            if !(255..=2048).contains(&count) {
                return Front::Wrong;
            }
            size = 7 + count;
        }
        if bytes.len() < size {
            return Front::Waits;
        }
        let sum: u32 = bytes[1..size].iter().map(|&byte| u32::from(byte)).sum();
        if sum.is_multiple_of(256) {
            Front::Whole(size)
        } else {
            Front::Wrong
        }
    }

    const COUNTS: [usize; 12] = [0, 1, 2, 3, 253, 254, 255, 256, 257, 511, 2047, 2048];

    #[test]
    fn example_frames_are_whole() {
        assert_eq!(front(&[0xFA, 0xFF, 0, 0, 1]), Front::Whole(5));
        assert_eq!(
            front(&[0xFA, 0xFF, 1, 4, 1, 2, 3, 4, 0xF2]),
            Front::Whole(9)
        );
    }

    #[test]
    fn sizes_of_frames() {
        for (count, size) in [(0, 5), (254, 259), (255, 262), (2048, LONGEST_FRAME)] {
            assert_eq!(
                write(1, 2, &vec![3; count]).map(|frame| frame.len()),
                Some(size)
            );
        }
    }

    /// A list is a start of a frame exactly if some number of data bytes agrees with as much
    /// of a length as it holds, and it is shorter than that frame: address, identifier, data
    /// and checksum are free then.
    fn front_by_definition(bytes: &[u8]) -> Front {
        if bytes.first().is_some_and(|&first| first != START) {
            return Front::Wrong;
        }
        for count in 0..=LONGEST_DATA {
            let (header, header_size) = header_of(0, 0, count);
            let length = &header[3..header_size];
            let said = bytes.iter().skip(3);
            if said.zip(length).all(|(said, right)| said == right) {
                let size = header_size + usize::from(count) + 1;
                return match bytes.get(..size) {
                    None => Front::Waits,
                    Some(frame) if checksum_is_right(frame) => Front::Whole(size),
                    Some(_) => Front::Wrong,
                };
            }
        }
        Front::Wrong
    }

    #[test]
    fn noise_agrees_with_the_definition() {
        let mut noise = Noise::new(12);
        for _ in 0..20_000 {
            let mut bytes = vec![START];
            let more = noise.number(12);
            bytes.extend(noise.bytes(more));
            assert_eq!(front(&bytes), front_by_definition(&bytes));
        }
    }

    #[test]
    fn nothing_changes_before_the_next_look() {
        let mut noise = Noise::new(13);
        for count in COUNTS {
            let bytes = frame(noise.byte(), noise.byte(), &noise.bytes(count));
            let mut look = next_look(&[]);
            for end in 0..=bytes.len() {
                if end == look && end < bytes.len() {
                    look = next_look(&bytes[..end]);
                }
                assert!(end <= look && look <= bytes.len());
            }
        }
    }

    #[test]
    fn frames_are_written_at_a_place_of_a_tray() {
        for count in [0, 1, 254, 255, 2048] {
            let data = vec![7; count];
            let message = Message {
                address: 1,
                identifier: 2,
                data: &data,
            };
            let expected = frame(1, 2, &data);
            let size = expected.len();
            let mut tray = vec![0x55; size + 5];
            assert_eq!(write_to(&mut tray, 3, message), Ok(size));
            assert_eq!(tray, [&[0x55; 3], &expected[..], &[0x55; 2]].concat());
            assert_eq!(Message::in_frame(&expected), Some(message));
            let mut tray = vec![0x55; size + 2];
            for place in [3, size + 2, size + 3, usize::MAX] {
                assert_eq!(write_to(&mut tray, place, message), Err(NotWritten::NoRoom));
            }
            assert_eq!(tray, vec![0x55; size + 2]);
        }
        let message = Message {
            address: 1,
            identifier: 2,
            data: &[0; 2049],
        };
        assert_eq!(write_to(&mut [], 0, message), Err(NotWritten::TooLong));
    }

    #[test]
    fn frames_are_written_up_to_the_longest() {
        let mut noise = Noise::new(8);
        for count in 0..=2048 {
            let data = noise.bytes(count);
            assert_eq!(write(1, 2, &data), Some(frame(1, 2, &data)));
        }
        for count in [2049, 65535, 65536, 65537, 70000] {
            assert_eq!(write(1, 2, &vec![0; count]), None);
        }
    }

    #[test]
    fn starts_wait_and_frames_are_whole_whatever_follows() {
        let mut noise = Noise::new(1);
        for count in COUNTS {
            let (address, identifier) = (noise.byte(), noise.byte());
            let mut bytes = frame(address, identifier, &noise.bytes(count));
            let size = bytes.len();
            for end in 0..size {
                assert_eq!(front(&bytes[..end]), Front::Waits);
            }
            for _ in 0..20 {
                assert_eq!(front(&bytes), Front::Whole(size));
                bytes.push(noise.byte());
            }
        }
    }

    #[test]
    fn wrong_checksums_are_wrong_whatever_follows() {
        for count in COUNTS {
            let mut bytes = frame(7, 8, &vec![9; count]);
            let last = bytes.len() - 1;
            for _ in 0..255 {
                bytes[last] = bytes[last].wrapping_add(1);
                assert_eq!(front(&bytes), Front::Wrong);
            }
            bytes.extend(frame(1, 2, &[3]));
            assert_eq!(front(&bytes), Front::Wrong);
        }
    }

    #[test]
    fn first_bytes_and_lengths() {
        for first in 0..=0xFF {
            assert_eq!(front(&[first]), front_by_cases(&[first]));
            assert_eq!(front(&[0xFA, 1, 2, first]), Front::Waits);
        }
        for high in 0..=0xFF {
            let cut = [0xFA, 1, 2, 0xFF, high];
            assert_eq!(
                front(&cut),
                if high <= 8 {
                    Front::Waits
                } else {
                    Front::Wrong
                }
            );
        }
        for high in [0, 1, 2, 7, 8, 9, 0x80, 0xFF] {
            for low in 0..=0xFF {
                let bytes = [0xFA, 1, 2, 0xFF, high, low];
                assert_eq!(front(&bytes), front_by_cases(&bytes));
            }
        }
    }

    #[test]
    fn noise_agrees_with_the_particular_cases() {
        let mut noise = Noise::new(2);
        let mut seen = [0; 3];
        for _ in 0..200_000 {
            let mut bytes = vec![START];
            let more = noise.number(12);
            bytes.extend(noise.bytes(more));
            let front = front(&bytes);
            assert_eq!(front, front_by_cases(&bytes));
            match front {
                Front::Whole(_) => seen[0] += 1,
                Front::Waits => seen[1] += 1,
                Front::Wrong => seen[2] += 1,
            }
        }
        assert!(seen.iter().all(|&times| times > 100));
    }

    #[test]
    fn examples_of_reading() {
        let bytes = [0xFA, 0xFA, 0xFF, 0, 0, 1];
        assert_eq!(
            read(&bytes),
            [Piece::Dropped(&bytes[..1]), Piece::Frame(&bytes[1..])]
        );
        let bytes = [0xFA, 1, 2, 0xFF, 0];
        assert_eq!(read(&bytes), [Piece::Left(&bytes[..])]);
        let bytes = [0xFA, 1, 2, 0xFF, 9];
        assert_eq!(read(&bytes), [Piece::Dropped(&bytes[..])]);
        assert_eq!(read(&[]), []);
    }

    #[test]
    fn frames_inside_a_failed_frame_are_found() {
        let inner = frame(0xFF, 0x36, &[1, 2, 3]);
        let mut outer = frame(5, 6, &inner);
        let last = outer.len() - 1;
        outer[last] ^= 1;
        let end = 4 + inner.len();
        let expected = [
            Piece::Dropped(&outer[..4]),
            Piece::Frame(&inner),
            Piece::Dropped(&outer[end..]),
        ];
        assert_eq!(read(&outer), expected);
    }

    #[test]
    fn frames_one_behind_the_other_are_read_as_they_are() {
        let mut noise = Noise::new(3);
        let frames: Vec<_> = COUNTS.map(|count| frame(1, 2, &noise.bytes(count))).into();
        let recording = frames.concat();
        let expected: Vec<_> = frames.iter().map(|frame| Piece::Frame(frame)).collect();
        assert_eq!(read(&recording), expected);
    }

    #[test]
    fn pieces_make_up_the_recording() {
        let mut noise = Noise::new(4);
        for _ in 0..300 {
            let mut recording = Vec::new();
            for _ in 0..noise.number(20) {
                let count = noise.number(40);
                let bytes = noise.bytes(count);
                let framed = noise.number(2) == 0;
                recording.extend(if framed { frame(1, 2, &bytes) } else { bytes });
            }
            check_pieces(&recording);
        }
    }

    /// Each piece is what it says, dropped bytes stand in one piece, only the end is left.
    fn check_pieces(recording: &[u8]) {
        let pieces = read(recording);
        let mut at = 0;
        let mut after_dropped = false;
        for (index, piece) in pieces.iter().enumerate() {
            let bytes = match *piece {
                Piece::Frame(bytes) => {
                    assert_eq!(front_by_cases(bytes), Front::Whole(bytes.len()));
                    bytes
                }
                Piece::Dropped(bytes) => {
                    assert!(!after_dropped);
                    for place in at..at + bytes.len() {
                        assert_eq!(front_by_cases(&recording[place..]), Front::Wrong);
                    }
                    bytes
                }
                Piece::Left(bytes) => {
                    assert_eq!(index, pieces.len() - 1);
                    assert_eq!(front_by_cases(bytes), Front::Waits);
                    bytes
                }
            };
            assert!(!bytes.is_empty() && recording[at..].starts_with(bytes));
            after_dropped = matches!(piece, Piece::Dropped(_));
            at += bytes.len();
        }
        assert_eq!(at, recording.len());
    }
}
