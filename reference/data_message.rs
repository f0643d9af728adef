//! Reading one data message (docs/DATA.md) with its faults (docs/REFUSALS.md).

use std::ops::Range;

use crate::channels::{self, Known};
use crate::frames;

/// The address of a data message.
pub const ADDRESS: u8 = 0xFF;
/// The message identifier of a data message.
pub const IDENTIFIER: u8 = 0x36;
/// The bytes of a packet in front of its data: identifier and size.
const PACKET_HEADER: usize = 3;
/// Where the size stands in a packet.
const PACKET_SIZE_PLACE: usize = 2;

/// What is wrong with an input that is no data message.
#[derive(Debug, Clone, Copy, PartialEq, Eq)]
pub enum Reason {
    /// Empty, or the first byte is not `FA`.
    NoStart,
    /// The header is cut, or the input is not as long as its header announces.
    InputLength,
    /// The two-byte length is none of an extended frame.
    ExtendedLength,
    Checksum,
    /// The address or the identifier is not that of a data message.
    OtherMessage,
    NoData,
    /// A packet's identifier and size are cut.
    PacketHeaderCut,
    /// A packet's data are cut.
    PacketDataCut,
    /// A packet's size is not the data size of its known identifier.
    PacketSize,
}

/// The layer in which a fault lies.
#[derive(Debug, Clone, Copy, PartialEq, Eq)]
pub enum Layer {
    Frame,
    Message,
    Packet,
}

impl Reason {
    pub fn number(self) -> u8 {
        match self {
            Reason::NoStart => 14,
            Reason::InputLength => 15,
            Reason::ExtendedLength => 16,
            Reason::Checksum => 17,
            Reason::OtherMessage => 18,
            Reason::NoData => 19,
            Reason::PacketHeaderCut => 20,
            Reason::PacketDataCut => 21,
            Reason::PacketSize => 22,
        }
    }

    pub fn layer(self) -> Layer {
        match self {
            Reason::NoStart | Reason::InputLength | Reason::ExtendedLength | Reason::Checksum => {
                Layer::Frame
            }
            Reason::OtherMessage | Reason::NoData => Layer::Message,
            Reason::PacketHeaderCut | Reason::PacketDataCut | Reason::PacketSize => Layer::Packet,
        }
    }

    /// The fault with this reason at an index of the input.
    fn at(self, place: usize) -> Fault {
        Fault {
            reason: self,
            place,
        }
    }
}

/// Why and where an input is refused.
#[derive(Debug, Clone, Copy, PartialEq, Eq)]
pub struct Fault {
    pub reason: Reason,
    pub place: usize,
}

/// The kind of a packet, after the channel of its identifier.
#[derive(Debug, Clone, Copy, PartialEq, Eq)]
pub enum Kind {
    Real,
    Whole,
    Unknown,
}

/// A packet, with its data as a part of the input.
#[derive(Debug, Clone, Copy, PartialEq, Eq)]
pub struct Packet<'a> {
    pub identifier: u16,
    pub kind: Kind,
    pub data: &'a [u8],
}

/// Reads the input as one data message: its packets, or the first fault.
pub fn read(input: &[u8]) -> Result<Vec<Packet<'_>>, Fault> {
    let data = read_frame(input)?;
    check_message(input, &data)?;
    read_packets(input, data)
}

/// Where the data stand in the input, if it is one frame with nothing behind it.
fn read_frame(input: &[u8]) -> Result<Range<usize>, Fault> {
    if input.first() != Some(&frames::START) {
        return Err(Reason::NoStart.at(0));
    }
    let data = announced_data(input)?;
    let checksum_place = data.end;
    if input.len() != checksum_place + 1 {
        return Err(Reason::InputLength.at(input.len()));
    }
    if !frames::checksum_is_right(input) {
        return Err(Reason::Checksum.at(checksum_place));
    }
    Ok(data)
}

/// Where the data stand according to the header, be they there or not.
fn announced_data(input: &[u8]) -> Result<Range<usize>, Fault> {
    let (header, count) = match *input {
        [_, _, _, frames::EXTENDED, high, low, ..] => (6, u16::from_be_bytes([high, low])),
        [_, _, _, count, ..] if count != frames::EXTENDED => (4, u16::from(count)),
        _ => return Err(Reason::InputLength.at(input.len())),
    };
    let extended = frames::SHORTEST_EXTENDED..=frames::LONGEST_DATA;
    if header == 6 && !extended.contains(&count) {
        return Err(Reason::ExtendedLength.at(4));
    }
    Ok(header..header + usize::from(count))
}

/// Checks that a frame is a data message and has data.
fn check_message(input: &[u8], data: &Range<usize>) -> Result<(), Fault> {
    if input.get(1) != Some(&ADDRESS) {
        return Err(Reason::OtherMessage.at(1));
    }
    if input.get(2) != Some(&IDENTIFIER) {
        return Err(Reason::OtherMessage.at(2));
    }
    if data.is_empty() {
        return Err(Reason::NoData.at(data.start));
    }
    Ok(())
}

/// Reads the packets that fill the data.
fn read_packets(input: &[u8], data: Range<usize>) -> Result<Vec<Packet<'_>>, Fault> {
    let mut packets = Vec::new();
    let mut start = data.start;
    while start < data.end {
        let packet = read_packet(&input[start..data.end], start)?;
        start += PACKET_HEADER + packet.data.len();
        packets.push(packet);
    }
    Ok(packets)
}

/// Reads the packet at the front of `bytes`, which begin at index `start` of the input.
fn read_packet(bytes: &[u8], start: usize) -> Result<Packet<'_>, Fault> {
    let [high, low, size, rest @ ..] = bytes else {
        return Err(Reason::PacketHeaderCut.at(start));
    };
    let identifier = u16::from_be_bytes([*high, *low]);
    let size = usize::from(*size);
    let Some(data) = rest.get(..size) else {
        return Err(Reason::PacketDataCut.at(start + PACKET_SIZE_PLACE));
    };
    let known = channels::known(identifier);
    if known.is_some_and(|known| known.size() != size) {
        return Err(Reason::PacketSize.at(start + PACKET_SIZE_PLACE));
    }
    let kind = match known {
        Some(Known::Real { .. }) => Kind::Real,
        Some(Known::Whole { .. }) => Kind::Whole,
        None => Kind::Unknown,
    };
    Ok(Packet {
        identifier,
        kind,
        data,
    })
}

#[cfg(test)]
mod tests {
    use super::*;
    use crate::frames::tests::{frame, Noise};
    use crate::frames::Front;

    fn message(data: &[u8]) -> Vec<u8> {
        frame(0xFF, 0x36, data)
    }

    fn assert_fault(input: &[u8], number: u8, layer: Layer, place: usize) {
        match read(input) {
            Ok(packets) => panic!("accepted: {packets:?}"),
            Err(fault) => {
                let found = (fault.reason.number(), fault.reason.layer(), fault.place);
                assert_eq!(found, (number, layer, place), "{input:02X?}");
            }
        }
    }

    #[test]
    fn packets_of_all_kinds() {
        let real: Vec<u8> = (0..24).collect();
        let input = message(
            &[
                &[0x80, 0x23, 24],
                &real[..],
                &[0xE0, 0x10, 1, 9, 0x20, 0x14, 0],
            ]
            .concat(),
        );
        let expected = [
            Packet {
                identifier: 0x8023,
                kind: Kind::Real,
                data: &real,
            },
            Packet {
                identifier: 0xE010,
                kind: Kind::Whole,
                data: &[9],
            },
            Packet {
                identifier: 0x2014,
                kind: Kind::Unknown,
                data: &[],
            },
        ];
        assert_eq!(read(&input), Ok(expected.to_vec()));
    }

    #[test]
    fn unknown_packets_have_any_size() {
        for size in 0..=255_u8 {
            let data = vec![0xFA; usize::from(size)];
            let input = message(&[&[0x10, 0x21, size], &data[..]].concat());
            let expected = Packet {
                identifier: 0x1021,
                kind: Kind::Unknown,
                data: &data,
            };
            assert_eq!(read(&input), Ok(vec![expected]));
        }
    }

    #[test]
    fn longest_message() {
        let mut data = [0x12, 0x34, 0].repeat(682);
        assert_eq!(data.len(), 2046);
        assert_eq!(read(&message(&data)).map(|packets| packets.len()), Ok(682));
        data[2045] = 2;
        data.extend([0, 0]);
        assert_eq!(read(&message(&data)).map(|packets| packets.len()), Ok(682));
    }

    #[test]
    fn no_start() {
        assert_fault(&[], 14, Layer::Frame, 0);
        assert_fault(&[0], 14, Layer::Frame, 0);
        assert_fault(&[0xFF, 0x36, 5], 14, Layer::Frame, 0);
    }

    #[test]
    fn header_cut() {
        for end in 1..4 {
            assert_fault(&[0xFA, 1, 2][..end], 15, Layer::Frame, end);
        }
        assert_fault(&[0xFA, 0xFF, 0x36, 0xFF], 15, Layer::Frame, 4);
        // The length can no longer be right, but it is cut, and that comes first.
        assert_fault(&[0xFA, 0xFF, 0x36, 0xFF, 9], 15, Layer::Frame, 5);
    }

    #[test]
    fn extended_length() {
        for count in 0..=0xFFFF_u16 {
            let [high, low] = count.to_be_bytes();
            let input = [0xFA, 0xFF, 0x36, 0xFF, high, low];
            if (255..=2048).contains(&count) {
                assert_fault(&input, 15, Layer::Frame, 6);
            } else {
                assert_fault(&input, 16, Layer::Frame, 4);
            }
        }
    }

    #[test]
    fn input_shorter_or_longer_than_announced() {
        for count in [1, 254, 255, 2048] {
            let mut input = message(&vec![0; count]);
            for end in 6..input.len() {
                assert_fault(&input[..end], 15, Layer::Frame, end);
            }
            input.push(0);
            assert_fault(&input, 15, Layer::Frame, input.len());
        }
        // The length comes before the checksum and the address.
        assert_fault(&[0xFA, 0, 0, 0, 9, 9], 15, Layer::Frame, 6);
    }

    #[test]
    fn checksum() {
        for count in [0, 5, 254, 255, 2048] {
            // The checksum comes before the address.
            let mut input = frame(1, 2, &vec![0; count]);
            let last = input.len() - 1;
            input[last] ^= 0x80;
            assert_fault(&input, 17, Layer::Frame, last);
        }
    }

    #[test]
    fn other_message() {
        assert_fault(&frame(1, 2, &[]), 18, Layer::Message, 1);
        assert_fault(&frame(0xFE, 0x36, &[1]), 18, Layer::Message, 1);
        assert_fault(&frame(0xFF, 0x35, &[]), 18, Layer::Message, 2);
    }

    #[test]
    fn no_data() {
        assert_fault(&message(&[]), 19, Layer::Message, 4);
    }

    #[test]
    fn packet_header_cut() {
        assert_fault(&message(&[0x10]), 20, Layer::Packet, 4);
        assert_fault(&message(&[0x10, 0x20]), 20, Layer::Packet, 4);
        assert_fault(&message(&[0x10, 0x20, 2, 0, 7, 0x10]), 20, Layer::Packet, 9);
        let extended = message(&[[0x10, 0x21, 252].as_slice(), &[0; 252], &[0x10, 0x20]].concat());
        assert_fault(&extended, 20, Layer::Packet, 261);
    }

    #[test]
    fn packet_data_cut() {
        assert_fault(&message(&[0x10, 0x21, 1]), 21, Layer::Packet, 6);
        // The cut data come before the size of a known identifier.
        assert_fault(&message(&[0x10, 0x20, 3, 0, 7]), 21, Layer::Packet, 6);
        assert_fault(
            &message(&[0x10, 0x20, 2, 0, 7, 0, 0, 255, 1]),
            21,
            Layer::Packet,
            11,
        );
    }

    #[test]
    fn packet_size() {
        assert_fault(&message(&[0x10, 0x20, 1, 0]), 22, Layer::Packet, 6);
        assert_fault(&message(&[0x10, 0x20, 0]), 22, Layer::Packet, 6);
        assert_fault(
            &message(&[0, 0, 0, 0x10, 0x20, 3, 0, 7, 7]),
            22,
            Layer::Packet,
            9,
        );
        // The fault of the first packet comes before that of the second.
        assert_fault(&message(&[0x10, 0x20, 1, 0, 0x10]), 22, Layer::Packet, 6);
    }

    #[test]
    fn layers_frame_and_above_agree_with_the_front() {
        let mut noise = Noise::new(5);
        for _ in 0..100_000 {
            let count = noise.number(14);
            let input = noise.bytes(count);
            let whole = frames::front(&input) == Front::Whole(input.len());
            let refused_as_frame =
                matches!(read(&input), Err(fault) if fault.reason.layer() == Layer::Frame);
            assert_eq!(whole, !refused_as_frame, "{input:02X?}");
        }
    }

    #[test]
    fn packets_handed_out_make_up_the_data() {
        let mut noise = Noise::new(6);
        let mut accepted = 0;
        for _ in 0..20_000 {
            let count = noise.number(600);
            let data = noise.bytes(count);
            let Ok(packets) = read(&message(&data)).map(rebuilt) else {
                continue;
            };
            assert_eq!(packets, data);
            accepted += 1;
        }
        assert!(accepted > 100);
    }

    fn rebuilt(packets: Vec<Packet>) -> Vec<u8> {
        let mut data = Vec::new();
        for packet in packets {
            data.extend(packet.identifier.to_be_bytes());
            data.push(packet.data.len() as u8);
            data.extend(packet.data);
        }
        data
    }
}
