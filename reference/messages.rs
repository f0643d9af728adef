//! The program `messages`: recordings, data messages and readings (docs/BENCH.md).

use std::io::Write;

use crate::compose::{Draft, Refusal};
use crate::data_message::{self, Fault, Kind, Layer, Packet};
use crate::frames::{self, Piece};
use crate::lines::{self, hex, spaced_hex, NotUnderstood, Problem, Program, Words};
use crate::readings::{self, Reading};

/// The bytes of the tray in which a message is composed.
const TRAY: usize = 2055;
/// The most readings at once.
const MOST_READINGS: u64 = 1_000_000;

/// The program; it keeps nothing from one line to the next.
pub struct Messages;

impl Program for Messages {
    fn answer(
        &mut self,
        command: &[u8],
        words: Words,
        output: &mut impl Write,
    ) -> Result<(), Problem> {
        let words: Vec<&[u8]> = words.collect();
        output.write_all(answer(command, &words)?.as_bytes())?;
        Ok(())
    }
}

/// What `messages` prints for a line.
fn answer(command: &[u8], words: &[&[u8]]) -> Result<String, NotUnderstood> {
    match command {
        b"f" => Ok(recording(&lines::bytes(words)?)),
        b"r" => Ok(data_message(&lines::bytes(words)?)),
        b"c" => Ok(composed_message(&packets_to_add(words)?)),
        b"v" => reading(words).ok_or(NotUnderstood::NotANumber),
        b"n" => many_readings(words).ok_or(NotUnderstood::NotANumber),
        _ => Err(NotUnderstood::UnknownCommand),
    }
}

/// The pieces of a recording, and how many there are of each.
fn recording(bytes: &[u8]) -> String {
    let mut text = String::new();
    let (mut frames, mut dropped, mut left) = (0, 0, 0);
    for piece in frames::read(bytes) {
        let (word, bytes) = match piece {
            Piece::Frame(bytes) => {
                frames += 1;
                ("frame", bytes)
            }
            Piece::Dropped(bytes) => {
                dropped += bytes.len();
                ("dropped", bytes)
            }
            Piece::Left(bytes) => {
                left += bytes.len();
                ("left", bytes)
            }
        };
        text += &format!("{word}{}\n", spaced_hex(bytes));
    }
    text + &format!("frames {frames} dropped {dropped} left {left}\n")
}

/// The packets of a data message, or its fault.
fn data_message(bytes: &[u8]) -> String {
    match data_message::read(bytes) {
        Ok(packets) => packets.iter().map(packet_line).collect(),
        Err(fault) => fault_line(fault),
    }
}

fn packet_line(packet: &Packet) -> String {
    let kind = match packet.kind {
        Kind::Real => "real",
        Kind::Whole => "whole",
        Kind::Unknown => "unknown",
    };
    let size = packet.data.len();
    format!(
        "packet {:04X} {kind} {size}{}\n",
        packet.identifier,
        spaced_hex(packet.data)
    )
}

fn fault_line(fault: Fault) -> String {
    let layer = match fault.reason.layer() {
        Layer::Frame => "frame",
        Layer::Message => "message",
        Layer::Packet => "packet",
    };
    format!("fault {} {layer} {}\n", fault.reason.number(), fault.place)
}

/// A packet to add: its identifier and its data, of any length.
type ToAdd = (u16, Vec<u8>);

fn packets_to_add(words: &[&[u8]]) -> Result<Vec<ToAdd>, NotUnderstood> {
    words
        .iter()
        .map(|word| packet_to_add(word).ok_or(NotUnderstood::NotAPacket))
        .collect()
}

/// The packet that a word `IDENTIFIER:BYTES` is.
fn packet_to_add(word: &[u8]) -> Option<ToAdd> {
    let (identifier, data) = word.split_at_checked(4)?;
    let (high, low) = identifier.split_at(2);
    let identifier = u16::from_be_bytes([lines::byte(high)?, lines::byte(low)?]);
    Some((identifier, lines::bytes_in_one(data.strip_prefix(b":")?)?))
}

/// The composed frame and its packets, or the refusal.
fn composed_message(packets: &[ToAdd]) -> String {
    match compose(packets) {
        Ok(frame) => format!("frame{}\n{}", spaced_hex(&frame), data_message(&frame)),
        Err(refusal) => format!("refused {}\n", refusal.number()),
    }
}

fn compose(packets: &[ToAdd]) -> Result<Vec<u8>, Refusal> {
    let mut draft = Draft::new(TRAY);
    for (identifier, data) in packets {
        draft.add(*identifier, data, 0, data.len())?;
    }
    draft.close()
}

/// The reading in four precisions, if the words are one number.
fn reading(words: &[&[u8]]) -> Option<String> {
    let [word] = words else {
        return None;
    };
    let text = match Reading::new(lines::signed_decimal(word)?) {
        Some(reading) => format!(
            "v {} {} {} {}\n",
            hex(&reading.single()),
            hex(&reading.fixed_12_20()),
            hex(&reading.fixed_16_32()),
            hex(&reading.double())
        ),
        None => "out of range\n".to_string(),
    };
    Some(text)
}

/// The hash of many readings, if the words are a seed and a count.
fn many_readings(words: &[&[u8]]) -> Option<String> {
    let [seed, count] = words else {
        return None;
    };
    let seed = lines::decimal(seed)?;
    let count = lines::decimal(count).filter(|&count| count <= MOST_READINGS)?;
    Some(format!("n {:016X}\n", readings::hash_of_many(seed, count)))
}

#[cfg(test)]
mod tests {
    use super::*;

    fn assert_answer(line: &str, expected: &str) {
        let words: Vec<&[u8]> = line.split_whitespace().map(str::as_bytes).collect();
        assert_eq!(answer(words[0], &words[1..]).as_deref(), Ok(expected));
    }

    #[test]
    fn example_of_a_recording() {
        assert_answer(
            "f FA FA FF 00 00 01 FA 01",
            "dropped FA\nframe FA FF 00 00 01\nleft FA 01\nframes 1 dropped 1 left 2\n",
        );
    }

    #[test]
    fn dropped_bytes_stand_in_one_line_between_frames() {
        assert_answer(
            "f 01 fa 01 02 ff 09 FA FF 00 00 01 00 FA FF 00 00 01 FF",
            "dropped 01 FA 01 02 FF 09\nframe FA FF 00 00 01\ndropped 00\n\
                frame FA FF 00 00 01\ndropped FF\nframes 2 dropped 8 left 0\n",
        );
    }

    #[test]
    fn no_bytes() {
        assert_answer("f", "frames 0 dropped 0 left 0\n");
        assert_answer("r", "fault 14 frame 0\n");
    }

    #[test]
    fn example_of_a_data_message() {
        assert_answer(
            "r FA FF 36 05 10 20 02 00 07 8D",
            "packet 1020 whole 2 00 07\n",
        );
    }

    #[test]
    fn example_from_a_recorder() {
        assert_answer(
            "r FA FF 36 31 10 20 02 DF C5 10 60 04 00 45 9D A0 40 20 0C BE DC 9A FA 3F 54 9F 37 \
                41 1C BB 70 80 20 0C BB AA 5C 80 3B 8C 55 01 BB 81 33 00 E0 20 04 00 00 00 81 45",
            "packet 1020 whole 2 DF C5\n\
                packet 1060 whole 4 00 45 9D A0\n\
                packet 4020 real 12 BE DC 9A FA 3F 54 9F 37 41 1C BB 70\n\
                packet 8020 real 12 BB AA 5C 80 3B 8C 55 01 BB 81 33 00\n\
                packet E020 whole 4 00 00 00 81\n",
        );
    }

    #[test]
    fn packet_of_size_0() {
        assert_answer("r FA FF 36 03 00 0a 00 BE", "packet 000A unknown 0\n");
    }

    #[test]
    fn faults() {
        assert_answer("r FA FF 36 05 10 20 02 00 07 8E", "fault 17 frame 9\n");
        assert_answer("r FA FF 36 00 CB", "fault 19 message 4\n");
        assert_answer("r FA FF 36 01 00 CA", "fault 20 packet 4\n");
    }

    #[test]
    fn example_of_a_composed_message() {
        assert_answer(
            "c 1020:0007 E010:80",
            "frame FA FF 36 09 10 20 02 00 07 E0 10 01 80 18\n\
                packet 1020 whole 2 00 07\npacket E010 whole 1 80\n",
        );
    }

    #[test]
    fn composed_packet_of_size_0() {
        assert_answer(
            "c 000a:",
            "frame FA FF 36 03 00 0A 00 BE\npacket 000A unknown 0\n",
        );
    }

    #[test]
    fn refusals_of_composing() {
        assert_answer("c", "refused 9\n");
        assert_answer("c 1020:00", "refused 11\n");
        assert_answer("c 1020:0007 E010:", "refused 11\n");
        assert_answer(&format!("c 1021:{}", "00".repeat(256)), "refused 11\n");
        let full = format!("c{} 1021:0000", " 1021:".repeat(681));
        assert_answer(&format!("{full} 1021:"), "refused 12\n");
        // The first packet that is refused decides.
        assert_answer(&format!("{full} 1021: 1020:"), "refused 12\n");
        assert_answer(&format!("{full} 1020: 1021:"), "refused 11\n");
    }

    #[test]
    fn longest_composed_message() {
        let line = format!("c{} 1021:0102", " 1021:".repeat(681));
        let data = [[0x10, 0x21, 0].repeat(681), vec![0x10, 0x21, 2, 1, 2]].concat();
        let frame = frames::tests::frame(0xFF, 0x36, &data);
        let mut expected = format!("frame{}\n", spaced_hex(&frame));
        expected += &"packet 1021 unknown 0\n".repeat(681);
        assert_answer(&line, &(expected + "packet 1021 unknown 2 01 02\n"));
        assert_eq!(frame.len(), TRAY);
    }

    #[test]
    fn examples_of_readings() {
        for (line, expected) in [
            (
                "v 4294967296",
                "v 3F800000 00100000 000100000000 3FF0000000000000\n",
            ),
            (
                "v -1",
                "v AF800000 FFFFFFFF FFFFFFFFFFFF BDF0000000000000\n",
            ),
            (
                "v 140737488355327",
                "v 47000000 7FFFFFFF 7FFFFFFFFFFF 40DFFFFFFFFFFFC0\n",
            ),
            (
                "v -140737488355328",
                "v C7000000 80000000 800000000000 C0E0000000000000\n",
            ),
            ("v 0", "v 00000000 00000000 000000000000 0000000000000000\n"),
        ] {
            assert_answer(line, expected);
        }
    }

    #[test]
    fn readings_out_of_range() {
        assert_answer("v 140737488355328", "out of range\n");
        assert_answer("v -140737488355329", "out of range\n");
        assert_answer("v 9223372036854775807", "out of range\n");
        assert_answer("v -9223372036854775807", "out of range\n");
    }

    #[test]
    fn hashes_of_many_readings() {
        assert_answer("n 0 0", "n CBF29CE484222325\n");
        assert_answer("n 0 1", "n 040F882560A74E13\n");
        assert_answer("n 1 1000", "n 3AFDCDF618BD0D53\n");
        assert_answer("n 18446744073709551615 20000", "n B6EB43E907754824\n");
    }

    fn assert_not_understood(line: &str, reason: NotUnderstood) {
        let words: Vec<&[u8]> = line.split(' ').map(str::as_bytes).collect();
        assert_eq!(answer(words[0], &words[1..]), Err(reason), "{line}");
    }

    #[test]
    fn words_that_are_no_packets() {
        for word in [
            "1020",
            "102:00",
            "10200:00",
            "1020:0",
            "1020:000",
            "1020:0G",
            "102G:00",
            "1020::00",
            ":00",
            "1020;00",
            "0x20:00",
            "1\u{e9}0:00",
        ] {
            assert_not_understood(&format!("c {word}"), NotUnderstood::NotAPacket);
            // Nothing of the line is done, so the refusal of the first packet is not seen.
            assert_not_understood(&format!("c 1020: {word}"), NotUnderstood::NotAPacket);
        }
    }

    #[test]
    fn words_that_are_no_numbers() {
        for line in [
            "v",
            "v 1 2",
            "v +1",
            "v 1.5",
            "v 9223372036854775808",
            "v -9223372036854775808",
            "n",
            "n 1",
            "n 1 2 3",
            "n -1 2",
            "n 1 x",
            "n 1 1000001",
            "n 18446744073709551616 1",
        ] {
            assert_not_understood(line, NotUnderstood::NotANumber);
        }
    }

    #[test]
    fn lines_not_understood() {
        for command in ["F", "ff", "fr", "frame", "x"] {
            let answer = answer(command.as_bytes(), &[b"G"]);
            assert_eq!(answer, Err(NotUnderstood::UnknownCommand));
        }
        assert_eq!(answer(b"r", &[b"FA", b"FFF"]), Err(NotUnderstood::NotAByte));
        assert_eq!(
            answer(b"f", &[b"FA", b"\xFF\xFF"]),
            Err(NotUnderstood::NotAByte)
        );
    }
}
