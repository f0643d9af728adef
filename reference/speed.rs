//! The program `speed`: units fed and ticked as fast as they can be, and a hash over what
//! they write (docs/BENCH.md).

use std::io::Write;
use std::iter;

use crate::channels::{Channel, Data, CHANNELS};
use crate::frames::{self, LONGEST_FRAME};
use crate::hash::{next_number, Hash};
use crate::lines::{self, NotUnderstood, Problem, Program, Words};
use crate::product::Product;
use crate::requests;
use crate::sensor::Sensor;
use crate::store::{Cell, Store};
use crate::unit::{Fed, Unit};

const DEVICE_ID: [u8; 4] = [1, 2, 3, 4];
const RATING: usize = 10;
/// The address of what is fed.
const ADDRESS: u8 = 0xFF;
const REQ_DID: [u8; 5] = [0xFA, 0xFF, 0x00, 0x00, 0x01];
/// The bytes that are fed at once.
const PIECE: usize = 1000;
/// As many bytes as the longest frame, none of which begins one: behind them nothing waits,
/// whatever was fed before.
const SETTLING: [u8; LONGEST_FRAME] = [0; LONGEST_FRAME];
/// Begins a frame of the longest kind, again and again.
const NESTED: [u8; 6] = [0xFA, 0x00, 0x00, 0xFF, 0x08, 0x00];
/// The number behind which the row of noise begins.
const SEED: u64 = 1;

/// The program; it keeps nothing from one line to the next.
pub struct Speed;

impl Program for Speed {
    fn answer(
        &mut self,
        command: &[u8],
        mut words: Words,
        output: &mut impl Write,
    ) -> Result<(), Problem> {
        let run = match command {
            b"factory" => factory,
            b"all" => all,
            b"frames" => frames_served,
            b"noise" => noise,
            b"nested" => nested,
            _ => return Err(NotUnderstood::UnknownCommand.into()),
        };
        let count = words.read(lines::decimal_32, NotUnderstood::NotANumber)?;
        words.end().map_err(|_| NotUnderstood::NotANumber)?;
        let hash = run(count).value();
        output.write_all(command)?;
        writeln!(output, " {hash:016X}")?;
        Ok(())
    }
}

/// Ticks with the factory settings.
fn factory(count: u32) -> Hash {
    let mut played = Played::in_config(Product::Mti3);
    played.message(requests::GO_TO_MEASUREMENT, &[]);
    played.ticks(count);
    played.hash
}

/// Ticks with all channels, each as often and as long as it can be.
fn all(count: u32) -> Hash {
    let mut played = Played::in_config(Product::MtiG710);
    let list: Vec<u8> = CHANNELS.iter().flat_map(longest_entry).collect();
    played.message(requests::OUTPUT_CONFIGURATION, &list);
    played.message(requests::GO_TO_MEASUREMENT, &[]);
    played.ticks(count);
    played.hash
}

/// The entry of a channel in the highest precision that it takes, at more than its maximum.
fn longest_entry(channel: &Channel) -> [u8; 4] {
    let precision = match channel.data {
        Data::Real(_) => 3,
        Data::Whole(_) => 0,
    };
    let [high, low] = (channel.identifier | precision).to_be_bytes();
    [high, low, 0xFF, 0xFF]
}

/// A question, asked again and again.
fn frames_served(count: u32) -> Hash {
    let mut played = Played::in_config(Product::Mti3);
    for _ in 0..count {
        played.feed(&REQ_DID);
    }
    played.hash
}

fn noise(count: u32) -> Hash {
    let numbers = iter::successors(Some(SEED), |&number| Some(next_number(number)));
    let bytes = numbers.skip(1).map(|number| (number >> 56) as u8);
    fed_in_pieces(bytes, count)
}

fn nested(count: u32) -> Hash {
    fed_in_pieces(NESTED.into_iter().cycle(), count)
}

/// Feeds so many of the bytes, in pieces, and then asks a question, whose answer tells the
/// state to which they led.
fn fed_in_pieces(bytes: impl Iterator<Item = u8>, count: u32) -> Hash {
    let mut played = Played::in_config(Product::Mti3);
    let mut bytes = bytes.take(count as usize);
    let mut piece = Vec::with_capacity(PIECE);
    loop {
        piece.clear();
        piece.extend(bytes.by_ref().take(PIECE));
        if piece.is_empty() {
            break;
        }
        played.feed_all(&piece);
    }
    played.feed_all(&SETTLING);
    played.feed_all(&REQ_DID);
    played.hash
}

/// A unit that is powered, and the hash over what it wrote. Its tray is long enough, so none
/// of its feeds is refused.
struct Played {
    unit: Unit,
    tray: [u8; LONGEST_FRAME],
    hash: Hash,
}

impl Played {
    /// A unit that is powered and fed WakeUpAck.
    fn in_config(product: Product) -> Played {
        let store = Store::Cell(Cell::new(RATING));
        let mut played = Played {
            unit: Unit::new(product, DEVICE_ID, store, Sensor::Ramp),
            tray: [0; LONGEST_FRAME],
            hash: Hash::START,
        };
        if let Ok(written) = played.unit.power(&mut played.tray) {
            played.wrote(written);
        }
        played.message(requests::WAKE_UP_ACK, &[]);
        played
    }

    fn wrote(&mut self, size: usize) {
        self.hash.add(self.tray.get(..size).unwrap_or_default());
    }

    /// Feeds once; answers what the feed did.
    fn feed(&mut self, bytes: &[u8]) -> Option<Fed> {
        let fed = self.unit.feed(bytes, &mut self.tray).ok()?;
        self.wrote(fed.written);
        Some(fed)
    }

    /// Feeds the bytes until all are taken and no whole frame waits.
    fn feed_all(&mut self, bytes: &[u8]) {
        let mut rest = bytes;
        while let Some(fed) = self.feed(rest) {
            if !fed.served {
                break;
            }
            rest = rest.get(fed.taken..).unwrap_or_default();
        }
    }

    /// Feeds a frame with these data.
    fn message(&mut self, identifier: u8, data: &[u8]) {
        if let Some(frame) = frames::write(ADDRESS, identifier, data) {
            self.feed_all(&frame);
        }
    }

    /// No whole frame waits behind [`Played::feed_all`], so no tick is refused.
    fn ticks(&mut self, count: u32) {
        for _ in 0..count {
            if let Ok(written) = self.unit.tick(&mut self.tray) {
                self.wrote(written);
            }
        }
    }
}

#[cfg(test)]
mod tests {
    use super::*;
    use crate::lines::{answer_all, spaced_hex};
    use crate::sessions::Sessions;
    use std::io::BufReader;

    const WAKE_UP_ACK: &str = " FA FF 3F 00 C2";
    const GO_TO_MEASUREMENT: &str = " FA FF 10 00 F1";

    /// What is printed to standard output and to standard error.
    fn run(program: &mut impl Program, input: &str) -> (String, String) {
        let (mut output, mut errors) = (Vec::new(), Vec::new());
        let mut lines = BufReader::new(input.as_bytes());
        assert!(answer_all(&mut lines, &mut output, &mut errors, program).is_ok());
        let text = |bytes| String::from_utf8(bytes).unwrap_or_default();
        (text(output), text(errors))
    }

    /// Asserts that a line gives the hash of what a unit writes that is powered, fed these
    /// bytes at once, and ticked so many times.
    fn assert_hash(line: &str, product: &str, bytes: &str, ticks: u32) {
        let input = format!(
            "unit {product} 01020304 ramp cell 10\np 2055\na 2055{bytes}\nt 2055 {ticks}\n"
        );
        let (printed, errors) = run(&mut Sessions::new(), &input);
        assert_eq!(errors, "");
        let mut hash = Hash::START;
        for answer in printed.lines().filter(|answer| answer.starts_with("ok")) {
            // The bytes are the words of two digits behind the numbers.
            let numbers = if answer.contains("yes") || answer.contains("no") {
                4
            } else {
                2
            };
            for word in answer.split(' ').skip(numbers) {
                hash.add(&[lines::byte(word.as_bytes()).unwrap_or_default()]);
            }
        }
        let command = line.split(' ').next().unwrap_or_default();
        let expected = format!("{command} {:016X}\n", hash.value());
        assert_eq!(run(&mut Speed, line), (expected, String::new()));
    }

    #[test]
    fn bytes_of_the_document() {
        let mut hash = Hash::START;
        for frame in [
            &[0xFA, 0xFF, 0x3E, 0x00, 0xC3][..],
            &[0xFA, 0xFF, 0x01, 0x04, 1, 2, 3, 4, 0xF2],
            &[0xFA, 0xFF, 0x01, 0x04, 1, 2, 3, 4, 0xF2],
        ] {
            hash.add(frame);
        }
        let expected = format!("frames {:016X}\n", hash.value());
        assert_eq!(run(&mut Speed, "frames 2").0, expected);
    }

    #[test]
    fn ticks() {
        let bytes = format!("{WAKE_UP_ACK}{GO_TO_MEASUREMENT}");
        for count in [0, 1, 21, 4001] {
            assert_hash(&format!("factory {count}"), "MTi-3", &bytes, count);
        }
        let list = "08 13 FF FF 10 20 FF FF 10 60 FF FF 10 70 FF FF 20 13 FF FF 20 23 FF FF \
            20 33 FF FF 30 10 FF FF 40 13 FF FF 40 23 FF FF 40 33 FF FF 50 23 FF FF 50 43 FF FF \
            80 23 FF FF 80 33 FF FF C0 23 FF FF D0 13 FF FF E0 10 FF FF E0 20 FF FF";
        let bytes = format!("{WAKE_UP_ACK} FA FF C0 4C {list} 9C{GO_TO_MEASUREMENT}");
        for count in [0, 1, 2001] {
            assert_hash(&format!("all {count}"), "MTi-G-710", &bytes, count);
        }
    }

    #[test]
    fn frames_one_by_one() {
        for count in [0, 1, 500] {
            let bytes = format!("{WAKE_UP_ACK}{}", " FA FF 00 00 01".repeat(count));
            assert_hash(&format!("frames {count}"), "MTi-3", &bytes, 0);
        }
    }

    /// The bytes behind those of `noise` and `nested`.
    fn end() -> String {
        format!("{} FA FF 00 00 01", " 00".repeat(2055))
    }

    #[test]
    fn pieces() {
        let end = end();
        for count in [0, 1, 999, 1000, 1001, 12_345] {
            let mut number = 1;
            let noise: Vec<u8> = (0..count)
                .map(|_| {
                    number = next_number(number);
                    number.to_be_bytes()[0]
                })
                .collect();
            let bytes = format!("{WAKE_UP_ACK}{}{end}", spaced_hex(&noise));
            assert_hash(&format!("noise {count}"), "MTi-3", &bytes, 0);
            let nested: Vec<u8> = (0..count).map(|place| NESTED[place % 6]).collect();
            let bytes = format!("{WAKE_UP_ACK}{}{end}", spaced_hex(&nested));
            assert_hash(&format!("nested {count}"), "MTi-3", &bytes, 0);
        }
    }

    #[test]
    fn noise_with_frames_for_the_unit() {
        let silent = run(&mut Speed, "noise 0");
        assert_eq!(run(&mut Speed, "noise 1000000"), silent);
        assert_ne!(run(&mut Speed, "noise 20000000"), silent);
    }

    /// The hash of a line without its command.
    fn hash(line: &str) -> String {
        let (printed, errors) = run(&mut Speed, line);
        assert_eq!(errors, "");
        let (_, hash) = printed.split_once(' ').unwrap_or_default();
        hash.to_string()
    }

    #[test]
    fn the_question_at_the_end_is_answered_whatever_waits_before_it() {
        let answered = hash("frames 1");
        assert_eq!(hash("noise 0"), answered);
        // Behind `nested 1500` the bytes 00 make a frame of the longest start that waits.
        for count in (0..100).chain(1480..1520).chain(2040..2070) {
            assert_eq!(hash(&format!("nested {count}")), answered, "{count}");
        }
    }

    #[test]
    fn nothing_waits_behind_the_settling_bytes() {
        let noise: Vec<u8> = iter::successors(Some(SEED), |&number| Some(next_number(number)))
            .map(|number| number.to_be_bytes()[0])
            .take(9000)
            .collect();
        let nested: Vec<u8> = NESTED.into_iter().cycle().take(9000).collect();
        for bytes in [noise, nested] {
            for count in (0..bytes.len()).step_by(59) {
                let mut played = Played::in_config(Product::Mti3);
                played.feed_all(&bytes[..count]);
                played.feed_all(&SETTLING);
                assert!(played.unit.waiting().held().is_empty(), "{count}");
            }
        }
    }

    #[test]
    fn lines_not_understood() {
        let input = "factory\nall -1\nframes 1 2\nnoise 4294967296\nnested x\nf 1\nFRAMES\n";
        let (output, errors) = run(&mut Speed, input);
        assert_eq!(output, "");
        let expected = "line 1: not a number\nline 2: not a number\nline 3: not a number\n\
            line 4: not a number\nline 5: not a number\nline 6: unknown command\n\
            line 7: unknown command\n";
        assert_eq!(errors, expected);
    }
}
