//! Inputs for the program `sessions` that are the same for the same seed.
//!
//! Each line that is printed is played on the program itself, so that what comes next can
//! depend on the state that the unit is in: a session wakes up, is configured, measures and
//! is reset often enough, and between that comes what is refused, damaged, cut or foreign.

use std::fmt::Write as _;
use std::io::{self, Write};

use crate::channels::CHANNELS;
use crate::generate_messages as messages;
use crate::image;
use crate::lines::{spaced_hex, Program, Words};
use crate::product::Product;
use crate::random::Random;
use crate::requests::{self, State};
use crate::sessions::{Sessions, LONGEST_TRAY};
use crate::store::{Image, IMAGE_SIZE};
use crate::unit::Unit;

/// The tray of a call that is not refused for it.
const TRAY: usize = 2055;
/// The bytes of a slot of a page.
const SLOT_SIZE: usize = 1 + IMAGE_SIZE;
/// The longest memory.
const LONGEST_MEMORY: usize = 600;
/// The ticks of WakeUp.
const TICKS_OF_WAKE_UP: usize = 1000;

/// Prints an input with so many units. With `garbled` some lines are not understood.
pub fn print(seed: u64, count: u64, garbled: bool, output: &mut impl Write) -> io::Result<()> {
    let mut generator = Generator::new(seed, garbled);
    for _ in 0..count {
        generator.session();
        output.write_all(&generator.text)?;
        generator.text.clear();
    }
    Ok(())
}

struct Generator {
    random: Random,
    garbled: bool,
    /// The lines of this session.
    text: Vec<u8>,
    /// The program that plays the lines, and what it printed in this session.
    played: Sessions,
    printed: Vec<u8>,
    /// The channels of the rows that there are.
    row_channels: Vec<u16>,
}

impl Generator {
    fn new(seed: u64, garbled: bool) -> Generator {
        Generator {
            random: Random::new(seed),
            garbled,
            text: Vec::new(),
            played: Sessions::new(),
            printed: Vec::new(),
            row_channels: Vec::new(),
        }
    }

    /// The bytes of this session so far, those that the program printed included.
    fn size(&self) -> usize {
        self.text.len() + self.printed.len()
    }

    /// Prints a line and plays it.
    fn line(&mut self, line: &str) {
        let mut line = line.as_bytes().to_vec();
        if self.garbled && self.random.percent(8) {
            line = self.garble(&line);
        }
        let mut words = Words::of(&line);
        if let Some(command) = words.next() {
            // A line that is not understood is not done, here as there; and writing to
            // memory does not fail.
            let _ = self.played.answer(command, words, &mut self.printed);
        }
        self.text.extend(line);
        self.text.push(b'\n');
    }

    /// A line in which something is wrong, or looks so.
    fn garble(&mut self, line: &[u8]) -> Vec<u8> {
        const WRONG: [&str; 16] = [
            "zz",
            "-1",
            "+1",
            "4294967296",
            "10001",
            "1000001",
            "100001",
            "FFF",
            "0x1",
            "F",
            "9223372036854775808",
            "-9223372036854775808",
            "cell",
            "page",
            "mti-3",
            "\u{2212}1",
        ];
        let random = &mut self.random;
        let mut words: Vec<&[u8]> = Words::of(line).collect();
        let place = random.below(words.len());
        let wrong = random.one_of(WRONG).as_bytes();
        match random.below(9) {
            0 => drop(words.pop()),
            1 => drop(words.remove(place)),
            2 => words.push(wrong),
            3 => words.insert(place, wrong),
            4 => words[0] = random.one_of(["P", "rows", "x", "b", "units"]).as_bytes(),
            5 => words.push(b"\r"),
            6 => words.insert(place, b""),
            7 => {
                let tab = words.join(&b'\t');
                return tab;
            }
            _ => words[place] = wrong,
        }
        words.join(&b' ')
    }

    /// The lines of a session: what the unit is made from, the unit, and calls on it.
    fn session(&mut self) {
        self.printed.clear();
        let product = self.random.one_of(Product::ALL);
        let rows = self.random.percent(50);
        let page = self.random.percent(60);
        if rows {
            self.rows();
        }
        if page {
            self.memory(product);
        }
        self.unit(product, rows, page);
        let size = self.size() + self.random.between(300, 6500);
        let steps = self.random.between(4, 40);
        for _ in 0..steps {
            let Some(unit) = self.played.unit() else {
                // The line of the unit was garbled, or the unit has been ended.
                self.line("t 2055 1");
                return;
            };
            let state = unit.state();
            if self.size() > size {
                return;
            }
            self.step(state, product, size);
        }
    }

    fn unit(&mut self, product: Product, rows: bool, page: bool) {
        let random = &mut self.random;
        let any = random.next() as u32;
        let id = random.one_of([0x0102_0304, 0, 0xFAFA_FAFA, any]);
        let sensor = if rows { "rows" } else { "ramp" };
        let any = random.below(1 << 32);
        let rating = random.one_of([0, 1, 2, 3, 5, 8, 100, (1 << 32) - 1, any]);
        let store = if page {
            "page".to_string()
        } else {
            format!("cell {rating}")
        };
        let name = product.name();
        let line = if random.percent(50) {
            format!("unit {name} {id:08X} {sensor} {store}")
        } else {
            format!("unit {name} {id:08x} {sensor} {store}")
        };
        self.line(&line);
    }

    /// Rows, behind those that are there or in place of them.
    fn rows(&mut self) {
        // Without this the rows would become more and more.
        if self.random.percent(85) {
            self.line("forget");
            self.row_channels.clear();
        }
        for _ in 0..self.random.below(10) {
            let random = &mut self.random;
            let channel = match random.below(14) {
                0 => random.one_of([0x2011, 0x1021, 0x0000, 0xFFFF, 0xE02A]),
                1 | 2 => 0xE020,
                3 => 0x2010,
                _ => CHANNELS[random.below(CHANNELS.len())].identifier,
            };
            let tick = random.one_of([0, 0, 0, 0, 1, 2, 19, 20, 40, 100, 1000, 2000, u32::MAX]);
            self.row_channels.push(channel);
            let mut line = format!("row {channel:04X} {tick}");
            let alike = messages::reading(random);
            let all_alike = random.percent(30);
            for _ in 0..9 {
                let number = if all_alike {
                    alike
                } else {
                    messages::reading(random)
                };
                // Writing to a string does not fail.
                let _ = write!(line, " {number}");
            }
            self.line(&line);
        }
    }

    /// The memory of a page: a new one, with pokes, or the one that is there.
    fn memory(&mut self, product: Product) {
        let random = &mut self.random;
        if random.percent(12) {
            return;
        }
        let any = random.below(LONGEST_MEMORY + 1);
        let length = random.one_of([
            any,
            any,
            any,
            0,
            1,
            140,
            141,
            142,
            281,
            282,
            283,
            423,
            424,
            564,
            565,
            LONGEST_MEMORY,
        ]);
        let any = random.byte();
        let fill = random.one_of([0xFF, 0xFF, 0xFF, 0xFF, 0x00, any]);
        self.line(&format!("memory {length} {fill:02x}"));
        if self.random.percent(35) {
            return;
        }
        for slot in 0..length / SLOT_SIZE {
            self.slot(slot * SLOT_SIZE, product);
        }
        if length > 0 && self.random.percent(15) {
            let at = self.random.below(length);
            let count = self.random.between(0, 5).min(length - at);
            let bytes = self.random.bytes(count);
            self.poke(at, &bytes);
        }
    }

    /// Pokes into a slot, most often an image behind the mark of a used slot.
    fn slot(&mut self, at: usize, product: Product) {
        match self.random.below(10) {
            0 | 1 => {}
            2 => {
                let any = self.random.byte();
                let mark = self.random.one_of([0x00, 0x00, 0x01, 0xFE, 0xFF, any]);
                self.poke(at, &[mark]);
            }
            _ => {
                let image = self.image(product);
                self.poke(at, &[&[0x00][..], &image].concat());
            }
        }
    }

    /// An image: one of valid settings, or not quite.
    fn image(&mut self, product: Product) -> Image {
        let random = &mut self.random;
        let other = random.one_of(Product::ALL);
        let product = match product {
            // These load each other's images, unless pressure is listed.
            Product::Mti30 | Product::Mti300 if random.percent(40) => Product::Mti300,
            _ if random.percent(15) => other,
            _ => product,
        };
        let mut image = image::of(&messages::settings(random, product));
        match random.below(10) {
            0 => messages::damage(random, &mut image),
            1 => messages::damage(random, &mut image[..14]),
            2 => image[5] = random.below(6) as u8,
            // Two flags of the MTi-3, and one more that it does not have.
            3 => image[11] ^= random.one_of([0x01, 0x02, 0x03, 0x04]),
            4 => image[1] = random.one_of([0, 1, 3, 4, 5, 32, 33, 0xFF]),
            _ => {}
        }
        image
    }

    fn poke(&mut self, at: usize, bytes: &[u8]) {
        self.line(&format!("poke {at}{}", spaced_hex(bytes)));
    }

    /// The length of a tray: most often long enough.
    fn tray(&mut self) -> usize {
        let random = &mut self.random;
        match random.below(100) {
            0..=89 => TRAY,
            90..=94 => random.one_of([TRAY + 1, 3000, LONGEST_TRAY]),
            _ => random.one_of([0, 1, 5, 123, TRAY - 1]),
        }
    }

    /// One or more calls.
    fn step(&mut self, state: Option<State>, product: Product, size: usize) {
        if self.garbled && self.random.percent(1) {
            let line = self
                .random
                .one_of(["poke 0", "forget", "memory 3 1", "row"]);
            self.line(line);
            return;
        }
        let Some(state) = state else {
            return self.dark_step();
        };
        match self.random.below(100) {
            0 | 1 => return self.power(),
            2 | 3 => return self.feed(&[]),
            _ => {}
        }
        if self.whole_frame_waits() {
            return match self.random.below(10) {
                0..=3 => self.ticks(1, size),
                4..=6 => self.feed(&[0xFA, 0x01]),
                _ => self.feed_all(&[]),
            };
        }
        if self.fill_up() {
            return;
        }
        let choice = self.random.below(100);
        match (state, choice) {
            (State::WakeUp, 0..=44) => self.message(requests::WAKE_UP_ACK),
            (State::WakeUp, 45..=69) => {
                let count = self.ticks_in_wake_up();
                self.ticks(count, size);
            }
            (State::WakeUp, 70..=74) => self.cut_at_last_tick(size),
            (State::Config, 0..=13) => {
                if self.random.percent(60) {
                    self.set_outputs(product);
                }
                self.message(requests::GO_TO_MEASUREMENT);
            }
            (State::Config, 14) => self.measure_long(product),
            (State::Config, 15..=18) => self.message(requests::RESET),
            (State::Config, 19..=22) => {
                let count = self.random.one_of([1, 3, 1000, 100_000]);
                self.ticks(count, size);
            }
            (State::Measurement, 0..=54) => {
                let count = self.random.one_of([
                    1, 1, 2, 3, 5, 19, 20, 21, 40, 100, 300, 500, 1999, 2000, 2001, 4001, 10_000,
                ]);
                self.ticks(count, size);
            }
            (State::Measurement, 55..=70) => self.message(requests::GO_TO_CONFIG),
            (State::Measurement, 71..=78) => self.message(requests::RESET),
            _ => self.some_frames(product),
        }
    }

    fn dark_step(&mut self) {
        match self.random.below(100) {
            0..=2 => self.feed(&[0xFA, 0xFF, 0x00, 0x00, 0x01]),
            3..=4 => self.feed_all(&[0xFA, 0xFF, 0x3F, 0x00, 0xC2]),
            5..=7 => self.line("t 2055 1000"),
            8 => self.line("t 5 0"),
            _ => self.power(),
        }
    }

    fn power(&mut self) {
        let tray = self.tray();
        self.line(&format!("p {tray}"));
    }

    /// A count of ticks around the end of WakeUp.
    fn ticks_in_wake_up(&mut self) -> usize {
        let counts = self.played.unit().and_then(Unit::counts);
        let done = counts.map_or(0, |counts| counts.ticks_in_wake_up as usize);
        let left = TICKS_OF_WAKE_UP.saturating_sub(done);
        self.random.one_of([
            1,
            3,
            left.saturating_sub(1),
            left,
            left,
            left + 1,
            left + 20,
            999,
            1000,
            1001,
            2000,
        ])
    }

    /// A WakeUpAck just in time, or just too late.
    fn cut_at_last_tick(&mut self, size: usize) {
        let counts = self.played.unit().and_then(Unit::counts);
        let done = counts.map_or(0, |counts| counts.ticks_in_wake_up as usize);
        let left = TICKS_OF_WAKE_UP.saturating_sub(done);
        let early = self.random.below(2);
        self.ticks(left.saturating_sub(early), size);
        self.message(requests::WAKE_UP_ACK);
    }

    /// Ticks, so many or as many as the size allows.
    fn ticks(&mut self, count: usize, size: usize) {
        let room = size.saturating_sub(self.size()).min(4000);
        let count = match self.played.unit() {
            Some(unit) => ticks_within(unit, count, room),
            None => count,
        };
        let tray = self.tray();
        self.line(&format!("t {tray} {count}"));
    }

    fn whole_frame_waits(&self) -> bool {
        let unit = self.played.unit();
        unit.is_some_and(|unit| unit.waiting().whole_frame_waits())
    }

    /// Sometimes ends a start of a frame that waits; the bytes most often make it fail.
    fn fill_up(&mut self) -> bool {
        let Some(unit) = self.played.unit() else {
            return false;
        };
        let held = unit.waiting().held().len();
        let missing = unit.waiting().bytes_to_next_look();
        let times = if missing < 30 { 50 } else { 20 };
        if held == 0 || missing > 300 || !self.random.percent(times) {
            return false;
        }
        self.deliver(&vec![0; missing]);
        true
    }

    /// One message without data, as it is.
    fn message(&mut self, identifier: u8) {
        let frame = messages::framed(&mut self.random, identifier, &[]);
        self.deliver(&frame);
    }

    /// Measurement over so many ticks that readings of the ramp turn round, with few messages.
    fn measure_long(&mut self, product: Product) {
        let data = messages::slow_output(&mut self.random, product);
        let identifier = requests::OUTPUT_CONFIGURATION;
        let frame = messages::framed(&mut self.random, identifier, &data);
        self.deliver(&frame);
        self.message(requests::GO_TO_MEASUREMENT);
        let count = self.random.one_of([8_001, 22_001, 66_001, 134_001]);
        // More than the size of the session allows, if it must be.
        self.ticks(count, self.size() + 4000);
    }

    /// A list of outputs, most often with channels that there are rows of.
    fn set_outputs(&mut self, product: Product) {
        let data = messages::outputs(&mut self.random, product, &self.row_channels);
        let identifier = requests::OUTPUT_CONFIGURATION;
        let frame = messages::framed(&mut self.random, identifier, &data);
        self.deliver(&frame);
    }

    /// Some frames, among them damaged ones, cut ones, and ones inside a failed longer one,
    /// with bytes between.
    fn some_frames(&mut self, product: Product) {
        let random = &mut self.random;
        let mut bytes = Vec::new();
        for _ in 0..random.between(1, 4) {
            let mut frame = messages::frame(random, product);
            match random.below(100) {
                0..=4 => messages::damage(random, &mut frame),
                5..=7 => {
                    if let Some(checksum) = frame.last_mut() {
                        *checksum = checksum.wrapping_sub(1);
                    }
                }
                8..=9 => drop(frame.pop()),
                10 => frame.truncate(random.below(frame.len())),
                11..=14 => bytes.extend(messages::noise(random)),
                _ => {}
            }
            bytes.extend(frame);
        }
        if random.percent(12) {
            bytes = messages::failed_around(random, &bytes);
        }
        if random.below(1500) == 0 {
            let data = vec![random.byte(); 2048];
            bytes = messages::framed(random, requests::OUTPUT_CONFIGURATION, &data);
        }
        self.deliver(&bytes);
    }

    /// Hands bytes to the unit, in one line or cut anywhere.
    fn deliver(&mut self, bytes: &[u8]) {
        match self.random.below(100) {
            0..=64 => self.feed_all(bytes),
            65..=72 => self.feed(bytes),
            _ => self.deliver_in_pieces(bytes),
        }
    }

    fn deliver_in_pieces(&mut self, bytes: &[u8]) {
        let mut rest = bytes;
        let longest = self.random.between(1, bytes.len().max(1));
        let mut lines = 0;
        while !rest.is_empty() && lines < 12 {
            let size = self.random.between(1, longest).min(rest.len());
            let printed = self.printed.len();
            self.feed(&rest[..size]);
            // Bytes that were not taken are fed again.
            let taken = match self.printed.get(printed..).and_then(taken_of) {
                Some(taken) => taken,
                None if self.random.percent(80) => 0,
                None => size,
            };
            rest = rest.get(taken..).unwrap_or_default();
            lines += 1;
        }
        if self.random.percent(70) {
            self.feed_all(rest);
        }
    }

    fn feed(&mut self, bytes: &[u8]) {
        let tray = self.tray();
        self.line(&format!("f {tray}{}", spaced_hex(bytes)));
    }

    fn feed_all(&mut self, bytes: &[u8]) {
        let tray = self.tray();
        self.line(&format!("a {tray}{}", spaced_hex(bytes)));
    }
}

/// The bytes taken in an answer `ok TAKEN WRITTEN SERVED`.
fn taken_of(answer: &[u8]) -> Option<usize> {
    let taken = Words::of(answer).nth(1)?;
    let answered = Words::of(answer).next() == Some(b"ok");
    let taken = crate::lines::decimal(taken).filter(|_| answered)?;
    usize::try_from(taken).ok()
}

/// The ticks, at most so many and at least one, whose printed output is within a size.
fn ticks_within(unit: &Unit, count: usize, size: usize) -> usize {
    let mut unit = unit.clone();
    let mut tray = [0; TRAY];
    let mut printed = 0;
    for done in 0..count {
        // A byte is printed in three characters.
        printed += unit.tick(&mut tray).map_or(0, |written| 3 * written);
        if printed > size {
            return done.max(1);
        }
    }
    count
}

#[cfg(test)]
mod tests {
    use super::*;
    use crate::lines::{answer_all, Outcome};
    use std::io::BufReader;

    fn generated(seed: u64, count: u64, garbled: bool) -> Vec<u8> {
        let mut text = Vec::new();
        assert!(print(seed, count, garbled, &mut text).is_ok());
        text
    }

    fn played(text: &[u8]) -> (Vec<u8>, Option<Outcome>) {
        let (mut output, mut errors) = (Vec::new(), Vec::new());
        let mut input = BufReader::new(text);
        let outcome = answer_all(&mut input, &mut output, &mut errors, &mut Sessions::new());
        (output, outcome.ok())
    }

    #[test]
    fn the_same_seed_gives_the_same_input() {
        assert_eq!(generated(7, 5, false), generated(7, 5, false));
        assert_ne!(generated(7, 5, false), generated(8, 5, false));
        assert!(generated(7, 5, false).starts_with(&generated(7, 4, false)));
        assert_eq!(generated(7, 0, false), []);
    }

    #[test]
    fn every_line_is_understood_unless_garbled() {
        for seed in 0..4 {
            let (_, outcome) = played(&generated(seed, 50, false));
            assert_eq!(outcome, Some(Outcome::AllUnderstood));
            let (_, outcome) = played(&generated(seed, 50, true));
            assert_eq!(outcome, Some(Outcome::SomeNotUnderstood));
        }
    }

    #[test]
    fn sessions_are_short_on_average() {
        let text = generated(9, 300, false);
        let (output, _) = played(&text);
        assert!((text.len() + output.len()) / 300 < 6000);
    }

    #[test]
    fn as_many_units_as_asked_for() {
        let text = generated(3, 40, false);
        let lines = text.split(|&byte| byte == b'\n');
        let units = lines.filter(|line| line.starts_with(b"unit ")).count();
        assert_eq!(units, 40);
    }
}
