//! The data message of a tick in Measurement (docs/DATA.md, "What a tick in Measurement
//! sends").

use crate::channels::{self, Form};
use crate::frames::LONGEST_DATA;
use crate::readings::{Precision, Reading};
use crate::sensor::Sensor;
use crate::settings::{Entry, TICKS_OF_A_SECOND};

/// The units of 0.1 ms of a tick.
const FINE_UNITS_OF_A_TICK: u32 = 5;
const LONGEST: usize = LONGEST_DATA as usize;

/// The counts of a unit that is not dark.
#[derive(Debug, Clone, Copy, PartialEq, Eq)]
pub struct Counts {
    pub ticks_in_wake_up: u32,
    /// The data messages sent, modulo 65,536.
    pub sent: u16,
    /// The tick number, modulo 2^32.
    pub tick: u32,
    /// The phase, below 2000.
    pub phase: u16,
    /// The seconds, modulo 2^32.
    pub seconds: u32,
}

impl Counts {
    /// The counts at power and Reset.
    pub const START: Counts = Counts {
        ticks_in_wake_up: 0,
        sent: 0,
        tick: 0,
        phase: 0,
        seconds: 0,
    };

    /// The counts when Measurement begins.
    pub fn at_measurement(self) -> Counts {
        Counts {
            ticks_in_wake_up: self.ticks_in_wake_up,
            sent: self.sent,
            ..Counts::START
        }
    }

    /// The counts behind a tick in Measurement.
    pub fn behind_tick(self, sent_something: bool) -> Counts {
        let phase = (self.phase + 1) % TICKS_OF_A_SECOND;
        Counts {
            ticks_in_wake_up: self.ticks_in_wake_up,
            sent: self.sent.wrapping_add(u16::from(sent_something)),
            tick: self.tick.wrapping_add(1),
            phase,
            seconds: self.seconds.wrapping_add(u32::from(phase == 0)),
        }
    }
}

/// A data message would have more than 2,048 data bytes.
#[derive(Debug, Clone, Copy, PartialEq, Eq)]
pub struct TooLong;

/// The packets of one tick, one behind the other. Bytes past the longest data of a frame are
/// counted, and not kept.
#[derive(Debug, Clone)]
pub struct Packets {
    bytes: Box<[u8; LONGEST]>,
    size: usize,
}

impl Packets {
    pub fn new() -> Packets {
        Packets {
            bytes: Box::new([0; LONGEST]),
            size: 0,
        }
    }

    /// Puts the packets of the entries that are due in place of those that are there.
    pub fn fill(&mut self, outputs: &[Entry], counts: &Counts, sensor: &Sensor) {
        self.size = 0;
        for entry in outputs.iter().filter(|entry| entry.is_due(counts.phase)) {
            let before = self.size;
            if self.packet(entry, counts, sensor).is_none() {
                self.size = before;
            }
        }
    }

    /// The data of the message.
    pub fn data(&self) -> Result<&[u8], TooLong> {
        self.bytes.get(..self.size).ok_or(TooLong)
    }

    /// Adds the packet of an entry. With none the entry is omitted, and bytes may have been
    /// added that do not count.
    fn packet(&mut self, entry: &Entry, counts: &Counts, sensor: &Sensor) -> Option<()> {
        self.push(entry.identifier().to_be_bytes());
        // At most 72 bytes.
        self.push([entry.data_size() as u8]);
        match entry.form() {
            Form::Whole(size) => self.push_whole(size, whole(entry, counts, sensor)?),
            Form::Real(precision) => {
                let channel = entry.channel();
                for index in 0..channel.data.readings() {
                    let reading = sensor.reading(channel, index, counts.tick)?;
                    self.push_real(precision, Reading::clamped(reading));
                }
            }
        }
        Some(())
    }

    fn push_whole(&mut self, size: usize, number: u32) {
        let [a, b, c, d] = number.to_be_bytes();
        match size {
            1 => self.push([d]),
            2 => self.push([c, d]),
            _ => self.push([a, b, c, d]),
        }
    }

    fn push_real(&mut self, precision: Precision, reading: Reading) {
        match precision {
            Precision::Single => self.push(reading.single()),
            Precision::Fixed12_20 => self.push(reading.fixed_12_20()),
            Precision::Fixed16_32 => self.push(reading.fixed_16_32()),
            Precision::Double => self.push(reading.double()),
        }
    }

    fn push<const N: usize>(&mut self, bytes: [u8; N]) {
        if let Some(place) = self.bytes.get_mut(self.size..self.size + N) {
            place.copy_from_slice(&bytes);
        }
        self.size += N;
    }
}

/// The number of a whole channel, or none if its reading is absent.
fn whole(entry: &Entry, counts: &Counts, sensor: &Sensor) -> Option<u32> {
    let channel = entry.channel();
    match channel.identifier {
        channels::PACKET_COUNTER => Some(u32::from(counts.sent)),
        channels::SAMPLE_TIME_FINE => Some(counts.tick.wrapping_mul(FINE_UNITS_OF_A_TICK)),
        channels::SAMPLE_TIME_COARSE => Some(counts.seconds),
        channels::STATUS_BYTE => {
            let word = channels::channel_of(channels::STATUS_WORD)?;
            // Sent in one byte, which is the low one.
            sensor.reading(word, 0, counts.tick).map(low_word)
        }
        _ => sensor.reading(channel, 0, counts.tick).map(low_word),
    }
}

/// The number that a whole channel sends; readings of whole channels are from 0 to 2^32 − 1.
fn low_word(reading: i64) -> u32 {
    reading as u32
}

#[cfg(test)]
mod tests {
    use super::*;
    use crate::product::Product;
    use crate::sensor::Row;

    fn entry(identifier: u16, frequency: u16) -> Entry {
        match Entry::new(Product::MtiG710, identifier, frequency) {
            Some(entry) => entry,
            None => panic!("{identifier:04X} {frequency}"),
        }
    }

    fn data(entries: &[Entry], counts: Counts, sensor: &Sensor) -> Vec<u8> {
        let mut packets = Packets::new();
        packets.fill(entries, &counts, sensor);
        packets.data().map(<[u8]>::to_vec).unwrap_or_default()
    }

    fn row(channel: u16, tick: u32, number: i64) -> Row {
        Row {
            channel,
            tick,
            numbers: [number; 9],
        }
    }

    #[test]
    fn when_entries_are_due() {
        let all = |frequency| -> Vec<u16> {
            let entry = entry(0x1020, frequency);
            (0..2000).filter(|&phase| entry.is_due(phase)).collect()
        };
        assert_eq!(all(1), [0]);
        assert_eq!(all(2), [0, 1000]);
        assert_eq!(all(100), (0..100).map(|n| 20 * n).collect::<Vec<_>>());
        assert_eq!(all(2000), (0..2000).collect::<Vec<_>>());
    }

    #[test]
    fn counts_that_need_no_reading() {
        let counts = Counts {
            ticks_in_wake_up: 1000,
            sent: 0xFFFE,
            tick: 0xFFFF_FFFF,
            phase: 0,
            seconds: 0x01020304,
        };
        let entries = [entry(0x1020, 1), entry(0x1060, 1), entry(0x1070, 1)];
        let expected = [
            0x10, 0x20, 2, 0xFF, 0xFE, 0x10, 0x60, 4, 0xFF, 0xFF, 0xFF, 0xFB, 0x10, 0x70, 4, 1, 2,
            3, 4,
        ];
        assert_eq!(data(&entries, counts, &Sensor::Recorded(vec![])), expected);
    }

    #[test]
    fn absent_readings_omit_their_entry_alone() {
        let rows = vec![row(0x5040, 5, 1 << 32), row(0xE020, 7, 0x1234)];
        let sensor = Sensor::Recorded(rows);
        let entries = [entry(0x2010, 1), entry(0x5041, 1), entry(0xE010, 1)];
        let at = |tick| {
            let counts = Counts {
                tick,
                ..Counts::START
            };
            data(&entries, counts, &sensor)
        };
        assert_eq!(at(4), []);
        let position = [0x50, 0x41, 8, 0, 0x10, 0, 0, 0, 0x10, 0, 0];
        assert_eq!(at(5), position);
        assert_eq!(at(7), [&position[..], &[0xE0, 0x10, 1, 0x34]].concat());
    }

    #[test]
    fn counts_turn_round() {
        let counts = Counts {
            ticks_in_wake_up: 3,
            sent: u16::MAX,
            tick: u32::MAX,
            phase: 1999,
            seconds: u32::MAX,
        };
        let behind = Counts {
            ticks_in_wake_up: 3,
            ..Counts::START
        };
        assert_eq!(counts.behind_tick(true), behind);
        assert_eq!(counts.behind_tick(false).sent, u16::MAX);
        let mut counts = Counts::START;
        for tick in 0..10_000_u32 {
            assert_eq!(counts.tick, tick);
            assert_eq!(u32::from(counts.phase), tick % 2000);
            assert_eq!(counts.seconds, tick / 2000);
            counts = counts.behind_tick(false);
        }
    }

    #[test]
    fn too_many_data() {
        let mut packets = Packets::new();
        let entries = vec![entry(0x2023, 1); 28];
        packets.fill(&entries[..27], &Counts::START, &Sensor::Ramp);
        assert_eq!(packets.data().map(<[u8]>::len), Ok(27 * 75));
        packets.fill(&entries, &Counts::START, &Sensor::Ramp);
        assert_eq!(packets.data(), Err(TooLong));
        packets.fill(&entries, &Counts::START, &Sensor::Recorded(vec![]));
        assert_eq!(packets.data(), Ok(&[][..]));
    }
}
