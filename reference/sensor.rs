//! Sensors: what they read at a channel, an index and a tick (docs/SENSORS.md).

use crate::channels::{self, Channel, Data};

/// The numbers of a row.
pub const ROW_NUMBERS: usize = 9;

/// A row of the recorded sensor.
#[derive(Debug, Clone, PartialEq, Eq)]
pub struct Row {
    pub channel: u16,
    pub tick: u32,
    pub numbers: [i64; ROW_NUMBERS],
}

#[derive(Debug, Clone)]
pub enum Sensor {
    Ramp,
    Recorded(Vec<Row>),
}

impl Sensor {
    /// The reading of a channel at an index of its data, or none if it is absent: a number
    /// from −2^47 to 2^47 − 1 of a real channel, and from 0 to 2^32 − 1 of a whole one.
    pub fn reading(&self, channel: &Channel, index: usize, tick: u32) -> Option<i64> {
        if is_made_by_the_unit(channel) || index >= channel.data.readings() {
            return None;
        }
        match self {
            Sensor::Ramp => ramp(channel.data, index, tick),
            Sensor::Recorded(rows) => recorded(rows, channel, index, tick),
        }
    }
}

/// Whether the unit makes the data itself, and no sensor reads them.
fn is_made_by_the_unit(channel: &Channel) -> bool {
    matches!(
        channel.identifier,
        channels::PACKET_COUNTER
            | channels::SAMPLE_TIME_FINE
            | channels::SAMPLE_TIME_COARSE
            | channels::STATUS_BYTE
    )
}

fn ramp(data: Data, index: usize, tick: u32) -> Option<i64> {
    let tick = i64::from(tick);
    match data {
        Data::Whole(_) => Some(tick),
        Data::Real(_) => {
            let slope = i64::try_from(index).ok()? + 1;
            let turned = slope.checked_mul(tick)? % 65_536;
            Some((turned - 32_768) << 32)
        }
    }
}

/// The number of the last row in list order, of those of the channel whose tick is not above
/// this one.
fn recorded(rows: &[Row], channel: &Channel, index: usize, tick: u32) -> Option<i64> {
    let row = rows
        .iter()
        .rev()
        .find(|row| row.channel == channel.identifier && row.tick <= tick)?;
    let (least, most) = match channel.data {
        Data::Real(_) => (-(1 << 47), (1 << 47) - 1),
        Data::Whole(_) => (0, (1 << 32) - 1),
    };
    row.numbers
        .get(index)
        .map(|number| *number.clamp(&least, &most))
}

#[cfg(test)]
mod tests {
    use super::*;
    use crate::channels::{channel_of, CHANNELS};

    fn read(sensor: &Sensor, identifier: u16, index: usize, tick: u32) -> Option<i64> {
        sensor.reading(channel_of(identifier)?, index, tick)
    }

    fn row(channel: u16, tick: u32, first: i64) -> Row {
        let mut numbers = [0; ROW_NUMBERS];
        numbers[0] = first;
        numbers[8] = first;
        Row {
            channel,
            tick,
            numbers,
        }
    }

    #[test]
    fn ramps() {
        let sensor = Sensor::Ramp;
        assert_eq!(read(&sensor, 0x2010, 0, 0), Some(-32_768 << 32));
        assert_eq!(read(&sensor, 0x2010, 3, 20), Some((80 - 32_768) << 32));
        assert_eq!(
            read(&sensor, 0x2010, 1, 65_535),
            Some((65_534 - 32_768) << 32)
        );
        assert_eq!(
            read(&sensor, 0x2020, 8, u32::MAX),
            Some((65_527 - 32_768) << 32)
        );
        assert_eq!(read(&sensor, 0xE020, 0, u32::MAX), Some(u32::MAX.into()));
        assert_eq!(read(&sensor, 0x3010, 0, 7), Some(7));
    }

    #[test]
    fn what_is_absent() {
        let rows = CHANNELS
            .iter()
            .map(|channel| row(channel.identifier, 0, 5))
            .collect();
        for sensor in [Sensor::Ramp, Sensor::Recorded(rows)] {
            for channel in &CHANNELS {
                let made = [0x1020, 0x1060, 0x1070, 0xE010].contains(&channel.identifier);
                let indices: Vec<usize> = (0..20)
                    .filter(|&index| sensor.reading(channel, index, 3).is_some())
                    .collect();
                let count = if made { 0 } else { channel.data.readings() };
                assert_eq!(indices, (0..count).collect::<Vec<_>>());
            }
        }
    }

    #[test]
    fn the_last_row_in_list_order_counts() {
        let rows = vec![
            row(0x2020, 10, 1),
            row(0x2020, 30, 2),
            row(0x2020, 20, 3),
            row(0x4020, 0, 4),
            row(0x2021, 0, 5),
        ];
        let sensor = Sensor::Recorded(rows);
        for (tick, expected) in [
            (0, None),
            (9, None),
            (10, Some(1)),
            (19, Some(1)),
            (20, Some(3)),
            (30, Some(3)),
            (u32::MAX, Some(3)),
        ] {
            assert_eq!(read(&sensor, 0x2020, 0, tick), expected);
            assert_eq!(read(&sensor, 0x2020, 8, tick), expected);
        }
        assert_eq!(read(&sensor, 0xE020, 0, 99), None);
    }

    #[test]
    fn numbers_are_clamped() {
        for (number, real, whole) in [
            (-i64::MAX, -(1 << 47), 0),
            (-(1 << 47) - 1, -(1 << 47), 0),
            (-1, -1, 0),
            (1 << 32, 1 << 32, (1 << 32) - 1),
            (1 << 47, (1 << 47) - 1, (1 << 32) - 1),
            (i64::MAX, (1 << 47) - 1, (1 << 32) - 1),
        ] {
            let sensor = Sensor::Recorded(vec![row(0x0810, 0, number), row(0x3010, 0, number)]);
            assert_eq!(read(&sensor, 0x0810, 0, 0), Some(real));
            assert_eq!(read(&sensor, 0x3010, 0, 0), Some(whole));
        }
    }
}
