//! The channel table, known identifiers and their data sizes (docs/DATA.md).

use crate::product::Product;
use crate::readings::Precision;

/// The packet counter.
pub const PACKET_COUNTER: u16 = 0x1020;
/// The sample time in units of 0.1 ms.
pub const SAMPLE_TIME_FINE: u16 = 0x1060;
/// The sample time in seconds.
pub const SAMPLE_TIME_COARSE: u16 = 0x1070;
/// The low byte of the status word.
pub const STATUS_BYTE: u16 = 0xE010;
pub const STATUS_WORD: u16 = 0xE020;

/// The data of a channel.
#[derive(Debug, Clone, Copy, PartialEq, Eq)]
pub enum Data {
    /// So many real numbers.
    Real(usize),
    /// One unsigned whole number of so many bytes.
    Whole(usize),
}

impl Data {
    /// The number of readings that the data are made of.
    pub fn readings(self) -> usize {
        match self {
            Data::Real(count) => count,
            Data::Whole(_) => 1,
        }
    }
}

/// The products that have a channel.
#[derive(Debug, Clone, Copy, PartialEq, Eq)]
enum Found {
    OnAll,
    OnMti300AndMtiG710,
    OnMtiG710,
}

/// A channel: its identifier, whose format digit is 0, its data, the highest frequency at
/// which it is sent, and the products that have it.
#[derive(Debug, PartialEq, Eq)]
pub struct Channel {
    pub identifier: u16,
    pub data: Data,
    pub most_hz: u16,
    found: Found,
}

impl Channel {
    pub fn is_on(&self, product: Product) -> bool {
        match self.found {
            Found::OnAll => true,
            Found::OnMti300AndMtiG710 => matches!(product, Product::Mti300 | Product::MtiG710),
            Found::OnMtiG710 => product == Product::MtiG710,
        }
    }
}

const fn channel(identifier: u16, data: Data, most_hz: u16, found: Found) -> Channel {
    Channel {
        identifier,
        data,
        most_hz,
        found,
    }
}

pub static CHANNELS: [Channel; 19] = {
    use Data::{Real, Whole};
    use Found::{OnAll, OnMti300AndMtiG710, OnMtiG710};
    [
        channel(0x0810, Real(1), 1, OnAll), // temperature
        channel(PACKET_COUNTER, Whole(2), 2000, OnAll),
        channel(SAMPLE_TIME_FINE, Whole(4), 2000, OnAll),
        channel(SAMPLE_TIME_COARSE, Whole(4), 2000, OnAll),
        channel(0x2010, Real(4), 400, OnAll), // quaternion
        channel(0x2020, Real(9), 400, OnAll), // rotation matrix
        channel(0x2030, Real(3), 400, OnAll), // Euler angles
        channel(0x3010, Whole(4), 50, OnMti300AndMtiG710), // pressure
        channel(0x4010, Real(3), 2000, OnAll), // velocity increment
        channel(0x4020, Real(3), 2000, OnAll), // acceleration
        channel(0x4030, Real(3), 2000, OnAll), // free acceleration
        channel(0x5020, Real(1), 400, OnMtiG710), // altitude
        channel(0x5040, Real(2), 400, OnMtiG710), // latitude and longitude
        channel(0x8020, Real(3), 2000, OnAll), // rate of turn
        channel(0x8030, Real(4), 2000, OnAll), // orientation increment
        channel(0xC020, Real(3), 100, OnAll), // magnetic field
        channel(0xD010, Real(3), 400, OnMtiG710), // velocity
        channel(STATUS_BYTE, Whole(1), 2000, OnAll),
        channel(STATUS_WORD, Whole(4), 2000, OnAll),
    ]
};

/// What a known identifier says of its packet, with the data size in bytes.
#[derive(Debug, Clone, Copy, PartialEq, Eq)]
pub enum Known {
    Real { size: usize },
    Whole { size: usize },
}

impl Known {
    pub fn size(self) -> usize {
        match self {
            Known::Real { size } | Known::Whole { size } => size,
        }
    }
}

/// The form in which a packet sends its channel's data.
#[derive(Debug, Clone, Copy, PartialEq, Eq)]
pub enum Form {
    /// Real numbers in a precision.
    Real(Precision),
    /// One whole number of so many bytes.
    Whole(usize),
}

/// The channel of a known identifier, and the form of its data.
pub fn channel_and_form(identifier: u16) -> Option<(&'static Channel, Form)> {
    let channel = channel_of(identifier & 0xFFF0)?;
    let precision = Precision::of_format_digit(identifier & 0x000F)?;
    let form = match channel.data {
        Data::Real(_) => Form::Real(precision),
        // Whole channels take precision 0 alone.
        Data::Whole(size) => (precision == Precision::Single).then_some(Form::Whole(size))?,
    };
    Some((channel, form))
}

/// The channel with this identifier.
pub fn channel_of(identifier: u16) -> Option<&'static Channel> {
    CHANNELS
        .iter()
        .find(|channel| channel.identifier == identifier)
}

/// What the identifier of a packet says, if it is known.
pub fn known(identifier: u16) -> Option<Known> {
    let (channel, form) = channel_and_form(identifier)?;
    Some(match form {
        Form::Real(precision) => Known::Real {
            size: channel.data.readings() * precision.bytes(),
        },
        Form::Whole(size) => Known::Whole { size },
    })
}

#[cfg(test)]
mod tests {
    use super::*;

    #[test]
    fn format_digits_of_the_table_are_0_and_identifiers_rise() {
        assert!(CHANNELS.iter().all(|channel| channel.identifier & 0xF == 0));
        assert!(CHANNELS
            .windows(2)
            .all(|pair| pair[0].identifier < pair[1].identifier));
    }

    #[test]
    fn examples() {
        assert_eq!(known(0x2013), Some(Known::Real { size: 32 }));
        for identifier in [0x1021, 0x2014, 0x2015] {
            assert_eq!(known(identifier), None);
        }
    }

    #[test]
    fn sizes_of_reals() {
        for (identifier, size) in [
            (0x2020, 36),
            (0x2021, 36),
            (0x2022, 54),
            (0x2023, 72),
            (0x5042, 12),
            (0x0812, 6),
        ] {
            assert_eq!(known(identifier), Some(Known::Real { size }));
        }
    }

    #[test]
    fn sizes_of_wholes() {
        for (identifier, size) in [(0x1020, 2), (0x1060, 4), (0x3010, 4), (0xE010, 1)] {
            assert_eq!(known(identifier), Some(Known::Whole { size }));
        }
    }

    #[test]
    fn numbers_of_channels_of_the_products() {
        for (product, count) in Product::ALL.into_iter().zip([15, 15, 16, 19]) {
            let on_product = CHANNELS.iter().filter(|channel| channel.is_on(product));
            assert_eq!(on_product.count(), count);
        }
    }

    #[test]
    fn number_of_known_identifiers() {
        // 13 real channels in 4 precisions, 6 whole ones in one.
        let all: Vec<Known> = (0..=0xFFFF).filter_map(known).collect();
        let wholes = all
            .iter()
            .filter(|known| matches!(known, Known::Whole { .. }))
            .count();
        assert_eq!((all.len() - wholes, wholes), (13 * 4, 6));
    }
}
