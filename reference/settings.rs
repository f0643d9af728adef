//! The settings record, its validity and its changes (docs/SETTINGS.md).

use crate::channels::{self, Channel, Form};
use crate::product::Product;

/// The most entries of a list of outputs.
pub const MOST_ENTRIES: usize = 32;
/// The baud code beside 00 to 0B.
const HIGH_BAUD_CODE: u8 = 0x80;
/// The flag that turns storing off.
const FLAG_NO_STORING: u32 = 0x01;
/// The flag that makes WakeUp end in Config.
const FLAG_WAKE_UP_TO_CONFIG: u32 = 0x02;
/// The ticks of a second, which every frequency divides.
pub const TICKS_OF_A_SECOND: u16 = 2000;

/// An entry of the list of outputs. Only entries that some product can have exist: the
/// identifier is known, and the frequency divides the channel's maximum.
#[derive(Debug, Clone, Copy, PartialEq, Eq)]
pub struct Entry {
    identifier: u16,
    frequency: u16,
    /// The ticks from one packet to the next.
    period: u16,
    channel: &'static Channel,
    form: Form,
}

impl Entry {
    /// The entry, if the product can have it.
    pub fn new(product: Product, identifier: u16, frequency: u16) -> Option<Entry> {
        let (channel, form) = channels::channel_and_form(identifier)?;
        let divides = channel.most_hz.checked_rem(frequency) == Some(0);
        let period = TICKS_OF_A_SECOND.checked_div(frequency)?;
        (channel.is_on(product) && divides).then_some(Entry {
            identifier,
            frequency,
            period,
            channel,
            form,
        })
    }

    /// The entry that is used when a frequency is asked for: with the largest divisor of the
    /// channel's maximum that is not above it.
    pub fn asked(product: Product, identifier: u16, frequency: u16) -> Option<Entry> {
        let (channel, _) = channels::channel_and_form(identifier)?;
        let used = (1..=frequency.min(channel.most_hz))
            .rev()
            .find(|divisor| channel.most_hz.is_multiple_of(*divisor))?;
        Entry::new(product, identifier, used)
    }

    pub fn identifier(&self) -> u16 {
        self.identifier
    }

    pub fn frequency(&self) -> u16 {
        self.frequency
    }

    /// Whether it is due at a phase.
    pub fn is_due(&self, phase: u16) -> bool {
        phase.is_multiple_of(self.period)
    }

    pub fn channel(&self) -> &'static Channel {
        self.channel
    }

    pub fn form(&self) -> Form {
        self.form
    }

    /// The bytes of the data of its packets.
    pub fn data_size(&self) -> usize {
        match self.form {
            Form::Real(precision) => self.channel.data.readings() * precision.bytes(),
            Form::Whole(size) => size,
        }
    }
}

/// The values of a record, of whatever product and whether valid or not.
#[derive(Debug, Clone, PartialEq, Eq)]
pub struct Values {
    pub baud_code: u8,
    pub profile: u8,
    pub error_mode: u16,
    pub location: u16,
    pub flags: u32,
    pub outputs: Vec<Entry>,
}

/// A settings record: values that its product can have.
#[derive(Debug, Clone, PartialEq, Eq)]
pub struct Settings {
    product: Product,
    values: Values,
}

/// A change of the settings, with the data of its message as numbers.
#[derive(Debug, Clone, Copy, PartialEq, Eq)]
pub enum Change<'a> {
    BaudCode(u8),
    ErrorMode(u16),
    LocationId(u16),
    Profile(u16),
    Flags {
        set: u32,
        clear: u32,
    },
    /// The list asked for, four bytes for each entry.
    Outputs(&'a [u8]),
    Factory,
}

impl Settings {
    /// The record with these values, if it is valid.
    pub fn new(product: Product, values: Values) -> Option<Settings> {
        let valid = matches!(values.baud_code, 0..=0x0B | HIGH_BAUD_CODE)
            && product.profiles().contains(&values.profile)
            && values.error_mode <= 3
            && values.flags & !product.flags() == 0
            && are_outputs(product, &values.outputs);
        valid.then_some(Settings { product, values })
    }

    pub fn factory(product: Product) -> Settings {
        let outputs: &[u16] = match product {
            Product::Mti3 | Product::Mti30 | Product::Mti300 => &[0x2010, 0x1020, 0x1060, 0xE020],
            Product::MtiG710 => &[0x2010, 0x1020, 0x1060, 0xE020, 0x5022, 0x5042, 0xD012],
        };
        let values = Values {
            baud_code: 0x02,
            profile: *product.profiles().start(),
            error_mode: 1,
            location: 0,
            flags: 0,
            outputs: outputs
                .iter()
                .filter_map(|&identifier| Entry::new(product, identifier, 100))
                .collect(),
        };
        Settings { product, values }
    }

    pub fn values(&self) -> &Values {
        &self.values
    }

    pub fn outputs(&self) -> &[Entry] {
        &self.values.outputs
    }

    pub fn storing_is_on(&self) -> bool {
        self.values.flags & FLAG_NO_STORING == 0
    }

    pub fn wake_up_ends_in_config(&self) -> bool {
        self.values.flags & FLAG_WAKE_UP_TO_CONFIG != 0
    }

    /// The record after a change, or nothing if the change is wrong.
    pub fn changed(&self, change: Change) -> Option<Settings> {
        if change == Change::Factory {
            return Some(Settings::factory(self.product));
        }
        let mut values = self.values.clone();
        match change {
            Change::BaudCode(code) => values.baud_code = code,
            Change::ErrorMode(mode) => values.error_mode = mode,
            Change::LocationId(id) => values.location = id,
            Change::Profile(profile) => values.profile = u8::try_from(profile).ok()?,
            Change::Flags { set, clear } => values.flags = (values.flags & !clear) | set,
            Change::Outputs(asked) => values.outputs = outputs_asked(self.product, asked)?,
            Change::Factory => {}
        }
        Settings::new(self.product, values)
    }
}

/// Whether the product can have this list: no entry that it does not have, no two of one
/// channel, and not too many.
fn are_outputs(product: Product, outputs: &[Entry]) -> bool {
    let fits = |(place, entry): (usize, &Entry)| {
        let mut before = outputs.iter().take(place);
        entry.channel.is_on(product) && before.all(|other| other.channel != entry.channel)
    };
    outputs.len() <= MOST_ENTRIES && outputs.iter().enumerate().all(fits)
}

/// The list that is used when these bytes ask for one, or nothing if an entry is wrong.
fn outputs_asked(product: Product, asked: &[u8]) -> Option<Vec<Entry>> {
    if asked == [0; 4] {
        return Some(Vec::new());
    }
    asked
        .chunks(4)
        .map(|entry| match *entry {
            [a, b, c, d] => Entry::asked(
                product,
                u16::from_be_bytes([a, b]),
                u16::from_be_bytes([c, d]),
            ),
            _ => None,
        })
        .collect()
}

#[cfg(test)]
mod tests {
    use super::*;

    fn list(settings: &Settings) -> Vec<(u16, u16)> {
        let outputs = settings.outputs().iter();
        outputs
            .map(|entry| (entry.identifier(), entry.frequency()))
            .collect()
    }

    fn asked(product: Product, bytes: &[u8]) -> Option<Vec<(u16, u16)>> {
        let changed = Settings::factory(product).changed(Change::Outputs(bytes));
        changed.as_ref().map(list)
    }

    #[test]
    fn factory_settings_are_valid() {
        for product in Product::ALL {
            let factory = Settings::factory(product);
            assert_eq!(
                Settings::new(product, factory.values().clone()),
                Some(factory.clone())
            );
            let count = if product == Product::MtiG710 { 7 } else { 4 };
            assert_eq!(factory.outputs().len(), count);
        }
    }

    #[test]
    fn single_values() {
        for product in Product::ALL {
            let factory = Settings::factory(product);
            let right = |change| factory.changed(change).is_some();
            for code in 0..=0xFF {
                let expected = code <= 0x0B || code == 0x80;
                assert_eq!(right(Change::BaudCode(code)), expected);
            }
            let (first, last) = match product {
                Product::Mti3 => (50, 54),
                Product::Mti30 | Product::Mti300 => (39, 43),
                Product::MtiG710 => (1, 5),
            };
            for number in 0..=0xFFFF {
                assert_eq!(right(Change::ErrorMode(number)), number < 4);
                assert!(right(Change::LocationId(number)));
                let expected = (first..=last).contains(&number);
                assert_eq!(right(Change::Profile(number)), expected);
            }
        }
    }

    #[test]
    fn flags_are_judged_by_the_result() {
        for (product, allowed) in [
            (Product::Mti3, 0x93_u32),
            (Product::Mti30, 0x90),
            (Product::Mti300, 0x90),
            (Product::MtiG710, 0x94),
        ] {
            let mut settings = Settings::factory(product);
            for bit in 0..32 {
                let (set, clear) = (1 << bit, u32::MAX);
                let changed = settings.changed(Change::Flags { set, clear });
                assert_eq!(changed.is_some(), allowed & set != 0);
                if let Some(changed) = changed {
                    assert_eq!(changed.values().flags, set);
                    settings = changed;
                }
            }
            let all = settings.changed(Change::Flags {
                set: allowed,
                clear: 0x01,
            });
            assert_eq!(all.map(|all| all.values().flags), Some(allowed));
        }
    }

    #[test]
    fn frequencies_used() {
        let one = |bytes: [u8; 4]| asked(Product::Mti3, &bytes);
        assert_eq!(one([0x20, 0x10, 0x01, 0x2C]), Some(vec![(0x2010, 200)]));
        assert_eq!(one([0xC0, 0x20, 0x00, 99]), Some(vec![(0xC020, 50)]));
        assert_eq!(one([0x10, 0x20, 0xFF, 0xFF]), Some(vec![(0x1020, 2000)]));
        assert_eq!(one([0x08, 0x13, 0xFF, 0xFF]), Some(vec![(0x0813, 1)]));
        assert_eq!(one([0x10, 0x20, 0x00, 0x00]), None);
    }

    #[test]
    fn lists_asked_for() {
        let hz = [0, 100];
        let bytes = |identifiers: &[[u8; 2]]| -> Vec<u8> {
            let entries = identifiers.iter().map(|identifier| [*identifier, hz]);
            entries.flatten().flatten().collect()
        };
        assert_eq!(asked(Product::Mti3, &[0; 4]), Some(vec![]));
        assert_eq!(asked(Product::Mti3, &[0; 8]), None);
        let order = [[0xE0, 0x20], [0x20, 0x13], [0x10, 0x20]];
        let expected = vec![(0xE020, 100), (0x2013, 100), (0x1020, 100)];
        assert_eq!(asked(Product::Mti3, &bytes(&order)), Some(expected));
        for wrong in [
            &[[0x20, 0x14]][..],
            &[[0x10, 0x21]],
            &[[0x20, 0x10], [0x20, 0x12]],
            &[[0x20, 0x10], [0x00, 0x00]],
            &[[0x30, 0x10]],
            &[[0x50, 0x20]],
        ] {
            assert_eq!(asked(Product::Mti3, &bytes(wrong)), None);
        }
        assert!(asked(Product::Mti300, &bytes(&[[0x30, 0x10]])).is_some());
        assert_eq!(asked(Product::Mti300, &bytes(&[[0x50, 0x40]])), None);
        assert!(asked(Product::MtiG710, &bytes(&[[0x50, 0x40]])).is_some());
    }
}
