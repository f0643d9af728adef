//! The image in which a settings record is stored (docs/SETTINGS.md).

use crate::product::Product;
use crate::settings::{Entry, Settings, Values, MOST_ENTRIES};
use crate::store::{Image, IMAGE_SIZE};

/// The size of the five values from baud code to flags.
const SIZE_OF_VALUES: u8 = 0x0A;
/// The bytes of all places for identifiers, and of all places for frequencies.
const PLACES_SIZE: usize = 2 * MOST_ENTRIES;
/// Where the places for identifiers begin, and those for frequencies.
const IDENTIFIERS: usize = 12;
const FREQUENCIES: usize = IDENTIFIERS + PLACES_SIZE;

/// The image of a record.
pub fn of(settings: &Settings) -> Image {
    let values = settings.values();
    let [mode_high, mode_low] = values.error_mode.to_be_bytes();
    let [location_high, location_low] = values.location.to_be_bytes();
    let [a, b, c, d] = values.flags.to_be_bytes();
    let front = [
        SIZE_OF_VALUES,
        // A list has at most 32 entries.
        values.outputs.len() as u8,
        values.baud_code,
        values.profile,
        mode_high,
        mode_low,
        location_high,
        location_low,
        a,
        b,
        c,
        d,
    ];
    let mut image = [0; IMAGE_SIZE];
    let (values_place, places) = image.split_at_mut(IDENTIFIERS);
    values_place.copy_from_slice(&front);
    let (identifiers, frequencies) = places.split_at_mut(PLACES_SIZE);
    let places = identifiers
        .chunks_exact_mut(2)
        .zip(frequencies.chunks_exact_mut(2));
    for (entry, (identifier, frequency)) in values.outputs.iter().zip(places) {
        identifier.copy_from_slice(&entry.identifier().to_be_bytes());
        frequency.copy_from_slice(&entry.frequency().to_be_bytes());
    }
    image
}

/// The record of the product whose image the bytes are, if they are one.
///
/// The record that they may be the image of is made from the places that the number of
/// entries calls used; its image shows whether all other bytes are as they must be.
pub fn load(product: Product, image: &Image) -> Option<Settings> {
    let [_, count, baud_code, profile, mode_high, mode_low, location_high, location_low, a, b, c, d, ..] =
        *image;
    let numbers = |from: usize| {
        let places = image.iter().skip(from).take(PLACES_SIZE);
        let low = places.clone().skip(1).step_by(2);
        places
            .step_by(2)
            .zip(low)
            .map(|(&high, &low)| u16::from_be_bytes([high, low]))
    };
    let outputs: Option<Vec<Entry>> = numbers(IDENTIFIERS)
        .zip(numbers(FREQUENCIES))
        .take(usize::from(count))
        .map(|(identifier, frequency)| Entry::new(product, identifier, frequency))
        .collect();
    let values = Values {
        baud_code,
        profile,
        error_mode: u16::from_be_bytes([mode_high, mode_low]),
        location: u16::from_be_bytes([location_high, location_low]),
        flags: u32::from_be_bytes([a, b, c, d]),
        outputs: outputs?,
    };
    Settings::new(product, values).filter(|settings| of(settings) == *image)
}

#[cfg(test)]
mod tests {
    use super::*;
    use crate::settings::Change;

    #[test]
    fn factory_image_of_the_mti_3() {
        let image = of(&Settings::factory(Product::Mti3));
        let front = [
            0x0A, 0x04, 0x02, 0x32, 0, 1, 0, 0, 0, 0, 0, 0, 0x20, 0x10, 0x10, 0x20, 0x10, 0x60,
            0xE0, 0x20, 0, 0,
        ];
        let mut expected = [0; IMAGE_SIZE];
        expected[..front.len()].copy_from_slice(&front);
        expected[76..84].copy_from_slice(&[0, 0x64, 0, 0x64, 0, 0x64, 0, 0x64]);
        assert_eq!(image, expected);
    }

    #[test]
    fn images_are_loaded_as_their_record_alone() {
        for product in Product::ALL {
            let factory = Settings::factory(product);
            for change in [
                Change::Factory,
                Change::LocationId(0xFFFF),
                Change::BaudCode(0x80),
                Change::ErrorMode(3),
                Change::Flags {
                    set: 0x90,
                    clear: 0,
                },
                Change::Outputs(&[0; 4]),
                Change::Outputs(&[0x20, 0x13, 0, 1, 0xE0, 0x10, 0xFF, 0xFF]),
            ] {
                let Some(settings) = factory.changed(change) else {
                    panic!("{change:?} is wrong");
                };
                assert_eq!(load(product, &of(&settings)), Some(settings));
            }
        }
    }

    #[test]
    fn whatever_is_loaded_has_the_image_it_was_loaded_from() {
        let mut loaded = 0;
        for product in Product::ALL {
            let image = of(&Settings::factory(product));
            for place in 0..IMAGE_SIZE {
                for value in 0..=0xFF {
                    let mut changed = image;
                    changed[place] = value;
                    if let Some(settings) = load(product, &changed) {
                        assert_eq!(of(&settings), changed);
                        loaded += 1;
                    }
                }
            }
        }
        assert!(loaded > 4 * IMAGE_SIZE);
    }

    #[test]
    fn what_is_not_loaded() {
        let image = of(&Settings::factory(Product::Mti3));
        for (place, value) in [
            (0, 0x09),
            (1, 33),
            (1, 0xFF),
            (1, 3),
            (1, 5),
            (2, 0x0C),
            (3, 39),
            (5, 4),
            (8, 1),
            (11, 0x04),
            (13, 0x14),
            (14, 0x30),
            (17, 0x20),
            (21, 1),
            (77, 99),
            (77, 0),
            (84, 1),
            (139, 1),
        ] {
            let mut changed = image;
            changed[place] = value;
            assert_eq!(load(Product::Mti3, &changed), None, "{place} {value}");
        }
        assert_eq!(load(Product::Mti3, &[0; IMAGE_SIZE]), None);
        assert_eq!(load(Product::Mti3, &[0xFF; IMAGE_SIZE]), None);
    }

    #[test]
    fn images_of_other_products() {
        for product in Product::ALL {
            let image = of(&Settings::factory(product));
            for other in Product::ALL {
                let alike = |product| matches!(product, Product::Mti30 | Product::Mti300);
                let expected = product == other || alike(product) && alike(other);
                assert_eq!(load(other, &image).is_some(), expected);
            }
        }
        let pressure = Change::Outputs(&[0x30, 0x10, 0, 50]);
        let image = Settings::factory(Product::Mti300)
            .changed(pressure)
            .map(|settings| of(&settings));
        assert!(image.is_some_and(|image| load(Product::Mti300, &image).is_some()));
        assert!(image.is_some_and(|image| load(Product::Mti30, &image).is_none()));
    }
}
