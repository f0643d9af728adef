//! Messages, recordings, settings and readings for generated sessions.

use crate::channels::{Channel, Data, CHANNELS};
use crate::frames;
use crate::product::Product;
use crate::random::Random;
use crate::requests::{self, Request, State};
use crate::settings::{Change, Settings, MOST_ENTRIES};

/// Identifiers of messages to which a unit answers in some state.
const IDENTIFIERS: [u8; 15] = [
    requests::WAKE_UP_ACK,
    requests::GO_TO_CONFIG,
    requests::GO_TO_MEASUREMENT,
    requests::RESET,
    requests::RESTORE_FACTORY,
    requests::DEVICE_ID,
    requests::PRODUCT_CODE,
    requests::FIRMWARE,
    requests::ASK_CONFIGURATION,
    requests::BAUD_RATE,
    requests::ERROR_MODE,
    requests::LOCATION_ID,
    requests::FILTER_PROFILE,
    requests::OPTION_FLAGS,
    requests::OUTPUT_CONFIGURATION,
];

/// A frame for a unit of this product: most often one that it takes.
pub fn frame(random: &mut Random, product: Product) -> Vec<u8> {
    let identifier = match random.below(100) {
        0..=2 => random.byte(),
        // Changes, and among them lists of outputs, are the most of what is asked.
        3..=20 => requests::OUTPUT_CONFIGURATION,
        21..=60 => random.one_of([
            requests::BAUD_RATE,
            requests::ERROR_MODE,
            requests::LOCATION_ID,
            requests::FILTER_PROFILE,
            requests::OPTION_FLAGS,
        ]),
        _ => random.one_of(IDENTIFIERS),
    };
    let mut data = data(random, product, identifier);
    match random.below(300) {
        0..=6 => data.push(random.byte()),
        7..=12 => drop(data.pop()),
        13..=16 => {
            let count = random.between(1, 12);
            data = random.bytes(count);
        }
        17 => {
            let count = random.between(250, 270);
            data.resize(count, 0xFA);
        }
        _ => {}
    }
    framed(random, identifier, &data)
}

/// A frame with this identifier and these data, under an address that is most often one of
/// the unit's.
pub fn framed(random: &mut Random, identifier: u8, data: &[u8]) -> Vec<u8> {
    let address = match random.below(100) {
        0..=77 => 0xFF,
        78..=95 => 0x01,
        _ => {
            let any = random.byte();
            random.one_of([0x00, 0x02, 0xFE, 0xFA, any])
        }
    };
    frames::write(address, identifier, data).unwrap_or_default()
}

/// Data for a message: most often of a length that it takes, and a right value.
fn data(random: &mut Random, product: Product, identifier: u8) -> Vec<u8> {
    if random.percent(25) {
        return Vec::new();
    }
    match identifier {
        requests::BAUD_RATE => vec![match random.below(6) {
            0 => random.one_of([0x0C, 0x7F, 0x81, 0xFF]),
            1 => 0x80,
            _ => random.below(12) as u8,
        }],
        requests::ERROR_MODE => {
            let mode = random.one_of([0, 1, 2, 3, 3, 4, 0x0100, 0xFFFF]);
            u16::to_be_bytes(mode).to_vec()
        }
        requests::LOCATION_ID => match random.below(3) {
            0 => vec![0xFA, 0xFF],
            _ => random.bytes(2),
        },
        requests::FILTER_PROFILE => {
            let other = random.one_of(Product::ALL);
            let product = if random.percent(80) { product } else { other };
            let (first, last) = product.profiles().into_inner();
            let profile = random.between(usize::from(first - 1), usize::from(last + 1));
            vec![u8::from(random.percent(5)), profile as u8]
        }
        requests::OPTION_FLAGS => {
            let set = flags(random, product);
            let clear = match random.below(3) {
                0 => u32::MAX,
                1 => 0,
                _ => flags(random, product),
            };
            [set.to_be_bytes(), clear.to_be_bytes()].concat()
        }
        requests::OUTPUT_CONFIGURATION => outputs(random, product, &[]),
        _ => Vec::new(),
    }
}

/// Some of the product's flags, and sometimes another bit.
fn flags(random: &mut Random, product: Product) -> u32 {
    let some = random.next() as u32 & product.flags();
    let storing_on = if random.percent(60) { !0x01 } else { !0 };
    let other = match random.below(12) {
        0 => 1 << random.below(32),
        _ => 0,
    };
    (some & storing_on) | other
}

/// The bytes of a list of outputs.
///
/// Channels in `preferred` are taken more often than others.
pub fn outputs(random: &mut Random, product: Product, preferred: &[u16]) -> Vec<u8> {
    if random.percent(6) {
        // The empty list, and longer ones that are wrong.
        return vec![0; random.one_of([4, 4, 4, 8, 128])];
    }
    let mut channels: Vec<&Channel> = CHANNELS
        .iter()
        .filter(|channel| channel.is_on(product))
        .collect();
    if random.percent(4) {
        channels = CHANNELS.iter().collect();
    }
    let count = match random.below(20) {
        0 | 1 => channels.len(),
        2 => random.one_of([MOST_ENTRIES, MOST_ENTRIES + 1]),
        _ => random.between(1, 6),
    };
    let high = random.percent(15);
    let least_precision = if random.percent(20) { 3 } else { 0 };
    let mut list = Vec::new();
    for _ in 0..count {
        let any = random.below(channels.len());
        let place = channels
            .iter()
            .position(|channel| preferred.contains(&channel.identifier))
            .filter(|_| random.percent(60))
            .unwrap_or(any);
        // A channel that stays may come twice, which is wrong.
        let channel = if channels.len() == 1 || random.percent(2) {
            channels[place]
        } else {
            channels.swap_remove(place)
        };
        list.push(entry(random, channel, least_precision, high));
    }
    if random.percent(8) {
        // One entry becomes that of a channel that not every product has.
        let [high, low] = u16::to_be_bytes(random.one_of([0x3010, 0x5020, 0x5040, 0xD010]));
        let place = random.below(list.len());
        if let Some([a, b, _, _]) = list.get_mut(place) {
            (*a, *b) = (high, low);
        }
    }
    list.concat()
}

/// The bytes of a list with one entry of the product, at the lowest frequency.
pub fn slow_output(random: &mut Random, product: Product) -> Vec<u8> {
    let channels = CHANNELS.iter().filter(|channel| channel.is_on(product));
    let channels: Vec<&Channel> = channels.collect();
    let channel = channels[random.below(channels.len())];
    let [a, b, _, _] = entry(random, channel, 0, false);
    vec![a, b, 0, 1]
}

/// An entry, of a real channel in a precision from the least one on.
fn entry(random: &mut Random, channel: &Channel, least: usize, high: bool) -> [u8; 4] {
    let digit = match channel.data {
        _ if random.percent(1) => random.below(16),
        Data::Real(_) => random.between(least, 3),
        Data::Whole(_) => 0,
    };
    let frequency: u16 = match random.below(100) {
        0 => 0,
        1..=3 => random.next() as u16,
        4..=30 => random.one_of([20, 25, 30, 50, 99, 100]),
        _ if high => random.one_of([200, 300, 399, 400, 500, 1000, 1999, 2000, 0xFFFF]),
        _ => random.one_of([1, 1, 2, 3, 4, 5, 8, 10]),
    };
    let [a, b] = (channel.identifier | digit as u16).to_be_bytes();
    let [c, d] = frequency.to_be_bytes();
    [a, b, c, d]
}

/// Settings of a product: the factory's after some changes.
pub fn settings(random: &mut Random, product: Product) -> Settings {
    let mut settings = Settings::factory(product);
    if random.percent(30) {
        // On the MTi-3 WakeUp ends in Config then.
        let (set, clear) = (0x02, 0);
        let changed = settings.changed(Change::Flags { set, clear });
        settings = changed.unwrap_or(settings);
    }
    for _ in 0..random.below(6) {
        let identifier = random.one_of([
            requests::BAUD_RATE,
            requests::LOCATION_ID,
            requests::FILTER_PROFILE,
            requests::OPTION_FLAGS,
            requests::OUTPUT_CONFIGURATION,
            requests::ERROR_MODE,
        ]);
        let data = data(random, product, identifier);
        let request = requests::read(State::Config, product, identifier, &data);
        if let Ok(Request::Change(change)) = request {
            settings = settings.changed(change).unwrap_or(settings);
        }
    }
    settings
}

/// Bytes that are no whole frame.
pub fn noise(random: &mut Random) -> Vec<u8> {
    match random.below(8) {
        0 => vec![0xFA],
        1 => vec![0xFA, 0xFA],
        2 => vec![0xFA, 0xFF, 0x3E, 0xFF, random.one_of([9, 0x80, 0xFF])],
        3 => vec![0xFA, 0xFF, 0x10, 0xFF, 0x00, random.one_of([0, 5, 0xFE])],
        4 => vec![0xFA, 0x01, 0x36, 0xFF, 0x08, random.one_of([1, 0xFF])],
        _ => {
            let count = random.between(1, 6);
            random.bytes(count)
        }
    }
}

/// One byte changed, somewhere.
pub fn damage(random: &mut Random, bytes: &mut [u8]) {
    let place = random.below(bytes.len());
    if let Some(byte) = bytes.get_mut(place) {
        *byte ^= random.one_of([0x01, 0x80, 0xFF, 0x10]);
    }
}

/// A frame that fails by its checksum, around these bytes.
pub fn failed_around(random: &mut Random, inside: &[u8]) -> Vec<u8> {
    let mut data = noise(random);
    if random.percent(70) {
        data.clear();
    }
    data.extend(inside);
    let behind = random.below(5);
    data.extend(random.bytes(behind));
    if random.percent(12) {
        let longest = random.between(255, 280);
        data.resize(longest.max(data.len()), 0x00);
    }
    let mut failed = framed(random, requests::LOCATION_ID, &data);
    if let Some(checksum) = failed.last_mut() {
        *checksum = checksum.wrapping_add(1);
    }
    failed
}

/// A number for a row: most often one at the ends of some range or precision.
pub fn reading(random: &mut Random) -> i64 {
    let any = random.next() as i64;
    let number = match random.below(12) {
        0 => 0,
        1 => 1,
        2 => (1 << 47) - 1,
        3 => 1 << 47,
        4 => (1 << 47) + 1,
        5 => (1 << 32) - 1,
        6 => 1 << 32,
        7 => i64::MAX,
        // A tie between two singles.
        8 => ((1 << 24) + 2 * random.between(0, 3) as i64 + 1) << random.below(23),
        9 => any >> 24,
        10 => any >> random.between(16, 40),
        _ => any >> random.between(1, 63),
    };
    // −2^63 is no number of a row.
    let number = number.max(-i64::MAX);
    if random.percent(40) {
        -number
    } else {
        number
    }
}
