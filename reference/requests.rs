//! What a message from the host asks for (docs/PROTOCOL.md, "The messages" and "Serving a
//! frame").

use crate::product::Product;
use crate::settings::{Change, MOST_ENTRIES};

pub const WAKE_UP: u8 = 0x3E;
pub const WAKE_UP_ACK: u8 = 0x3F;
pub const GO_TO_CONFIG: u8 = 0x30;
pub const GO_TO_MEASUREMENT: u8 = 0x10;
pub const RESET: u8 = 0x40;
pub const RESTORE_FACTORY: u8 = 0x0E;
pub const DEVICE_ID: u8 = 0x00;
pub const PRODUCT_CODE: u8 = 0x1C;
pub const FIRMWARE: u8 = 0x12;
pub const ASK_CONFIGURATION: u8 = 0x0C;
pub const CONFIGURATION: u8 = 0x0D;
pub const BAUD_RATE: u8 = 0x18;
pub const ERROR_MODE: u8 = 0xDA;
pub const LOCATION_ID: u8 = 0x84;
pub const FILTER_PROFILE: u8 = 0x64;
pub const OPTION_FLAGS: u8 = 0x48;
pub const OUTPUT_CONFIGURATION: u8 = 0xC0;
pub const ERROR: u8 = 0x42;

/// The most data bytes of a list of outputs.
const LONGEST_LIST: usize = 4 * MOST_ENTRIES;

/// The states of a unit that is not dark.
#[derive(Debug, Clone, Copy, PartialEq, Eq)]
pub enum State {
    WakeUp,
    Config,
    Measurement,
}

/// The code of an Error.
#[derive(Debug, Clone, Copy, PartialEq, Eq)]
pub enum ErrorCode {
    /// The state or the product does not allow the message.
    NotAllowed,
    BaudCode,
    /// The data have a wrong length, or a value other than the baud code is wrong.
    WrongData,
    /// The store refused to save.
    NotStored,
}

impl ErrorCode {
    pub fn number(self) -> u8 {
        match self {
            ErrorCode::NotAllowed => 4,
            ErrorCode::BaudCode => 32,
            ErrorCode::WrongData => 33,
            ErrorCode::NotStored => 40,
        }
    }
}

/// What a question asks for.
#[derive(Debug, Clone, Copy, PartialEq, Eq)]
pub enum Question {
    DeviceId,
    ProductCode,
    Firmware,
    Configuration,
    BaudCode,
    ErrorMode,
    LocationId,
    Profile,
    Flags,
    Outputs,
}

#[derive(Debug, Clone, Copy, PartialEq, Eq)]
pub enum Request<'a> {
    WakeUpAck,
    GoToConfig,
    GoToMeasurement,
    Reset,
    Answer(Question),
    Change(Change<'a>),
}

/// Whether a message is allowed.
fn is_allowed(state: State, product: Product, identifier: u8) -> bool {
    match identifier {
        WAKE_UP_ACK => state == State::WakeUp,
        GO_TO_CONFIG | RESET => state != State::WakeUp,
        ERROR_MODE => state == State::Config && product.has_error_mode_message(),
        GO_TO_MEASUREMENT | RESTORE_FACTORY | DEVICE_ID | PRODUCT_CODE | FIRMWARE
        | ASK_CONFIGURATION | BAUD_RATE | LOCATION_ID | FILTER_PROFILE | OPTION_FLAGS
        | OUTPUT_CONFIGURATION => state == State::Config,
        _ => false,
    }
}

/// What a message asks for. It is first asked whether it is allowed, and then whether it
/// takes data of this length; values are not looked at.
pub fn read(
    state: State,
    product: Product,
    identifier: u8,
    data: &[u8],
) -> Result<Request<'_>, ErrorCode> {
    if !is_allowed(state, product, identifier) {
        return Err(ErrorCode::NotAllowed);
    }
    Ok(match (identifier, data) {
        (WAKE_UP_ACK, []) => Request::WakeUpAck,
        (GO_TO_CONFIG, []) => Request::GoToConfig,
        (GO_TO_MEASUREMENT, []) => Request::GoToMeasurement,
        (RESET, []) => Request::Reset,
        (RESTORE_FACTORY, []) => Request::Change(Change::Factory),
        (DEVICE_ID, []) => Request::Answer(Question::DeviceId),
        (PRODUCT_CODE, []) => Request::Answer(Question::ProductCode),
        (FIRMWARE, []) => Request::Answer(Question::Firmware),
        (ASK_CONFIGURATION, []) => Request::Answer(Question::Configuration),
        (BAUD_RATE, []) => Request::Answer(Question::BaudCode),
        (BAUD_RATE, &[code]) => Request::Change(Change::BaudCode(code)),
        (ERROR_MODE, []) => Request::Answer(Question::ErrorMode),
        (ERROR_MODE, &[high, low]) => {
            Request::Change(Change::ErrorMode(u16::from_be_bytes([high, low])))
        }
        (LOCATION_ID, []) => Request::Answer(Question::LocationId),
        (LOCATION_ID, &[high, low]) => {
            Request::Change(Change::LocationId(u16::from_be_bytes([high, low])))
        }
        (FILTER_PROFILE, []) => Request::Answer(Question::Profile),
        (FILTER_PROFILE, &[high, low]) => {
            Request::Change(Change::Profile(u16::from_be_bytes([high, low])))
        }
        (OPTION_FLAGS, []) => Request::Answer(Question::Flags),
        (OPTION_FLAGS, &[a, b, c, d, e, f, g, h]) => Request::Change(Change::Flags {
            set: u32::from_be_bytes([a, b, c, d]),
            clear: u32::from_be_bytes([e, f, g, h]),
        }),
        (OUTPUT_CONFIGURATION, []) => Request::Answer(Question::Outputs),
        (OUTPUT_CONFIGURATION, list)
            if list.len().is_multiple_of(4) && list.len() <= LONGEST_LIST =>
        {
            Request::Change(Change::Outputs(list))
        }
        _ => return Err(ErrorCode::WrongData),
    })
}

#[cfg(test)]
mod tests {
    use super::*;

    const STATES: [State; 3] = [State::WakeUp, State::Config, State::Measurement];

    /// The states and lengths of the document's table.
    fn table(identifier: u8) -> (&'static [State], Vec<usize>) {
        let config = &[State::Config];
        match identifier {
            0x3F => (&[State::WakeUp], vec![0]),
            0x30 | 0x40 => (&[State::Config, State::Measurement], vec![0]),
            0x10 | 0x0E | 0x00 | 0x1C | 0x12 | 0x0C => (config, vec![0]),
            0x18 => (config, vec![0, 1]),
            0xDA | 0x84 | 0x64 => (config, vec![0, 2]),
            0x48 => (config, vec![0, 8]),
            0xC0 => (config, (0..=32).map(|count| 4 * count).collect()),
            _ => (&[], vec![]),
        }
    }

    #[test]
    fn every_message_of_every_length() {
        for product in Product::ALL {
            for state in STATES {
                for identifier in 0..=0xFF {
                    let (states, lengths) = table(identifier);
                    let missing = product == Product::Mti3 && identifier == 0xDA;
                    for length in (0..=140).chain([254, 255, 2048]) {
                        let answer = read(state, product, identifier, &[0; 2048][..length]);
                        let error = answer.err().map(ErrorCode::number);
                        let expected = if missing || !states.contains(&state) {
                            Some(4)
                        } else if !lengths.contains(&length) {
                            Some(33)
                        } else {
                            None
                        };
                        assert_eq!(error, expected, "{identifier:02X} {length}");
                    }
                }
            }
        }
    }

    #[test]
    fn numbers_of_several_bytes() {
        let in_config = |identifier, data| read(State::Config, Product::Mti30, identifier, data);
        let change = |change| Ok(Request::Change(change));
        assert_eq!(in_config(0xDA, &[1, 2]), change(Change::ErrorMode(0x0102)));
        assert_eq!(in_config(0x84, &[1, 2]), change(Change::LocationId(0x0102)));
        assert_eq!(in_config(0x64, &[1, 2]), change(Change::Profile(0x0102)));
        assert_eq!(
            in_config(0x48, &[1, 2, 3, 4, 5, 6, 7, 8]),
            change(Change::Flags {
                set: 0x01020304,
                clear: 0x05060708
            })
        );
    }
}
