//! What a unit writes: replies, Errors, and the messages that it sends unasked
//! (docs/PROTOCOL.md).

use crate::frames::{self, Message, LONGEST_FRAME};
use crate::product::Product;
use crate::requests::{self, ErrorCode, Question};
use crate::settings::{Entry, Settings, MOST_ENTRIES};

/// The address of what is sent unasked.
pub const UNASKED: u8 = 0xFF;
/// The bytes of Configuration.
const CONFIGURATION_SIZE: usize = 118;

/// What never changes of a unit.
#[derive(Debug, Clone, Copy, PartialEq, Eq)]
pub struct Device {
    pub product: Product,
    pub id: [u8; 4],
}

/// A tray that has room for whatever a call writes, and how much is written from its front.
#[derive(Debug)]
pub struct Output<'a> {
    tray: &'a mut [u8; LONGEST_FRAME],
    written: usize,
}

impl Output<'_> {
    /// The output into a tray, or nothing if the tray is too short.
    pub fn into_tray(tray: &mut [u8]) -> Option<Output<'_>> {
        Some(Output {
            tray: tray.first_chunk_mut()?,
            written: 0,
        })
    }

    pub fn written(&self) -> usize {
        self.written
    }

    /// Writes a frame behind what is written. No call writes more than one of the longest
    /// frames, so there is always room.
    pub fn frame(&mut self, address: u8, identifier: u8, data: &[u8]) {
        let message = Message {
            address,
            identifier,
            data,
        };
        let written = frames::write_to(self.tray, self.written, message);
        debug_assert!(written.is_ok());
        self.written += written.unwrap_or(0);
    }

    /// Writes the reply to a message.
    pub fn reply(&mut self, asked: Message, data: &[u8]) {
        self.frame(asked.address, asked.identifier.wrapping_add(1), data);
    }

    /// Writes an Error about a message.
    pub fn error(&mut self, asked: Message, code: ErrorCode) {
        let data = [code.number(), asked.identifier, 0, 0, 0, 0];
        let size = match code {
            ErrorCode::NotStored => data.len(),
            ErrorCode::NotAllowed | ErrorCode::BaudCode | ErrorCode::WrongData => 1,
        };
        self.frame(asked.address, requests::ERROR, &data[..size]);
    }

    /// Writes the message WakeUp.
    pub fn wake_up(&mut self) {
        self.frame(UNASKED, requests::WAKE_UP, &[]);
    }

    /// Writes Configuration, unasked.
    pub fn configuration(&mut self, device: &Device, settings: &Settings) {
        let data = configuration(device, settings.outputs());
        self.frame(UNASKED, requests::CONFIGURATION, &data);
    }

    /// Writes the answer to a question.
    pub fn answer(
        &mut self,
        asked: Message,
        question: Question,
        device: &Device,
        settings: &Settings,
    ) {
        let values = settings.values();
        match question {
            Question::DeviceId => self.reply(asked, &device.id),
            Question::ProductCode => self.reply(asked, device.product.name().as_bytes()),
            Question::Firmware => self.reply(asked, &[1, 0, 0, 0, 0, 0, 0, 0, 0, 0, 0]),
            Question::Configuration => {
                self.reply(asked, &configuration(device, settings.outputs()));
            }
            Question::BaudCode => self.reply(asked, &[values.baud_code]),
            Question::ErrorMode => self.reply(asked, &values.error_mode.to_be_bytes()),
            Question::LocationId => self.reply(asked, &values.location.to_be_bytes()),
            Question::Profile => self.reply(asked, &[1, values.profile]),
            Question::Flags => self.reply(asked, &values.flags.to_be_bytes()),
            Question::Outputs => self.outputs(asked, settings),
        }
    }

    /// Writes the list of outputs in force.
    pub fn outputs(&mut self, asked: Message, settings: &Settings) {
        let mut list = [0; 4 * MOST_ENTRIES];
        let outputs = settings.outputs();
        for (place, entry) in list.chunks_exact_mut(4).zip(outputs) {
            let (identifier, frequency) = place.split_at_mut(2);
            identifier.copy_from_slice(&entry.identifier().to_be_bytes());
            frequency.copy_from_slice(&entry.frequency().to_be_bytes());
        }
        let size = list.len().min(4 * outputs.len());
        self.reply(asked, &list[..size]);
    }
}

/// The data of Configuration.
fn configuration(device: &Device, outputs: &[Entry]) -> [u8; CONFIGURATION_SIZE] {
    let mut data = [0; CONFIGURATION_SIZE];
    data[0..4].copy_from_slice(&device.id);
    data[96..98].copy_from_slice(&[0, 1]);
    data[98..102].copy_from_slice(&device.id);
    // At most 19 entries of at most 72 bytes.
    let size: usize = outputs.iter().map(|entry| 3 + entry.data_size()).sum();
    data[102..104].copy_from_slice(&(size as u16).to_be_bytes());
    data
}

#[cfg(test)]
mod tests {
    use super::*;

    const ID: [u8; 4] = [1, 2, 3, 4];

    /// What is written into a tray of 2,055 bytes.
    fn written(write: impl Fn(&mut Output)) -> Vec<u8> {
        let mut tray = [0; LONGEST_FRAME];
        let size = Output::into_tray(&mut tray).map(|mut output| {
            write(&mut output);
            output.written()
        });
        tray[..size.unwrap_or(0)].to_vec()
    }

    fn asked(address: u8, identifier: u8) -> Message<'static> {
        Message {
            address,
            identifier,
            data: &[],
        }
    }

    #[test]
    fn trays() {
        assert!(Output::into_tray(&mut [0; 2054]).is_none());
        assert!(Output::into_tray(&mut [0; 2055]).is_some());
        assert!(Output::into_tray(&mut [0; 2056]).is_some());
    }

    #[test]
    fn errors() {
        let about = |identifier, code| written(|output| output.error(asked(1, identifier), code));
        for (code, number) in [
            (ErrorCode::NotAllowed, 4),
            (ErrorCode::BaudCode, 0x20),
            (ErrorCode::WrongData, 0x21),
        ] {
            let frame = frames::write(1, 0x42, &[number]);
            assert_eq!(Some(about(0x84, code)), frame);
        }
        let frame = frames::write(1, 0x42, &[0x28, 0x84, 0, 0, 0, 0]);
        assert_eq!(Some(about(0x84, ErrorCode::NotStored)), frame);
    }

    #[test]
    fn configuration_of_the_factory_settings() {
        for product in Product::ALL {
            let device = Device { product, id: ID };
            let settings = Settings::factory(product);
            let frame = written(|output| output.configuration(&device, &settings));
            let mut expected = vec![0xFA, 0xFF, 0x0D, 0x76];
            expected.extend([0; 118]);
            expected[4..8].copy_from_slice(&ID);
            expected[100..106].copy_from_slice(&[0, 1, 1, 2, 3, 4]);
            expected[107] = if product == Product::MtiG710 { 83 } else { 38 };
            let checksum = if product == Product::MtiG710 {
                0x43 - 45
            } else {
                0x43
            };
            expected.push(checksum);
            assert_eq!(frame, expected);
        }
    }

    #[test]
    fn products() {
        for (product, name) in
            Product::ALL
                .into_iter()
                .zip([&b"MTi-3"[..], b"MTi-30", b"MTi-300", b"MTi-G-710"])
        {
            let device = Device { product, id: ID };
            let settings = Settings::factory(product);
            let frame = written(|output| {
                output.answer(asked(0xFF, 0x1C), Question::ProductCode, &device, &settings);
            });
            assert_eq!(Some(frame), frames::write(0xFF, 0x1D, name));
        }
    }
}
