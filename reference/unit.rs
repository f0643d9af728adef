//! The unit: power, feed and tick (docs/PROTOCOL.md, docs/REFUSALS.md).

use crate::data_message;
use crate::frames::Message;
use crate::image;
use crate::product::Product;
use crate::replies::{Device, Output};
use crate::requests::{self, ErrorCode, Request, State};
use crate::samples::{Counts, Packets, TooLong};
use crate::sensor::Sensor;
use crate::settings::{Change, Settings};
use crate::store::Store;
use crate::waiting::Waiting;

/// The address of the host's messages beside FF.
const OWN_ADDRESS: u8 = 0x01;
const ANY_ADDRESS: u8 = 0xFF;
/// The ticks after which WakeUp ends.
const TICKS_OF_WAKE_UP: u32 = 1000;

/// Why a call is refused.
#[derive(Debug, Clone, Copy, PartialEq, Eq)]
pub enum Refusal {
    Dark,
    AlreadyPowered,
    ShortTray,
    WholeFrameWaits,
    MessageTooLong,
}

impl Refusal {
    pub fn number(self) -> u8 {
        match self {
            Refusal::Dark => 1,
            Refusal::AlreadyPowered => 2,
            Refusal::ShortTray => 3,
            Refusal::WholeFrameWaits => 4,
            Refusal::MessageTooLong => 5,
        }
    }
}

/// What a feed did.
#[derive(Debug, Clone, Copy, PartialEq, Eq)]
pub struct Fed {
    /// The bytes taken.
    pub taken: usize,
    /// The bytes written.
    pub written: usize,
    /// Whether a frame was served.
    pub served: bool,
}

#[derive(Debug, Clone)]
pub struct Unit {
    device: Device,
    store: Store,
    sensor: Sensor,
    waiting: Waiting,
    /// What is there while the unit is not dark.
    powered: Option<Powered>,
    /// Where a tick puts its packets together.
    packets: Packets,
}

/// A unit that is not dark, beside what it is made from and the waiting bytes.
#[derive(Debug, Clone, PartialEq, Eq)]
struct Powered {
    state: State,
    settings: Settings,
    counts: Counts,
}

impl Unit {
    /// A dark unit.
    pub fn new(product: Product, id: [u8; 4], store: Store, sensor: Sensor) -> Unit {
        Unit {
            device: Device { product, id },
            store,
            sensor,
            waiting: Waiting::new(),
            powered: None,
            packets: Packets::new(),
        }
    }

    pub fn store(&self) -> &Store {
        &self.store
    }

    pub fn waiting(&self) -> &Waiting {
        &self.waiting
    }

    /// The state, or none if the unit is dark.
    pub fn state(&self) -> Option<State> {
        self.powered.as_ref().map(|powered| powered.state)
    }

    pub fn counts(&self) -> Option<&Counts> {
        self.powered.as_ref().map(|powered| &powered.counts)
    }

    /// Takes the unit apart into the store and the sensor that it was made from.
    pub fn into_parts(self) -> (Store, Sensor) {
        (self.store, self.sensor)
    }

    /// Powers the unit; answers the bytes written into the tray.
    pub fn power(&mut self, tray: &mut [u8]) -> Result<usize, Refusal> {
        if self.powered.is_some() {
            return Err(Refusal::AlreadyPowered);
        }
        let mut output = Output::into_tray(tray).ok_or(Refusal::ShortTray)?;
        self.powered = Some(Powered::up(&self.device, &self.store, &mut output));
        Ok(output.written())
    }

    /// Feeds bytes: if a whole frame waits, serves it and takes no byte, and otherwise takes
    /// bytes until a whole frame waits, which is served, or all are taken.
    pub fn feed(&mut self, bytes: &[u8], tray: &mut [u8]) -> Result<Fed, Refusal> {
        let powered = self.powered.as_mut().ok_or(Refusal::Dark)?;
        let mut output = Output::into_tray(tray).ok_or(Refusal::ShortTray)?;
        let taken = self.waiting.take(bytes);
        let served = match self.waiting.message() {
            Some(message) => {
                powered.serve(&self.device, &mut self.store, message, &mut output);
                self.waiting.pass();
                true
            }
            None => false,
        };
        Ok(Fed {
            taken,
            written: output.written(),
            served,
        })
    }

    /// Half a millisecond passes; answers the bytes written into the tray.
    pub fn tick(&mut self, tray: &mut [u8]) -> Result<usize, Refusal> {
        let powered = self.powered.as_mut().ok_or(Refusal::Dark)?;
        let mut output = Output::into_tray(tray).ok_or(Refusal::ShortTray)?;
        if self.waiting.whole_frame_waits() {
            return Err(Refusal::WholeFrameWaits);
        }
        match powered.state {
            State::WakeUp => powered.tick_in_wake_up(&self.device, &mut output),
            State::Config => {}
            State::Measurement => {
                powered.tick_in_measurement(&self.sensor, &mut self.packets, &mut output)?;
            }
        }
        Ok(output.written())
    }
}

impl Powered {
    /// What power and Reset do: the settings are those of the store, or the factory's, the
    /// counts are 0, and WakeUp begins.
    fn up(device: &Device, store: &Store, output: &mut Output) -> Powered {
        let settings = store
            .load()
            .and_then(|image| image::load(device.product, image))
            .unwrap_or_else(|| Settings::factory(device.product));
        output.wake_up();
        Powered {
            state: State::WakeUp,
            settings,
            counts: Counts::START,
        }
    }

    /// Serves a frame. The tests come in the order of the document: the address, whether the
    /// message is allowed, the length, the value, the store.
    fn serve(&mut self, device: &Device, store: &mut Store, message: Message, output: &mut Output) {
        if ![OWN_ADDRESS, ANY_ADDRESS].contains(&message.address) {
            return;
        }
        let done = requests::read(self.state, device.product, message.identifier, message.data)
            .and_then(|request| self.act(request, message, device, store, output));
        if let Err(code) = done {
            output.error(message, code);
        }
    }

    /// Does what a message asks for and writes the reply. An Error leaves everything, and
    /// nothing is written before it is known that there is none.
    fn act(
        &mut self,
        request: Request,
        message: Message,
        device: &Device,
        store: &mut Store,
        output: &mut Output,
    ) -> Result<(), ErrorCode> {
        match request {
            Request::WakeUpAck => self.state = State::Config,
            Request::GoToConfig => {
                output.reply(message, &[]);
                self.state = State::Config;
            }
            Request::GoToMeasurement => {
                output.reply(message, &[]);
                self.enter_measurement(device, output);
            }
            Request::Reset => {
                output.reply(message, &[]);
                *self = Powered::up(device, store, output);
            }
            Request::Answer(question) => output.answer(message, question, device, &self.settings),
            Request::Change(change) => {
                self.change(change, store)?;
                match change {
                    Change::Outputs(_) => output.outputs(message, &self.settings),
                    _ => output.reply(message, &[]),
                }
            }
        }
        Ok(())
    }

    /// Makes a change. With storing on after it, the new record is saved before it is in
    /// force.
    fn change(&mut self, change: Change, store: &mut Store) -> Result<(), ErrorCode> {
        let wrong = match change {
            Change::BaudCode(_) => ErrorCode::BaudCode,
            _ => ErrorCode::WrongData,
        };
        let settings = self.settings.changed(change).ok_or(wrong)?;
        if settings.storing_is_on() {
            store
                .save(&image::of(&settings))
                .map_err(|_| ErrorCode::NotStored)?;
        }
        self.settings = settings;
        Ok(())
    }

    fn enter_measurement(&mut self, device: &Device, output: &mut Output) {
        output.configuration(device, &self.settings);
        self.state = State::Measurement;
        self.counts = self.counts.at_measurement();
    }

    fn tick_in_wake_up(&mut self, device: &Device, output: &mut Output) {
        self.counts.ticks_in_wake_up += 1;
        if self.counts.ticks_in_wake_up < TICKS_OF_WAKE_UP {
            return;
        }
        if self.settings.wake_up_ends_in_config() {
            self.state = State::Config;
        } else {
            self.enter_measurement(device, output);
        }
    }

    fn tick_in_measurement(
        &mut self,
        sensor: &Sensor,
        packets: &mut Packets,
        output: &mut Output,
    ) -> Result<(), Refusal> {
        packets.fill(self.settings.outputs(), &self.counts, sensor);
        let data = packets.data().map_err(|TooLong| Refusal::MessageTooLong)?;
        if !data.is_empty() {
            output.frame(data_message::ADDRESS, data_message::IDENTIFIER, data);
        }
        self.counts = self.counts.behind_tick(!data.is_empty());
        Ok(())
    }
}

#[cfg(test)]
mod tests {
    use super::*;
    use crate::frames::{self, Piece, LONGEST_FRAME};
    use crate::random::Random;
    use crate::store::{Cell, Page};

    const ID: [u8; 4] = [1, 2, 3, 4];
    const WAKE_UP_ACK: [u8; 5] = [0xFA, 0xFF, 0x3F, 0, 0xC2];
    const REQ_DID: [u8; 5] = [0xFA, 0xFF, 0, 0, 1];
    const NOT_ALLOWED: [u8; 6] = [0xFA, 0xFF, 0x42, 1, 4, 0xBA];

    fn dark(product: Product, writes: usize) -> Unit {
        Unit::new(product, ID, Store::Cell(Cell::new(writes)), Sensor::Ramp)
    }

    fn in_wake_up(product: Product, writes: usize) -> Unit {
        let mut unit = dark(product, writes);
        assert_eq!(unit.power(&mut [0; LONGEST_FRAME]), Ok(5));
        unit
    }

    fn in_config(product: Product, writes: usize) -> Unit {
        let mut unit = in_wake_up(product, writes);
        assert_eq!(fed(&mut unit, &WAKE_UP_ACK), []);
        assert_eq!(unit.state(), Some(State::Config));
        unit
    }

    /// What a unit writes while it is fed until no whole frame waits.
    fn fed(unit: &mut Unit, bytes: &[u8]) -> Vec<u8> {
        let mut tray = [0; LONGEST_FRAME];
        let mut written = Vec::new();
        let mut rest = bytes;
        loop {
            match unit.feed(rest, &mut tray) {
                Ok(fed) => {
                    written.extend(&tray[..fed.written]);
                    rest = &rest[fed.taken..];
                    if !fed.served {
                        assert!(rest.is_empty());
                        return written;
                    }
                }
                Err(refusal) => panic!("{refusal:?}"),
            }
        }
    }

    fn ticked(unit: &mut Unit, count: usize) -> Vec<u8> {
        let mut tray = [0; LONGEST_FRAME];
        let mut written = Vec::new();
        for _ in 0..count {
            let size = unit.tick(&mut tray);
            written.extend(&tray[..size.unwrap_or(0)]);
        }
        written
    }

    fn frame(identifier: u8, data: &[u8]) -> Vec<u8> {
        frames::write(0xFF, identifier, data).unwrap_or_default()
    }

    /// The bytes that hexadecimal digits stand for.
    fn hex(text: &str) -> Vec<u8> {
        text.split_whitespace()
            .filter_map(|word| crate::lines::byte(word.as_bytes()))
            .collect()
    }

    #[test]
    fn examples_of_serving() {
        for (asked, written) in [
            ("FA FF 00 00 01", "FA FF 01 04 01 02 03 04 F2"),
            ("FA 01 00 00 FF", "FA 01 01 04 01 02 03 04 F0"),
            (
                "FA FF 64 00 9D FA FF 64 02 00 33 68",
                "FA FF 65 02 01 32 67 FA FF 65 00 9C",
            ),
            ("FA FF 18 01 0C DC", "FA FF 42 01 20 9E"),
            ("FA FF C0 04 20 10 01 2C E0", "FA FF C1 04 20 10 00 C8 44"),
            ("FA FF C0 04 00 00 00 00 3D", "FA FF C1 00 40"),
            ("FA FF 48 08 00 00 00 10 00 00 00 01 A0", "FA FF 49 00 B8"),
            ("FA FF 48 08 00 00 00 10 00 00 00 01 A1", ""),
            ("FA FF 40 00 C1", "FA FF 41 00 C0 FA FF 3E 00 C3"),
        ] {
            let mut unit = in_config(Product::Mti3, 5);
            assert_eq!(fed(&mut unit, &hex(asked)), hex(written), "{asked}");
        }
        let mut unit = in_config(Product::Mti3, 0);
        let written = fed(&mut unit, &hex("FA FF 84 02 00 05 76"));
        assert_eq!(written, hex("FA FF 42 06 28 84 00 00 00 00 0D"));
        let mut unit = in_wake_up(Product::Mti3, 5);
        assert_eq!(fed(&mut unit, &REQ_DID), NOT_ALLOWED);
        ticked(&mut unit, 1000);
        assert_eq!(unit.state(), Some(State::Measurement));
        assert_eq!(fed(&mut unit, &REQ_DID), NOT_ALLOWED);
    }

    #[test]
    fn order_of_refusals() {
        let mut short = [0x55; 2054];
        let mut tray = [0x55; 2055];
        let mut unit = dark(Product::Mti3, 0);
        assert_eq!(unit.feed(&REQ_DID, &mut short), Err(Refusal::Dark));
        assert_eq!(unit.tick(&mut short), Err(Refusal::Dark));
        assert_eq!(unit.power(&mut short), Err(Refusal::ShortTray));
        assert_eq!(unit.power(&mut tray), Ok(5));
        assert_eq!(unit.power(&mut short), Err(Refusal::AlreadyPowered));
        assert_eq!(unit.feed(&REQ_DID, &mut short), Err(Refusal::ShortTray));
        assert_eq!(unit.tick(&mut short), Err(Refusal::ShortTray));
        // One of two frames inside a failed one waits.
        let failed = [&[0xFA, 0xFF, 1, 10][..], &REQ_DID, &REQ_DID, &[0]].concat();
        let fed = Fed {
            taken: 15,
            written: 6,
            served: true,
        };
        assert_eq!(unit.feed(&failed, &mut tray), Ok(fed));
        assert_eq!(unit.tick(&mut short), Err(Refusal::ShortTray));
        tray.fill(0x55);
        assert_eq!(unit.tick(&mut tray), Err(Refusal::WholeFrameWaits));
        assert_eq!((tray, short), ([0x55; 2055], [0x55; 2054]));
        let fed = Fed {
            taken: 0,
            written: 6,
            served: true,
        };
        assert_eq!(unit.feed(&REQ_DID, &mut tray), Ok(fed));
        assert_eq!(unit.tick(&mut tray), Ok(0));
    }

    #[test]
    fn wake_up_ends_behind_the_thousandth_tick() {
        let mut unit = in_wake_up(Product::Mti3, 0);
        assert_eq!(ticked(&mut unit, 999), []);
        let mut late = unit.clone();
        assert_eq!(fed(&mut unit, &WAKE_UP_ACK), []);
        assert_eq!(unit.state(), Some(State::Config));
        assert_eq!(ticked(&mut late, 1).len(), 123);
        assert_eq!(fed(&mut late, &WAKE_UP_ACK), NOT_ALLOWED);
        assert_eq!(late.state(), Some(State::Measurement));
        assert_eq!(
            late.counts().map(|counts| counts.ticks_in_wake_up),
            Some(1000)
        );
    }

    #[test]
    fn wake_up_ends_in_config_with_flag_02() {
        let mut unit = in_config(Product::Mti3, 1);
        fed(&mut unit, &frame(0x48, &[0, 0, 0, 2, 0, 0, 0, 0]));
        fed(&mut unit, &frame(0x40, &[]));
        assert_eq!(unit.state(), Some(State::WakeUp));
        assert_eq!(ticked(&mut unit, 1000), []);
        assert_eq!(unit.state(), Some(State::Config));
    }

    #[test]
    fn wake_up_goes_on_behind_an_ack_with_data() {
        let mut unit = in_wake_up(Product::Mti3, 0);
        assert_eq!(fed(&mut unit, &frame(0x3F, &[0])), frame(0x42, &[0x21]));
        assert_eq!(unit.state(), Some(State::WakeUp));
        assert_eq!(fed(&mut unit, &frame(0x84, &[0; 300])), NOT_ALLOWED);
        fed(&mut unit, &WAKE_UP_ACK);
        assert_eq!(
            fed(&mut unit, &frame(0x84, &[0; 300])),
            frame(0x42, &[0x21])
        );
        assert_eq!(fed(&mut unit, &WAKE_UP_ACK), NOT_ALLOWED);
    }

    #[test]
    fn other_addresses_are_served_by_silence() {
        for address in 0..=0xFF {
            let mut unit = in_config(Product::Mti3, 1);
            let asked = frames::write(address, 0x84, &[0, 5]).unwrap_or_default();
            let written = fed(&mut unit, &asked);
            let own = address == 0x01 || address == 0xFF;
            assert_eq!(written.is_empty(), !own);
            assert_eq!(unit.store().writes_left(), usize::from(!own));
        }
    }

    #[test]
    fn session_of_the_document() {
        let memory = vec![0xFF; 564];
        let store = Store::Page(Page::over(memory));
        let mut unit = Unit::new(Product::Mti3, ID, store, Sensor::Ramp);
        assert_eq!(unit.power(&mut [0; LONGEST_FRAME]), Ok(5));
        let mut written = Vec::new();
        for asked in [
            "FA FF 3F 00 C2",
            "FA FF 84 02 00 05 76",
            "FA FF 48 08 00 00 00 01 00 00 00 00 B0",
            "FA FF 84 02 00 06 75",
            "FA FF 40 00 C1",
        ] {
            written.extend(fed(&mut unit, &hex(asked)));
        }
        // WakeUp at power is the sixth.
        assert_eq!(frames::read(&written).len(), 5);
        assert_eq!(unit.store().writes_left(), 3);
        fed(&mut unit, &WAKE_UP_ACK);
        assert_eq!(fed(&mut unit, &frame(0x84, &[])), frame(0x85, &[0, 5]));
        assert_eq!(fed(&mut unit, &frame(0x48, &[])), frame(0x49, &[0; 4]));
    }

    #[test]
    fn storing() {
        let mut unit = in_config(Product::Mti3, 2);
        let flags = |set, clear| frame(0x48, &[0, 0, 0, set, 0, 0, 0, clear]);
        let mut change = |asked: &[u8], left| {
            fed(&mut unit, asked);
            assert_eq!(unit.store().writes_left(), left);
        };
        change(&flags(0x01, 0), 2);
        change(&frame(0x18, &[3]), 2);
        change(&flags(0x10, 0x01), 1);
        change(&flags(0x01, 0), 1);
        change(&frame(0x0E, &[]), 0);
        // Setting flag 01 needs no write, and clearing it does.
        assert_eq!(fed(&mut unit, &flags(0x01, 0)), frame(0x49, &[]));
        let error = |identifier| frame(0x42, &[0x28, identifier, 0, 0, 0, 0]);
        assert_eq!(fed(&mut unit, &flags(0, 0x01)), error(0x48));
        assert_eq!(fed(&mut unit, &frame(0x0E, &[])), error(0x0E));
        // A wrong value comes before the store.
        assert_eq!(fed(&mut unit, &frame(0x18, &[0x0C])), frame(0x42, &[0x20]));
        assert_eq!(fed(&mut unit, &frame(0x84, &[1, 2])), frame(0x85, &[]));
        fed(&mut unit, &frame(0x40, &[]));
        fed(&mut unit, &WAKE_UP_ACK);
        assert_eq!(fed(&mut unit, &frame(0x84, &[])), frame(0x85, &[0, 0]));
        assert_eq!(fed(&mut unit, &frame(0x84, &[1, 2])), error(0x84));
    }

    #[test]
    fn counts_of_messages_go_on_over_a_visit_to_config() {
        let mut unit = in_config(Product::Mti3, 1);
        let outputs = [0x10, 0x20, 0x07, 0xD0, 0x10, 0x60, 0x07, 0xD0];
        assert_eq!(
            fed(&mut unit, &frame(0xC0, &outputs)),
            frame(0xC1, &outputs)
        );
        fed(&mut unit, &frame(0x10, &[]));
        let message = |sent: u8, time: u8| {
            frame(
                0x36,
                &[0x10, 0x20, 2, 0, sent, 0x10, 0x60, 4, 0, 0, 0, time],
            )
        };
        assert_eq!(
            ticked(&mut unit, 2),
            [message(0, 0), message(1, 5)].concat()
        );
        assert_eq!(fed(&mut unit, &frame(0x30, &[])), frame(0x31, &[]));
        assert_eq!(ticked(&mut unit, 7), []);
        assert_eq!(fed(&mut unit, &frame(0x30, &[])), frame(0x31, &[]));
        let written = fed(&mut unit, &frame(0x10, &[]));
        assert_eq!((&written[..5], written.len()), (&frame(0x11, &[])[..], 128));
        assert_eq!(ticked(&mut unit, 1), message(2, 0));
    }

    #[test]
    fn what_waits_behind_a_reset_is_served_in_wake_up() {
        let mut unit = in_config(Product::Mti3, 0);
        let inside = [&frame(0x40, &[])[..], &REQ_DID].concat();
        let mut failed = frame(1, &inside);
        let last = failed.len() - 1;
        failed[last] ^= 1;
        let expected = [&frame(0x41, &[])[..], &frame(0x3E, &[]), &NOT_ALLOWED].concat();
        assert_eq!(fed(&mut unit, &failed), expected);
    }

    /// Bytes that keep a unit busy: right frames, damaged ones, and noise.
    fn recording(random: &mut Random, product: Product) -> Vec<u8> {
        let mut bytes = WAKE_UP_ACK.to_vec();
        for _ in 0..random.between(5, 60) {
            let mut some = crate::generate_messages::frame(random, product);
            match random.below(6) {
                0 => crate::generate_messages::damage(random, &mut some),
                1 => some = crate::generate_messages::failed_around(random, &some.repeat(2)),
                2 => some.extend(crate::generate_messages::noise(random)),
                _ => {}
            }
            bytes.extend(some);
        }
        bytes
    }

    #[test]
    fn cuts_and_refused_calls_make_no_difference() {
        let mut random = Random::new(31);
        for round in 0..400 {
            let product = random.one_of(Product::ALL);
            let bytes = recording(&mut random, product);
            let mut whole = in_wake_up(product, 20);
            let mut cut = whole.clone();
            let expected = fed(&mut whole, &bytes);
            let mut written = Vec::new();
            let mut rest = &bytes[..];
            let longest = if round % 2 == 0 { 1 } else { 30 };
            while !rest.is_empty() {
                if random.percent(10) {
                    assert_eq!(cut.feed(rest, &mut [0; 9]), Err(Refusal::ShortTray));
                    assert_eq!(cut.power(&mut [0; 9]), Err(Refusal::AlreadyPowered));
                }
                let (piece, later) = rest.split_at(random.between(1, longest).min(rest.len()));
                written.extend(fed(&mut cut, piece));
                rest = later;
            }
            assert_eq!(written, expected);
            assert_eq!(cut.powered, whole.powered);
            assert_eq!(cut.store, whole.store);
            assert_eq!(cut.waiting.held(), whole.waiting.held());
            let pieces = frames::read(&written);
            assert!(pieces.iter().all(|piece| matches!(piece, Piece::Frame(_))));
        }
    }

    /// The counts of docs/SESSIONS.md, from the input side.
    #[derive(Debug, Default)]
    struct Counted {
        requests: usize,
        wake_ups: usize,
        passages: usize,
        samples: usize,
        stored_changes: usize,
        /// The settings right after the last stored change, or as power loaded them.
        stored: Option<Settings>,
    }

    /// Counts the frame that a feed served; `before` is the unit without its stores and
    /// sensors before it was served, `after` behind that.
    fn count_served(
        counted: &mut Counted,
        message: Message,
        written: &[u8],
        before: &Powered,
        after: &Powered,
    ) {
        if ![0x01, 0xFF].contains(&message.address) {
            assert_eq!((written, before), (&[][..], after));
            return;
        }
        if message.identifier == 0x3F && message.data.is_empty() && before.state == State::WakeUp {
            assert_eq!((written, after.state), (&[][..], State::Config));
            return;
        }
        counted.requests += 1;
        let pieces = frames::read(written);
        let replies: Vec<Message> = pieces
            .iter()
            .filter_map(|piece| match piece {
                Piece::Frame(frame) => Message::in_frame(frame),
                _ => None,
            })
            .collect();
        assert_eq!(replies.len(), pieces.len());
        let [reply, behind @ ..] = &replies[..] else {
            panic!("a request without a reply");
        };
        assert_eq!(reply.address, message.address);
        if reply.identifier == 0x42 {
            assert_eq!((before, behind), (after, &[][..]));
            return;
        }
        assert_eq!(reply.identifier, message.identifier.wrapping_add(1));
        let unasked: Vec<u8> = behind.iter().map(|message| message.identifier).collect();
        match message.identifier {
            0x40 => {
                counted.wake_ups += 1;
                assert_eq!(unasked, [0x3E]);
                assert_eq!(Some(&after.settings), counted.stored.as_ref());
            }
            0x10 => {
                counted.passages += 1;
                assert_eq!(unasked, [0x0D]);
            }
            identifier => {
                assert_eq!(unasked, []);
                let changes = [0x18, 0xDA, 0x84, 0x64, 0x48, 0xC0].contains(&identifier)
                    && !message.data.is_empty()
                    || identifier == 0x0E;
                if changes && after.settings.values().flags & 1 == 0 {
                    counted.stored_changes += 1;
                    counted.stored = Some(after.settings.clone());
                }
            }
        }
    }

    #[test]
    fn frames_writes_and_settings_are_those_that_the_input_side_counts() {
        let mut random = Random::new(32);
        let mut tray = [0; LONGEST_FRAME];
        let mut samples = 0;
        for _ in 0..300 {
            let product = random.one_of(Product::ALL);
            let writes = random.between(0, 8);
            let mut unit = in_wake_up(product, writes);
            let mut written = tray[..0].to_vec();
            written.extend(frame(0x3E, &[]));
            let mut counted = Counted {
                wake_ups: 1,
                stored: unit
                    .powered
                    .as_ref()
                    .map(|powered| powered.settings.clone()),
                ..Counted::default()
            };
            for _ in 0..random.between(1, 12) {
                let mut bytes = recording(&mut random, product);
                bytes.extend(frame(random.one_of([0x10, 0x30, 0x40]), &[]));
                for &byte in &bytes {
                    let mut bytes = &[byte][..];
                    loop {
                        // What is served is what waits when the byte is taken.
                        let mut waiting = unit.waiting.clone();
                        waiting.take(bytes);
                        let before = unit.powered.clone();
                        let answer = unit.feed(bytes, &mut tray);
                        let Ok(fed) = answer else {
                            panic!("{answer:?}");
                        };
                        bytes = &bytes[fed.taken..];
                        written.extend(&tray[..fed.written]);
                        assert_eq!(fed.served, waiting.message().is_some());
                        let (Some(message), Some(before), Some(after)) =
                            (waiting.message(), before, &unit.powered)
                        else {
                            break;
                        };
                        let new = &tray[..fed.written];
                        count_served(&mut counted, message, new, &before, after);
                    }
                }
                for _ in 0..random.one_of([1, 50, 1000, 2100]) {
                    let state = unit.state();
                    let size = unit.tick(&mut tray).unwrap_or(usize::MAX);
                    written.extend(&tray[..size]);
                    match state {
                        Some(State::WakeUp) => {
                            counted.passages +=
                                usize::from(unit.state() == Some(State::Measurement));
                        }
                        Some(State::Measurement) => counted.samples += usize::from(size > 0),
                        _ => assert_eq!(size, 0),
                    }
                }
            }
            let pieces = frames::read(&written);
            assert!(pieces.iter().all(|piece| matches!(piece, Piece::Frame(_))));
            let frames = counted.requests + counted.wake_ups + counted.passages + counted.samples;
            assert_eq!(pieces.len(), frames);
            assert_eq!(unit.store.writes_left() + counted.stored_changes, writes);
            let held = unit
                .store
                .load()
                .and_then(|held| image::load(product, held));
            assert_eq!(held.is_some(), counted.stored_changes > 0);
            assert!(held.is_none() || held == counted.stored);
            samples += counted.samples;
        }
        assert!(samples > 1000);
    }
}
