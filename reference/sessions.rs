//! The program `sessions`: calls on units of every product over every store and sensor
//! (docs/BENCH.md).

use std::io::{self, Write};
use std::mem;

use crate::lines::{self, print_spaced_hex, NotUnderstood, Problem, Program, Words};
use crate::product::Product;
use crate::sensor::{Row, Sensor, ROW_NUMBERS};
use crate::store::{Cell, Page, Store};
use crate::unit::{Fed, Refusal, Unit};

/// The most bytes of a tray.
pub const LONGEST_TRAY: usize = 10_000;
/// The most bytes of a memory.
const LONGEST_MEMORY: usize = 100_000;
/// The most ticks of a line.
const MOST_TICKS: usize = 1_000_000;

pub struct Sessions {
    /// The rows and the memory, while no unit has them.
    rows: Vec<Row>,
    memory: Vec<u8>,
    unit: Option<Unit>,
    tray: Vec<u8>,
    /// The bytes of a line; kept for its memory alone.
    bytes: Vec<u8>,
}

/// Which sensor and which store a unit is made with.
enum SensorKind {
    Ramp,
    Rows,
}

enum StoreKind {
    Cell { rating: usize },
    Page,
}

impl Sessions {
    pub fn new() -> Sessions {
        Sessions {
            rows: Vec::new(),
            memory: Vec::new(),
            unit: None,
            tray: vec![0; LONGEST_TRAY],
            bytes: Vec::new(),
        }
    }

    /// The unit on which calls are made.
    pub fn unit(&self) -> Option<&Unit> {
        self.unit.as_ref()
    }

    /// `row CHANNEL TICK N N N N N N N N N`
    fn row(&mut self, mut words: Words) -> Result<(), NotUnderstood> {
        let channel = words.read(lines::bytes_of_pairs, NotUnderstood::NotAnIdentifier)?;
        let tick = words.read(lines::decimal_32, NotUnderstood::NotANumber)?;
        let mut numbers = [0; ROW_NUMBERS];
        for number in &mut numbers {
            *number = words.read(lines::signed_decimal, NotUnderstood::NotANumber)?;
        }
        words.end()?;
        self.rows.push(Row {
            channel: u16::from_be_bytes(channel),
            tick,
            numbers,
        });
        Ok(())
    }

    /// `forget`
    fn forget(&mut self, mut words: Words) -> Result<(), NotUnderstood> {
        words.end()?;
        self.rows.clear();
        Ok(())
    }

    /// `memory LENGTH FILL`
    fn memory(&mut self, mut words: Words) -> Result<(), NotUnderstood> {
        let length = number_up_to(&mut words, LONGEST_MEMORY)?;
        let fill = words.read(lines::byte, NotUnderstood::NotAByte)?;
        words.end()?;
        self.memory.clear();
        self.memory.resize(length, fill);
        Ok(())
    }

    /// `poke AT BYTES`. Without bytes the place itself must not lie past the memory's end.
    fn poke(&mut self, mut words: Words) -> Result<(), NotUnderstood> {
        let at = words.read(lines::decimal_32, NotUnderstood::NotANumber)?;
        words.bytes_into(&mut self.bytes)?;
        let place = usize::try_from(at)
            .ok()
            .and_then(|at| self.memory.get_mut(at..)?.get_mut(..self.bytes.len()))
            .ok_or(NotUnderstood::PastTheMemory)?;
        place.copy_from_slice(&self.bytes);
        Ok(())
    }

    /// `unit PRODUCT ID SENSOR STORE`
    fn make_unit(&mut self, mut words: Words) -> Result<(), NotUnderstood> {
        let product = words.read(Product::named, NotUnderstood::NotAProduct)?;
        let id = words.read(lines::bytes_of_pairs, NotUnderstood::NotAnIdentifier)?;
        let sensor = words.read(sensor_kind, NotUnderstood::NotASensor)?;
        let store = store_kind(&mut words)?;
        words.end()?;
        let sensor = match sensor {
            SensorKind::Ramp => Sensor::Ramp,
            SensorKind::Rows => Sensor::Recorded(mem::take(&mut self.rows)),
        };
        let store = match store {
            StoreKind::Cell { rating } => Store::Cell(Cell::new(rating)),
            StoreKind::Page => Store::Page(Page::over(mem::take(&mut self.memory))),
        };
        self.unit = Some(Unit::new(product, id, store, sensor));
        Ok(())
    }

    /// Ends the unit, if there is one, and takes rows and memory back.
    fn end_unit(&mut self, output: &mut impl Write) -> io::Result<()> {
        let Some(unit) = self.unit.take() else {
            return Ok(());
        };
        writeln!(output, "left {}", unit.store().writes_left())?;
        let (store, sensor) = unit.into_parts();
        if let Store::Page(page) = store {
            output.write_all(b"memory")?;
            print_spaced_hex(output, page.memory())?;
            writeln!(output)?;
            self.memory = page.into_memory();
        }
        if let Sensor::Recorded(rows) = sensor {
            self.rows = rows;
        }
        Ok(())
    }

    /// Does a line that is no call.
    fn prepare(&mut self, preparation: Preparation, words: Words) -> Result<(), NotUnderstood> {
        match preparation {
            Preparation::Row => self.row(words),
            Preparation::Forget => self.forget(words),
            Preparation::Memory => self.memory(words),
            Preparation::Poke => self.poke(words),
            Preparation::Unit => self.make_unit(words),
        }
    }

    /// Makes a call on the unit.
    fn call(
        &mut self,
        call: Call,
        mut words: Words,
        output: &mut impl Write,
    ) -> Result<(), Problem> {
        let unit = self.unit.as_mut().ok_or(NotUnderstood::NoUnit)?;
        let size = number_up_to(&mut words, LONGEST_TRAY)?;
        let tray = self.tray.get_mut(..size).unwrap_or_default();
        match call {
            Call::Power => {
                words.end()?;
                print_power(unit, tray, output)?;
            }
            Call::Feed => {
                words.bytes_into(&mut self.bytes)?;
                print_feed(unit, &self.bytes, tray, output)?;
            }
            Call::FeedAll => {
                words.bytes_into(&mut self.bytes)?;
                let mut rest = &self.bytes[..];
                while let Some(fed) = print_feed(unit, rest, tray, output)? {
                    if !fed.served {
                        break;
                    }
                    rest = rest.get(fed.taken..).unwrap_or_default();
                }
            }
            Call::Tick => {
                let count = number_up_to(&mut words, MOST_TICKS)?;
                words.end()?;
                print_ticks(unit, count, tray, output)?;
            }
        }
        Ok(())
    }
}

/// A line about what units are made from; it ends the unit before it.
enum Preparation {
    Row,
    Forget,
    Memory,
    Poke,
    Unit,
}

/// A line that is a call on the unit.
enum Call {
    Power,
    Feed,
    FeedAll,
    Tick,
}

enum Command {
    Prepare(Preparation),
    Call(Call),
}

fn command(word: &[u8]) -> Option<Command> {
    Some(match word {
        b"row" => Command::Prepare(Preparation::Row),
        b"forget" => Command::Prepare(Preparation::Forget),
        b"memory" => Command::Prepare(Preparation::Memory),
        b"poke" => Command::Prepare(Preparation::Poke),
        b"unit" => Command::Prepare(Preparation::Unit),
        b"p" => Command::Call(Call::Power),
        b"f" => Command::Call(Call::Feed),
        b"a" => Command::Call(Call::FeedAll),
        b"t" => Command::Call(Call::Tick),
        _ => return None,
    })
}

impl Program for Sessions {
    fn answer(
        &mut self,
        word: &[u8],
        words: Words,
        output: &mut impl Write,
    ) -> Result<(), Problem> {
        match command(word).ok_or(NotUnderstood::UnknownCommand)? {
            Command::Prepare(preparation) => {
                self.end_unit(output)?;
                self.prepare(preparation, words)?;
                Ok(())
            }
            Command::Call(call) => self.call(call, words, output),
        }
    }

    fn end(&mut self, output: &mut impl Write) -> io::Result<()> {
        self.end_unit(output)
    }
}

fn number_up_to(words: &mut Words, most: usize) -> Result<usize, NotUnderstood> {
    words.read(
        |word| lines::decimal_up_to(word, most),
        NotUnderstood::NotANumber,
    )
}

fn sensor_kind(word: &[u8]) -> Option<SensorKind> {
    match word {
        b"ramp" => Some(SensorKind::Ramp),
        b"rows" => Some(SensorKind::Rows),
        _ => None,
    }
}

fn store_kind(words: &mut Words) -> Result<StoreKind, NotUnderstood> {
    match words.next() {
        Some(b"cell") => {
            let rating = words.read(lines::decimal_32, NotUnderstood::NotANumber)?;
            let rating = usize::try_from(rating).map_err(|_| NotUnderstood::NotANumber)?;
            Ok(StoreKind::Cell { rating })
        }
        Some(b"page") => Ok(StoreKind::Page),
        _ => Err(NotUnderstood::NotAStore),
    }
}

fn print_power(unit: &mut Unit, tray: &mut [u8], output: &mut impl Write) -> io::Result<()> {
    match unit.power(tray) {
        Ok(written) => print_ok(output, tray, written),
        Err(refusal) => print_refusal(output, refusal),
    }
}

/// Feeds once; answers what the feed did, or nothing if it was refused.
fn print_feed(
    unit: &mut Unit,
    bytes: &[u8],
    tray: &mut [u8],
    output: &mut impl Write,
) -> io::Result<Option<Fed>> {
    match unit.feed(bytes, tray) {
        Ok(fed) => {
            let served = if fed.served { "yes" } else { "no" };
            write!(output, "ok {} {} {served}", fed.taken, fed.written)?;
            print_written(output, tray, fed.written)?;
            Ok(Some(fed))
        }
        Err(refusal) => print_refusal(output, refusal).map(|()| None),
    }
}

fn print_ticks(
    unit: &mut Unit,
    count: usize,
    tray: &mut [u8],
    output: &mut impl Write,
) -> io::Result<()> {
    for _ in 0..count {
        match unit.tick(tray) {
            Ok(0) => {}
            Ok(written) => print_ok(output, tray, written)?,
            Err(refusal) => return print_refusal(output, refusal),
        }
    }
    writeln!(output, "ticks {count}")
}

fn print_ok(output: &mut impl Write, tray: &[u8], written: usize) -> io::Result<()> {
    write!(output, "ok {written}")?;
    print_written(output, tray, written)
}

fn print_written(output: &mut impl Write, tray: &[u8], written: usize) -> io::Result<()> {
    print_spaced_hex(output, tray.get(..written).unwrap_or_default())?;
    writeln!(output)
}

fn print_refusal(output: &mut impl Write, refusal: Refusal) -> io::Result<()> {
    writeln!(output, "refused {}", refusal.number())
}

#[cfg(test)]
mod tests {
    use super::*;
    use crate::lines::{answer_all, Outcome};
    use std::io::BufReader;

    /// What is printed to standard output and to standard error.
    fn run(input: &str) -> (String, String) {
        let (mut output, mut errors) = (Vec::new(), Vec::new());
        let mut lines = BufReader::new(input.as_bytes());
        let outcome = answer_all(&mut lines, &mut output, &mut errors, &mut Sessions::new());
        let understood = matches!(outcome, Ok(Outcome::AllUnderstood));
        assert_eq!(understood, errors.is_empty());
        let text = |bytes| String::from_utf8(bytes).unwrap_or_default();
        (text(output), text(errors))
    }

    fn assert_output(input: &str, expected: &str) {
        assert_eq!(run(input), (expected.to_string(), String::new()));
    }

    fn assert_not_understood(line: &str, why: &str) {
        let (output, errors) = run(line);
        assert_eq!(errors, format!("line 1: {why}\n"), "{line}");
        assert_eq!(output, "");
    }

    #[test]
    fn example() {
        let input = "memory 141 FF\nunit MTi-3 01020304 ramp page\nt 2055 1\np 2054\np 2055\n\
            a 2055 FA FF 3F 00 C2 FA FF 84 02 00 05 76\n";
        let (output, errors) = run(input);
        assert_eq!(errors, "");
        let expected = "refused 1\nrefused 3\nok 5 FA FF 3E 00 C3\nok 5 0 yes\n\
            ok 7 5 yes FA FF 85 00 7C\nok 0 0 no\nleft 0\n\
            memory 00 0A 04 02 32 00 01 00 05 00 00 00 00 20 10 10 20 10 60 E0 20 00";
        assert!(output.starts_with(expected));
        let last = output.lines().last().unwrap_or_default();
        assert_eq!(last.split(' ').count(), 1 + 141);
    }

    #[test]
    fn words_that_are_wrong_missing_or_too_many() {
        let row = "row 2010 0 1 2 3 4 5 6 7 8 9";
        for (line, why) in [
            ("x", "unknown command"),
            ("Unit MTi-3", "unknown command"),
            ("p 2055", "no unit"),
            ("t", "no unit"),
            ("f zz", "no unit"),
            ("row", "not an identifier"),
            ("row 201 x", "not an identifier"),
            ("row 2010", "not a number"),
            ("row 2010 -1", "not a number"),
            ("row 2010 4294967296", "not a number"),
            ("row 2010 0 1 2 3 4 5 6 7 8", "not a number"),
            (
                "row 2010 0 1 2 3 4 5 6 7 8 -9223372036854775808",
                "not a number",
            ),
            (&format!("{row} 10"), "too many words"),
            ("forget it", "too many words"),
            ("memory", "not a number"),
            ("memory 100001 FF", "not a number"),
            ("memory 1", "not a byte"),
            ("memory 1 F", "not a byte"),
            ("memory 1 FF FF", "too many words"),
            ("poke", "not a number"),
            ("poke 4294967296 00", "not a number"),
            ("poke 0 00", "past the memory"),
            ("poke 4294967295 00", "past the memory"),
            ("poke 0 00 x", "not a byte"),
            ("poke 1", "past the memory"),
            ("unit", "not a product"),
            ("unit mti-3 x", "not a product"),
            ("unit MTi-3 0102030", "not an identifier"),
            ("unit MTi-3 010203040", "not an identifier"),
            ("unit MTi-3 01020304", "not a sensor"),
            ("unit MTi-3 01020304 Ramp page", "not a sensor"),
            ("unit MTi-3 01020304 ramp", "not a store"),
            ("unit MTi-3 01020304 ramp pages", "not a store"),
            ("unit MTi-3 01020304 ramp cell", "not a number"),
            ("unit MTi-3 01020304 ramp cell 4294967296", "not a number"),
            ("unit MTi-3 01020304 ramp page 1", "too many words"),
        ] {
            assert_not_understood(line, why);
        }
    }

    #[test]
    fn calls_that_are_not_understood_do_not_end_the_unit() {
        let unit = "unit MTi-3 01020304 ramp cell 7\np 2055\n";
        let wrong = "p\np 10001\np 1 1\nf\nf 1 x\na 1 1\nt 1\nt 1 1000001\nt 1 1 1\nx\n\n";
        let (output, errors) = run(&format!("{unit}{wrong}p 2055"));
        assert_eq!(output, "ok 5 FA FF 3E 00 C3\nrefused 2\nleft 7\n");
        let expected = "line 3: not a number\nline 4: not a number\nline 5: too many words\n\
            line 6: not a number\nline 7: not a byte\nline 8: not a byte\n\
            line 9: not a number\nline 10: not a number\nline 11: too many words\n\
            line 12: unknown command\n";
        assert_eq!(errors, expected);
    }

    #[test]
    fn units_end_at_lines_about_what_units_are_made_from() {
        for line in [
            "row 2010",
            "forget",
            "forget it",
            "memory 0 00",
            "poke",
            "unit",
        ] {
            let input = format!("unit MTi-3 01020304 rows cell 3\n{line}\nt 0 0\n");
            let (output, errors) = run(&input);
            assert_eq!(output, "left 3\n");
            assert!(errors.ends_with("line 3: no unit\n"));
        }
    }

    #[test]
    fn rows_and_memory_stay() {
        let unit = "unit MTi-3 00000000 rows page\n";
        let (output, errors) = run(&format!("memory 2 ab\n{unit}{unit}poke 1 cd\n{unit}"));
        assert_eq!(errors, "");
        let expected = "left 0\nmemory AB AB\nleft 0\nmemory AB AB\nleft 0\nmemory AB CD\n";
        assert_eq!(output, expected);

        // The list of outputs with E020 alone at 2000 Hz, and then Measurement.
        let calls = "p 2055\na 2055 FA FF 3F 00 C2 FA FF C0 04 E0 20 07 D0 66 FA FF 10 00 F1\n\
            t 2055 1\n";
        let unit = format!("unit MTi-3 00000000 rows cell 1\n{calls}");
        let row = "row E020 0 258 0 0 0 0 0 0 0 0\n";
        let (output, errors) = run(&format!("{row}{unit}{unit}forget\n{unit}"));
        assert_eq!(errors, "");
        let message = "ok 12 FA FF 36 07 E0 20 04 00 00 01 02 BD\n";
        assert_eq!(output.matches(message).count(), 2);
        assert_eq!(output.matches("ticks 1\n").count(), 3);
    }

    #[test]
    fn refused_ticks_end_their_line() {
        let unit = "unit MTi-3 01020304 ramp cell 0\n";
        assert_output(
            &format!("{unit}t 2055 5\nt 0 0"),
            "refused 1\nticks 0\nleft 0\n",
        );
        // Two frames inside a failed one: one is served, and one waits.
        let inside = "FA FF 00 00 01 FA FF 00 00 01";
        let input = format!(
            "{unit}p 2055\nf 2055 FA FF 01 0A {inside} 00\nt 2055 1\nf 2055 01 02\nt 2055 3\n"
        );
        let error = "FA FF 42 01 04 BA";
        let expected = format!(
            "ok 5 FA FF 3E 00 C3\nok 15 6 yes {error}\nrefused 4\nok 0 6 yes {error}\n\
            ticks 3\nleft 0\n"
        );
        assert_output(&input, &expected);
    }

    #[test]
    fn refused_feeds_end_their_line() {
        let unit = "unit MTi-3 01020304 ramp cell 0\n";
        let input = format!("{unit}a 2055 FA FF 3F 00 C2\np 2055\na 2054 FA FF 3F 00 C2\n");
        let expected = "refused 1\nok 5 FA FF 3E 00 C3\nrefused 3\nleft 0\n";
        assert_output(&input, expected);
    }
}
