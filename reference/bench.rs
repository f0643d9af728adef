//! The program `bench`: one unit, fed and ticked (docs/BENCH.md).

use std::io::{self, Write};

use crate::frames::{self, Front, LONGEST_FRAME};
use crate::lines::{self, print_spaced_hex, NotUnderstood, Problem, Program, Words};
use crate::product::Product;
use crate::sensor::Sensor;
use crate::store::{Page, Store};
use crate::unit::Unit;

const DEVICE_ID: [u8; 4] = [1, 2, 3, 4];
/// The bytes of the page: four slots.
const PAGE_SIZE: usize = 564;
const PAGE_FILL: u8 = 0xFF;

pub struct Bench {
    unit: Unit,
    tray: [u8; LONGEST_FRAME],
    /// The bytes of a `b` line; kept for its memory alone.
    bytes: Vec<u8>,
}

impl Bench {
    pub fn new() -> Bench {
        let store = Store::Page(Page::over(vec![PAGE_FILL; PAGE_SIZE]));
        Bench {
            unit: Unit::new(Product::Mti3, DEVICE_ID, store, Sensor::Ramp),
            tray: [0; LONGEST_FRAME],
            bytes: Vec::new(),
        }
    }

    /// Feeds the bytes of the line until all are taken and no whole frame waits.
    fn feed(&mut self, output: &mut impl Write) -> io::Result<()> {
        let mut rest = &self.bytes[..];
        // A unit that is powered refuses no feed with a tray of this length.
        while let Ok(fed) = self.unit.feed(rest, &mut self.tray) {
            print_frames(output, self.tray.get(..fed.written))?;
            if !fed.served {
                break;
            }
            rest = rest.get(fed.taken..).unwrap_or_default();
        }
        Ok(())
    }

    fn tick(&mut self, count: u32, output: &mut impl Write) -> io::Result<()> {
        for _ in 0..count {
            // No whole frame waits behind a `b` line, so no tick is refused.
            if let Ok(written) = self.unit.tick(&mut self.tray) {
                print_frames(output, self.tray.get(..written))?;
            }
        }
        Ok(())
    }
}

impl Program for Bench {
    fn begin(&mut self, output: &mut impl Write) -> io::Result<()> {
        match self.unit.power(&mut self.tray) {
            Ok(written) => print_frames(output, self.tray.get(..written)),
            Err(_) => Ok(()),
        }
    }

    fn answer(
        &mut self,
        command: &[u8],
        mut words: Words,
        output: &mut impl Write,
    ) -> Result<(), Problem> {
        match command {
            b"b" => {
                words.bytes_into(&mut self.bytes)?;
                self.feed(output)?;
            }
            b"t" => {
                let count = words.read(lines::decimal_32, NotUnderstood::NotANumber)?;
                words.end().map_err(|_| NotUnderstood::NotANumber)?;
                self.tick(count, output)?;
            }
            _ => return Err(NotUnderstood::UnknownCommand.into()),
        }
        Ok(())
    }

    fn end(&mut self, output: &mut impl Write) -> io::Result<()> {
        writeln!(output, "left {}", self.unit.store().writes_left())
    }
}

/// Prints the frames that stand one behind the other, each in a line of its own.
fn print_frames(output: &mut impl Write, written: Option<&[u8]>) -> io::Result<()> {
    let mut rest = written.unwrap_or_default();
    while let Front::Whole(size) = frames::front(rest) {
        let (frame, behind) = rest.split_at(size);
        print_hex(output, frame)?;
        rest = behind;
    }
    Ok(())
}

/// Prints a line of bytes, with one space between.
fn print_hex(output: &mut impl Write, bytes: &[u8]) -> io::Result<()> {
    if let Some((first, rest)) = bytes.split_first() {
        write!(output, "{first:02X}")?;
        print_spaced_hex(output, rest)?;
    }
    writeln!(output)
}

#[cfg(test)]
mod tests {
    use super::*;
    use crate::lines::answer_all;
    use std::io::BufReader;

    /// What is printed to standard output and to standard error.
    fn run(input: &str) -> (String, String) {
        let (mut output, mut errors) = (Vec::new(), Vec::new());
        let mut lines = BufReader::new(input.as_bytes());
        assert!(answer_all(&mut lines, &mut output, &mut errors, &mut Bench::new()).is_ok());
        let text = |bytes| String::from_utf8(bytes).unwrap_or_default();
        (text(output), text(errors))
    }

    #[test]
    fn no_lines() {
        assert_eq!(
            run(""),
            ("FA FF 3E 00 C3\nleft 4\n".to_string(), String::new())
        );
    }

    #[test]
    fn example() {
        let (output, errors) = run("b FA FF 3F 00 C2\nb FA FF 00 00 01\n");
        let expected = "FA FF 3E 00 C3\nFA FF 01 04 01 02 03 04 F2\nleft 4\n";
        assert_eq!((output.as_str(), errors.as_str()), (expected, ""));
    }

    #[test]
    fn frames_of_one_call_stand_in_lines_of_their_own() {
        let (output, _) = run("b FA FF 3F 00 C2 FA FF 84 02 00 05 76 FA FF 40 00 C1\n");
        let expected = "FA FF 3E 00 C3\nFA FF 85 00 7C\nFA FF 41 00 C0\nFA FF 3E 00 C3\nleft 3\n";
        assert_eq!(output, expected);
    }

    #[test]
    fn ticks() {
        let (output, errors) = run("t 1000\nt 21\n");
        let lines: Vec<&str> = output.lines().collect();
        let [wake_up, configuration, first, second, left] = lines[..] else {
            panic!("{output}");
        };
        assert_eq!(
            (wake_up, left, errors.as_str()),
            ("FA FF 3E 00 C3", "left 4", "")
        );
        assert!(configuration.starts_with("FA FF 0D 76 01 02 03 04 00"));
        assert!(configuration.ends_with(" 43"));
        let expected = "FA FF 36 26 20 10 10 C7 00 00 00 C7 00 00 00 C7 00 00 00 C7 00 00 00 \
            10 20 02 00 00 10 60 04 00 00 00 00 E0 20 04 00 00 00 00 9F";
        assert_eq!(first, expected);
        let expected = "FA FF 36 26 20 10 10 C6 FF D8 00 C6 FF B0 00 C6 FF 88 00 C6 FF 60 00 \
            10 20 02 00 01 10 60 04 00 00 00 64 E0 20 04 00 00 00 14 BE";
        assert_eq!(second, expected);
    }

    #[test]
    fn lines_not_understood() {
        let (output, errors) = run("t\nt 1 2\nt 4294967296\nt x y\nb FA x\nx\nT 1\n");
        assert_eq!(output, "FA FF 3E 00 C3\nleft 4\n");
        let expected = "line 1: not a number\nline 2: not a number\nline 3: not a number\n\
            line 4: not a number\nline 5: not a byte\nline 6: unknown command\n\
            line 7: unknown command\n";
        assert_eq!(errors, expected);
    }
}
