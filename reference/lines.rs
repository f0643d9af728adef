//! What all programs have in common: lines of input, words, hexadecimal bytes and decimal
//! numbers (docs/BENCH.md).

use std::io::{self, BufRead, BufReader, Read, Write};

/// Why a line is not understood.
#[derive(Debug, Clone, Copy, PartialEq, Eq)]
pub enum NotUnderstood {
    UnknownCommand,
    NoUnit,
    NotAByte,
    NotAPacket,
    NotANumber,
    NotAnIdentifier,
    NotAProduct,
    NotASensor,
    NotAStore,
    PastTheMemory,
    TooManyWords,
}

impl NotUnderstood {
    fn why(self) -> &'static str {
        match self {
            NotUnderstood::UnknownCommand => "unknown command",
            NotUnderstood::NoUnit => "no unit",
            NotUnderstood::NotAByte => "not a byte",
            NotUnderstood::NotAPacket => "not a packet",
            NotUnderstood::NotANumber => "not a number",
            NotUnderstood::NotAnIdentifier => "not an identifier",
            NotUnderstood::NotAProduct => "not a product",
            NotUnderstood::NotASensor => "not a sensor",
            NotUnderstood::NotAStore => "not a store",
            NotUnderstood::PastTheMemory => "past the memory",
            NotUnderstood::TooManyWords => "too many words",
        }
    }
}

/// Why there is no answer to a line.
#[derive(Debug)]
pub enum Problem {
    NotUnderstood(NotUnderstood),
    Output(io::Error),
}

impl From<NotUnderstood> for Problem {
    fn from(reason: NotUnderstood) -> Problem {
        Problem::NotUnderstood(reason)
    }
}

impl From<io::Error> for Problem {
    fn from(error: io::Error) -> Problem {
        Problem::Output(error)
    }
}

/// What became of the input as a whole.
#[derive(Debug, Clone, Copy, PartialEq, Eq)]
pub enum Outcome {
    AllUnderstood,
    SomeNotUnderstood,
}

/// A program that answers lines.
pub trait Program {
    /// What is printed before the first line is read.
    fn begin(&mut self, _output: &mut impl Write) -> io::Result<()> {
        Ok(())
    }

    /// What is printed for a line: its first word, and the words after it.
    fn answer(
        &mut self,
        command: &[u8],
        words: Words,
        output: &mut impl Write,
    ) -> Result<(), Problem>;

    /// What is printed behind the last line.
    fn end(&mut self, _output: &mut impl Write) -> io::Result<()> {
        Ok(())
    }
}

/// Runs a program on all lines of the input. What it has printed goes out before it waits
/// for input.
pub fn answer_all(
    input: &mut BufReader<impl Read>,
    output: &mut impl Write,
    errors: &mut impl Write,
    program: &mut impl Program,
) -> io::Result<Outcome> {
    let mut outcome = Outcome::AllUnderstood;
    let mut line = Vec::new();
    let mut number: u64 = 0;
    program.begin(output)?;
    loop {
        if !input.buffer().contains(&b'\n') {
            output.flush()?;
        }
        line.clear();
        if input.read_until(b'\n', &mut line)? == 0 {
            break;
        }
        number += 1;
        let mut words = Words::of(content(&line));
        let Some(command) = words.next() else {
            continue;
        };
        match program.answer(command, words, output) {
            Ok(()) => {}
            Err(Problem::NotUnderstood(reason)) => {
                outcome = Outcome::SomeNotUnderstood;
                writeln!(errors, "line {number}: {}", reason.why())?;
            }
            Err(Problem::Output(error)) => return Err(error),
        }
    }
    program.end(output)?;
    output.flush()?;
    Ok(outcome)
}

/// A line without its end: a line feed, and one carriage return in front of it.
fn content(line: &[u8]) -> &[u8] {
    let line = line.strip_suffix(b"\n").unwrap_or(line);
    line.strip_suffix(b"\r").unwrap_or(line)
}

/// The words of a line; spaces around them are no part of any.
#[derive(Debug, Clone)]
pub struct Words<'a> {
    rest: &'a [u8],
}

impl<'a> Words<'a> {
    pub fn of(line: &'a [u8]) -> Words<'a> {
        Words { rest: line }
    }

    /// The next word, or the empty one, which is no byte, number or name, if there is none.
    /// So a missing word is named like a wrong one.
    fn next_or_empty(&mut self) -> &'a [u8] {
        self.next().unwrap_or_default()
    }

    /// The next word as what `read` takes it for.
    pub fn read<T>(
        &mut self,
        read: impl FnOnce(&[u8]) -> Option<T>,
        otherwise: NotUnderstood,
    ) -> Result<T, NotUnderstood> {
        read(self.next_or_empty()).ok_or(otherwise)
    }

    /// All words that are left as bytes, put in place of what the buffer holds.
    pub fn bytes_into(&mut self, buffer: &mut Vec<u8>) -> Result<(), NotUnderstood> {
        buffer.clear();
        for word in self {
            buffer.push(byte(word).ok_or(NotUnderstood::NotAByte)?);
        }
        Ok(())
    }

    /// Asks that no word is left.
    pub fn end(&mut self) -> Result<(), NotUnderstood> {
        match self.next() {
            None => Ok(()),
            Some(_) => Err(NotUnderstood::TooManyWords),
        }
    }
}

impl<'a> Iterator for Words<'a> {
    type Item = &'a [u8];

    fn next(&mut self) -> Option<&'a [u8]> {
        let spaces = self.rest.iter().take_while(|&&byte| byte == b' ').count();
        let rest = self.rest.get(spaces..)?;
        let size = rest.iter().take_while(|&&byte| byte != b' ').count();
        let (word, rest) = rest.split_at(size);
        self.rest = rest;
        (!word.is_empty()).then_some(word)
    }
}

/// The bytes that the words are, one pair of hexadecimal digits each.
pub fn bytes(words: &[&[u8]]) -> Result<Vec<u8>, NotUnderstood> {
    words
        .iter()
        .map(|word| byte(word).ok_or(NotUnderstood::NotAByte))
        .collect()
}

/// The bytes that a word of pairs of hexadecimal digits is.
pub fn bytes_in_one(word: &[u8]) -> Option<Vec<u8>> {
    word.chunks(2).map(byte).collect()
}

/// The byte that a pair of hexadecimal digits is.
pub fn byte(word: &[u8]) -> Option<u8> {
    match *word {
        [high, low] => Some(16 * digit(high)? + digit(low)?),
        _ => None,
    }
}

/// The value of a hexadecimal digit, upper or lower case.
fn digit(character: u8) -> Option<u8> {
    match character {
        b'0'..=b'9' => Some(character - b'0'),
        b'A'..=b'F' => Some(character - b'A' + 10),
        b'a'..=b'f' => Some(character - b'a' + 10),
        _ => None,
    }
}

/// The number below 2^64 that a word of decimal digits is.
pub fn decimal(word: &[u8]) -> Option<u64> {
    if word.is_empty() {
        return None;
    }
    word.iter().try_fold(0_u64, |number, &character| {
        let value = character.is_ascii_digit().then(|| character - b'0')?;
        number.checked_mul(10)?.checked_add(u64::from(value))
    })
}

/// The number below 2^32 that a word of decimal digits is.
pub fn decimal_32(word: &[u8]) -> Option<u32> {
    decimal(word).and_then(|number| u32::try_from(number).ok())
}

/// The number up to `most` that a word of decimal digits is.
pub fn decimal_up_to(word: &[u8], most: usize) -> Option<usize> {
    let number = usize::try_from(decimal(word)?).ok()?;
    (number <= most).then_some(number)
}

/// The bytes that a word of exactly so many pairs of hexadecimal digits is.
pub fn bytes_of_pairs<const N: usize>(word: &[u8]) -> Option<[u8; N]> {
    let mut bytes = [0; N];
    if word.len() != 2 * N {
        return None;
    }
    for (place, pair) in bytes.iter_mut().zip(word.chunks(2)) {
        *place = byte(pair)?;
    }
    Some(bytes)
}

/// The number that a word of decimal digits is, with a minus sign in front or without. The
/// digits stand for a number below 2^63.
pub fn signed_decimal(word: &[u8]) -> Option<i64> {
    let magnitude = |digits| decimal(digits).and_then(|number| i64::try_from(number).ok());
    match word.strip_prefix(b"-") {
        Some(digits) => magnitude(digits).map(|number| -number),
        None => magnitude(word),
    }
}

/// The bytes as upper-case pairs with nothing between.
pub fn hex(bytes: &[u8]) -> String {
    bytes.iter().flat_map(|&byte| pair(byte)).collect()
}

/// The bytes as upper-case pairs, each with one space in front.
pub fn spaced_hex(bytes: &[u8]) -> String {
    let mut text = String::with_capacity(3 * bytes.len());
    for &byte in bytes {
        text.push(' ');
        text.extend(pair(byte));
    }
    text
}

/// Prints the bytes as upper-case pairs, each with one space in front.
pub fn print_spaced_hex(output: &mut impl Write, bytes: &[u8]) -> io::Result<()> {
    const AT_ONCE: usize = 64;
    let mut text = [b' '; 3 * AT_ONCE];
    for some in bytes.chunks(AT_ONCE) {
        for (place, &byte) in text.chunks_exact_mut(3).zip(some) {
            if let [_, high, low] = place {
                *high = digit_byte(byte >> 4);
                *low = digit_byte(byte & 0x0F);
            }
        }
        output.write_all(&text[..3 * some.len()])?;
    }
    Ok(())
}

fn pair(byte: u8) -> [char; 2] {
    [byte >> 4, byte & 0x0F].map(|value| char::from(digit_byte(value)))
}

fn digit_byte(value: u8) -> u8 {
    match value {
        0..=9 => b'0' + value,
        _ => b'A' + (value - 10),
    }
}

#[cfg(test)]
mod tests {
    use super::*;

    /// Knows the command `b` only, and prints the bytes after it.
    struct Echo;

    impl Program for Echo {
        fn answer(
            &mut self,
            command: &[u8],
            mut words: Words,
            output: &mut impl Write,
        ) -> Result<(), Problem> {
            if command != b"b" {
                return Err(NotUnderstood::UnknownCommand.into());
            }
            let mut bytes = Vec::new();
            words.bytes_into(&mut bytes)?;
            writeln!(output, "b{}", spaced_hex(&bytes))?;
            Ok(())
        }
    }

    fn assert_run(input: &[u8], expected: &str, expected_errors: &str) {
        let (mut output, mut errors) = (Vec::new(), Vec::new());
        let mut input = BufReader::new(input);
        let outcome = answer_all(&mut input, &mut output, &mut errors, &mut Echo);
        assert_eq!(String::from_utf8_lossy(&output), expected);
        assert_eq!(String::from_utf8_lossy(&errors), expected_errors);
        let understood = expected_errors.is_empty();
        assert_eq!(matches!(outcome, Ok(Outcome::AllUnderstood)), understood);
        assert_eq!(
            matches!(outcome, Ok(Outcome::SomeNotUnderstood)),
            !understood
        );
    }

    #[test]
    fn every_byte_is_read_as_it_is_printed() {
        for value in 0..=0xFF {
            assert_eq!(byte(format!("{value:02X}").as_bytes()), Some(value));
            assert_eq!(byte(format!("{value:02x}").as_bytes()), Some(value));
            assert_eq!(spaced_hex(&[value]), format!(" {value:02X}"));
        }
    }

    #[test]
    fn bytes_are_printed_as_they_are_shown() {
        for count in [0, 1, 63, 64, 65, 128, 1000] {
            let bytes: Vec<u8> = (0..count).map(|number: u32| (number % 251) as u8).collect();
            let mut output = Vec::new();
            assert!(print_spaced_hex(&mut output, &bytes).is_ok());
            assert_eq!(String::from_utf8_lossy(&output), spaced_hex(&bytes));
        }
    }

    #[test]
    fn words_and_limits() {
        let words: Vec<&[u8]> = Words::of(b"  a  bc d\t ").collect();
        assert_eq!(words, [&b"a"[..], b"bc", b"d\t"]);
        assert_eq!(Words::of(b"   ").count(), 0);
        assert_eq!(decimal_32(b"4294967295"), Some(u32::MAX));
        assert_eq!(decimal_32(b"4294967296"), None);
        assert_eq!(decimal_up_to(b"10000", 10_000), Some(10_000));
        assert_eq!(decimal_up_to(b"10001", 10_000), None);
        assert_eq!(bytes_of_pairs(b"a01F"), Some([0xA0, 0x1F]));
        for word in ["", "a01", "a01f0", "a01f00", "g01f"] {
            assert_eq!(bytes_of_pairs::<2>(word.as_bytes()), None);
        }
    }

    #[test]
    fn only_pairs_of_hexadecimal_digits_are_bytes() {
        let mut pairs = 0;
        for high in 0..=0xFF {
            for low in 0..=0xFF {
                pairs += usize::from(byte(&[high, low]).is_some());
            }
        }
        assert_eq!(pairs, 22 * 22);
        for word in ["", "F", "FAF", "0xFA", "+F", "G0"] {
            assert_eq!(byte(word.as_bytes()), None);
        }
    }

    #[test]
    fn bytes_in_one_word() {
        assert_eq!(bytes_in_one(b""), Some(vec![]));
        assert_eq!(bytes_in_one(b"fA0910"), Some(vec![0xFA, 9, 0x10]));
        for word in ["F", "FA1", "FA 1", "0xFA", "+F"] {
            assert_eq!(bytes_in_one(word.as_bytes()), None);
        }
        assert_eq!(hex(&[]), "");
        assert_eq!(hex(&[0xFA, 9, 0x10]), "FA0910");
    }

    #[test]
    fn decimal_numbers() {
        for (word, number) in [
            ("0", 0),
            ("007", 7),
            ("18446744073709551615", u64::MAX),
            ("000000000000000000000000000001", 1),
        ] {
            assert_eq!(decimal(word.as_bytes()), Some(number));
        }
        let others = ["", "-0", "-1", "+1", "1a", "0x1", "1.0", "1_0", "\u{663}"];
        for word in others.iter().chain(&["18446744073709551616", "1\t"]) {
            assert_eq!(decimal(word.as_bytes()), None, "{word}");
        }
    }

    #[test]
    fn signed_decimal_numbers() {
        for (word, number) in [
            ("0", 0),
            ("-0", 0),
            ("-01", -1),
            ("9223372036854775807", i64::MAX),
            ("-9223372036854775807", -i64::MAX),
        ] {
            assert_eq!(signed_decimal(word.as_bytes()), Some(number));
        }
        let others = ["", "-", "--1", "+1", "-+1", "1-", "- 1", "\u{2212}1"];
        let too_many = ["9223372036854775808", "-9223372036854775808"];
        for word in others.iter().chain(&too_many) {
            assert_eq!(signed_decimal(word.as_bytes()), None, "{word}");
        }
    }

    #[test]
    fn ends_of_lines() {
        assert_run(b"", "", "");
        assert_run(b"b 01", "b 01\n", "");
        assert_run(b"b 01\r", "b 01\n", "");
        assert_run(b"b 01\r\nb\n", "b 01\nb\n", "");
        assert_run(b"b 01\r\r\n", "", "line 1: not a byte\n");
    }

    #[test]
    fn spaces() {
        assert_run(b"\n  \n\r\n \r\n", "", "");
        assert_run(b"  b   0a  FF  \n", "b 0A FF\n", "");
        assert_run(
            b"b\t01\n\t\n",
            "",
            "line 1: unknown command\nline 2: unknown command\n",
        );
        assert_run(b"b 01\t02\n", "", "line 1: not a byte\n");
    }

    #[test]
    fn lines_not_understood_are_passed() {
        let input = b"x\n\nb 01 0\nB 01\n\xFF\xFE zz\nb \xC3\x28\nb \0\0\nb 02\n";
        let errors = "line 1: unknown command\nline 3: not a byte\nline 4: unknown command\n\
            line 5: unknown command\nline 6: not a byte\nline 7: not a byte\n";
        assert_run(input, "b 02\n", errors);
    }
}
