//! The hash over many bytes, and the row of numbers that many readings and much noise are
//! made from (docs/BENCH.md).

/// The hash of all bytes added so far, in their order.
#[derive(Debug, Clone, Copy, PartialEq, Eq)]
pub struct Hash(u64);

impl Hash {
    /// The hash of no bytes.
    pub const START: Hash = Hash(14695981039346656037);

    pub fn add(&mut self, bytes: &[u8]) {
        self.0 = bytes.iter().fold(self.0, |hash, &byte| {
            (hash ^ u64::from(byte)).wrapping_mul(1099511628211)
        });
    }

    pub fn value(self) -> u64 {
        self.0
    }
}

/// The number behind a number in the row.
pub fn next_number(number: u64) -> u64 {
    number
        .wrapping_mul(6364136223846793005)
        .wrapping_add(1442695040888963407)
}

#[cfg(test)]
mod tests {
    use super::*;

    fn hash(bytes: &[u8]) -> u64 {
        let mut hash = Hash::START;
        hash.add(bytes);
        hash.value()
    }

    #[test]
    fn known_values() {
        assert_eq!(hash(b""), 0xCBF2_9CE4_8422_2325);
        assert_eq!(hash(b"a"), 0xAF63_DC4C_8601_EC8C);
        assert_eq!(hash(b"foobar"), 0x8594_4171_F739_67E8);
    }

    #[test]
    fn cuts_make_no_difference() {
        let mut cut = Hash::START;
        for piece in [&b"fo"[..], b"", b"oba", b"r"] {
            cut.add(piece);
        }
        assert_eq!(cut.value(), hash(b"foobar"));
    }

    #[test]
    fn numbers_of_the_row() {
        assert_eq!(next_number(0), 1442695040888963407);
        assert_eq!(next_number(1), 7806831264735756412);
        assert_eq!(next_number(u64::MAX), 13525302890751722018);
    }
}
