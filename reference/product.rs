//! The products, and what a settings record of each may hold (docs/DATA.md,
//! docs/SETTINGS.md).

use std::ops::RangeInclusive;

#[derive(Debug, Clone, Copy, PartialEq, Eq)]
pub enum Product {
    Mti3,
    Mti30,
    Mti300,
    MtiG710,
}

impl Product {
    pub const ALL: [Product; 4] = [
        Product::Mti3,
        Product::Mti30,
        Product::Mti300,
        Product::MtiG710,
    ];

    pub fn name(self) -> &'static str {
        match self {
            Product::Mti3 => "MTi-3",
            Product::Mti30 => "MTi-30",
            Product::Mti300 => "MTi-300",
            Product::MtiG710 => "MTi-G-710",
        }
    }

    pub fn named(name: &[u8]) -> Option<Product> {
        Product::ALL
            .into_iter()
            .find(|product| product.name().as_bytes() == name)
    }

    /// The filter profiles that there are; the first is that of the factory settings.
    pub fn profiles(self) -> RangeInclusive<u8> {
        match self {
            Product::Mti3 => 50..=54,
            Product::Mti30 | Product::Mti300 => 39..=43,
            Product::MtiG710 => 1..=5,
        }
    }

    /// The option flags that may be set.
    pub fn flags(self) -> u32 {
        match self {
            Product::Mti3 => 0x01 | 0x02 | 0x10 | 0x80,
            Product::Mti30 | Product::Mti300 => 0x10 | 0x80,
            Product::MtiG710 => 0x04 | 0x10 | 0x80,
        }
    }

    /// Whether the messages ReqErrorMode and SetErrorMode are allowed.
    pub fn has_error_mode_message(self) -> bool {
        self != Product::Mti3
    }
}

#[cfg(test)]
mod tests {
    use super::*;

    #[test]
    fn names() {
        for product in Product::ALL {
            assert_eq!(Product::named(product.name().as_bytes()), Some(product));
        }
        for name in ["", "MTi", "mti-3", "MTi-3 ", "MTi-710"] {
            assert_eq!(Product::named(name.as_bytes()), None);
        }
    }
}
