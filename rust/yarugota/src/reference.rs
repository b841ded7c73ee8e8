//! References.

use std::fmt;

/// A record number, a path's LKxx, or END.
///
/// Shown as the console of document 01 prints it: as its four characters where
/// it is LKxx or END., else as a number.
#[derive(Clone, Copy, PartialEq, Eq, PartialOrd, Ord, Hash)]
pub struct Reference(u32);

impl Reference {
    /// A read found no such record.
    pub const END: Reference = Reference(0x454E_442E);

    /// A record number. Each set counts its records from 1; 0 begins a sweep.
    pub const fn number(number: u32) -> Reference {
        Reference(number)
    }

    /// LKxx, from the path's letters xx.
    pub const fn link(letters: [u8; 2]) -> Reference {
        let [x, y] = letters;
        Reference(u32::from_be_bytes([b'L', b'K', x, y]))
    }

    /// The record number, if it is neither LKxx nor END.; no record number
    /// reaches either.
    pub fn record(self) -> Option<u32> {
        let named = self == Reference::END || self.letters().is_some();
        (!named).then_some(self.0)
    }

    /// The letters of LKxx.
    pub fn letters(self) -> Option<[u8; 2]> {
        let letter = |byte: u8| byte.is_ascii_uppercase() || byte.is_ascii_digit();
        match self.0.to_be_bytes() {
            [b'L', b'K', x, y] if letter(x) && letter(y) => Some([x, y]),
            _ => None,
        }
    }

    /// As the C entry takes it: the number, or the four characters from the
    /// highest byte down.
    pub const fn bits(self) -> u32 {
        self.0
    }

    /// From such bits, whatever they are: the store judges them.
    pub const fn from_bits(bits: u32) -> Reference {
        Reference(bits)
    }
}

impl fmt::Display for Reference {
    fn fmt(&self, f: &mut fmt::Formatter) -> fmt::Result {
        match self.record() {
            Some(number) => write!(f, "{number}"),
            None => write!(f, "{}", self.0.to_be_bytes().escape_ascii()),
        }
    }
}

impl fmt::Debug for Reference {
    fn fmt(&self, f: &mut fmt::Formatter) -> fmt::Result {
        write!(f, "{self}")
    }
}

#[cfg(test)]
mod tests {
    use super::Reference;

    #[test]
    fn shown_as_the_console_prints_it() {
        let shown = |bits| Reference::from_bits(bits).to_string();
        assert_eq!(shown(0), "0");
        assert_eq!(shown(65_535), "65535");
        assert_eq!(shown(0x454E_442E), "END.");
        assert_eq!(shown(0x4C4B_5054), "LKPT");
        assert_eq!(shown(0x4C4B_7074), (0x4C4B_7074_u32).to_string());
    }

    #[test]
    fn three_kinds() {
        assert_eq!(Reference::number(7).record(), Some(7));
        assert_eq!(Reference::END.record(), None);
        assert_eq!(Reference::link(*b"Z9").record(), None);
        assert_eq!(Reference::link(*b"Z9").letters(), Some(*b"Z9"));
    }
}
