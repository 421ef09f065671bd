//! Short texts, stored in the value itself.
use crate::fault::Fault;
use std::hash::{Hash, Hasher};

/// A text of at most `N` ASCII characters.
#[derive(Clone, Copy, PartialEq, Eq)]
pub struct Text<const N: usize> {
    length: u8,
    bytes: [u8; N],
}

pub type Ident = Text<35>;
pub type Code = Text<11>;
pub type Reason = Text<4>;

impl<const N: usize> Text<N> {
    fn new(text: &str) -> Self {
        let mut bytes = [0; N];
        bytes[..text.len()].copy_from_slice(text.as_bytes());
        Text {
            length: text.len() as u8,
            bytes,
        }
    }

    pub fn as_str(&self) -> &str {
        // The bytes come from a `str`, whole.
        unsafe { std::str::from_utf8_unchecked(&self.bytes[..usize::from(self.length)]) }
    }
}

impl<const N: usize> Hash for Text<N> {
    fn hash<H: Hasher>(&self, state: &mut H) {
        self.bytes[..usize::from(self.length)].hash(state);
    }
}

fn is_code_character(byte: u8) -> bool {
    byte.is_ascii_uppercase() || byte.is_ascii_digit()
}

fn is_identifier_character(byte: u8) -> bool {
    byte.is_ascii_alphanumeric() || b"/-?:().,'+ ".contains(&byte)
}

impl Ident {
    pub fn read(text: &str) -> Result<Ident, Fault> {
        let is_short = (1..=35).contains(&text.len());
        if is_short && text.bytes().all(is_identifier_character) {
            Ok(Text::new(text))
        } else {
            Err(Fault::BadIdentifier)
        }
    }
}

impl Code {
    pub fn read(text: &str) -> Result<Code, Fault> {
        if matches!(text.len(), 8 | 11) && text.bytes().all(is_code_character) {
            Ok(Text::new(text))
        } else {
            Err(Fault::BadField)
        }
    }
}

impl Reason {
    pub fn read(text: &str) -> Result<Reason, Fault> {
        if text.len() == 4 && text.bytes().all(is_code_character) {
            Ok(Text::new(text))
        } else {
            Err(Fault::BadField)
        }
    }
}
