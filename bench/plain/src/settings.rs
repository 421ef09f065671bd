//! The settings of a hub. Ranges are checked only where a wrong value would do harm here.
use crate::text::Code;
use std::collections::HashMap;

pub const MOST_CENTS: u64 = 99_999_999_999;
const LAST_MOMENT: u64 = (1 << 41) - 1;

pub struct Settings {
    pub codes: Vec<Code>,
    numbers: HashMap<Code, u8>,
    pub places: usize,
    pub fundings: usize,
    pub limit: u64,
    pub margin: u64,
    pub ahead: u64,
    pub ceiling: u64,
    pub base: u64,
}

impl Settings {
    /// Returns the settings of these words, which are the options of `inst_main run`.
    pub fn of(mut words: impl Iterator<Item = String>) -> Option<Settings> {
        let mut settings = Settings {
            codes: Vec::new(),
            numbers: HashMap::new(),
            places: 256,
            fundings: 256,
            limit: 10_000,
            margin: 0,
            ahead: 1_000,
            ceiling: MOST_CENTS,
            base: 0,
        };
        while let Some(word) = words.next() {
            let value = words.next()?;
            match word.as_str() {
                "--participants" => settings.name_all(&value)?,
                "--places" => settings.places = value.parse().ok()?,
                "--fundings" => settings.fundings = value.parse().ok()?,
                "--limit" => settings.limit = value.parse().ok()?,
                "--margin" => settings.margin = value.parse().ok()?,
                "--ahead" => settings.ahead = value.parse().ok()?,
                "--ceiling" => settings.ceiling = value.parse().ok()?,
                "--base" => settings.base = value.parse().ok()?,
                _ => return None,
            }
        }
        (!settings.codes.is_empty()).then_some(settings)
    }

    fn name_all(&mut self, text: &str) -> Option<()> {
        for part in text.split(',') {
            let code = Code::read(part).ok()?;
            let number = u8::try_from(self.codes.len()).ok()?;
            if self.numbers.insert(code, number).is_some() {
                return None;
            }
            self.codes.push(code);
        }
        Some(())
    }

    pub fn number_of(&self, code: &Code) -> Option<u8> {
        self.numbers.get(code).copied()
    }

    pub fn is_moment(&self, millis: u64) -> bool {
        millis >= self.base && millis - self.base <= LAST_MOMENT
    }
}
