//! NUMBERs: decimal, or hexadecimal with `0x`.

use super::words::quoted;

/// A number that a line asks for: its name in the format, and the greatest that may stand there.
pub struct Number {
    pub name: &'static str,
    pub max: u64,
}

impl Number {
    pub fn any(name: &'static str) -> Number {
        Number::up_to(name, u64::MAX)
    }

    pub fn up_to(name: &'static str, max: u64) -> Number {
        Number { name, max }
    }

    /// The number that a word is, or what is wrong with it.
    pub fn read(&self, word: &str) -> Result<u64, String> {
        let value = number(word).map_err(|wrong| format!("{}: {wrong}", self.name))?;
        if value > self.max {
            let word = quoted(word);
            return Err(format!("{}: {word} is above {}", self.name, self.max));
        }
        Ok(value)
    }
}

/// The NUMBER that a word is, or what is wrong with it.
pub fn number(word: &str) -> Result<u64, String> {
    let (digits, radix) = match word.strip_prefix("0x") {
        Some(digits) => (digits, 16),
        None => (word, 10),
    };
    // from_str_radix takes a sign, which is none of a NUMBER's characters.
    if digits.is_empty() || !digits.chars().all(|c| c.is_digit(radix)) {
        let word = quoted(word);
        return Err(format!(
            "{word} is no number (decimal, or hexadecimal with 0x)"
        ));
    }
    u64::from_str_radix(digits, radix).map_err(|_| format!("{} is above 2^64 - 1", quoted(word)))
}

/// The BYTE that a word is, or what is wrong with it.
pub fn byte(word: &str) -> Result<u8, String> {
    let value = Number::up_to("BYTE", 255).read(word)?;
    Ok(value as u8)
}
