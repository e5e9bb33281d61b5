//! A line cut into words, with comments and the expectation taken off.

use super::Fault;

#[derive(Clone, Debug, PartialEq, Eq)]
pub struct Word {
    /// Where it begins, in characters from 1.
    pub column: usize,
    pub form: Form,
}

#[derive(Clone, Debug, PartialEq, Eq)]
pub enum Form {
    Plain(String),
    /// The bytes between the quotes, escapes undone.
    Text(Vec<u8>),
}

/// What a line consists of.
#[derive(Clone, Debug, Default, PartialEq, Eq)]
pub struct Cut {
    pub words: Vec<Word>,
    /// The column of `=>`, and the text behind it with its runs of blanks made one.
    pub expected: Option<(usize, String)>,
    /// The column behind the last word, where a missing word is missed.
    pub end: usize,
}

pub fn is_blank(c: char) -> bool {
    c == ' ' || c == '\t'
}

/// Cuts a line; a fault of the cutting itself ends the line.
pub fn cut(number: usize, line: &str) -> Result<Cut, Fault> {
    let characters: Vec<char> = line.chars().collect();
    let mut cutter = Cutter {
        number,
        characters,
        at: 0,
    };
    let mut cut = Cut {
        end: 1,
        ..Cut::default()
    };
    loop {
        cutter.skip_blanks();
        let column = cutter.at + 1;
        let form = match cutter.peek() {
            None | Some('#') => return Ok(cut),
            Some('"') => Form::Text(cutter.text()?),
            Some(_) => Form::Plain(cutter.plain()?),
        };
        if let Form::Plain(word) = &form {
            if word == "=>" {
                cut.expected = Some((column, cutter.expectation()?));
                return Ok(cut);
            }
            if word.starts_with("=>") {
                return Err(cutter.fault(column + 1, "a blank is missing behind =>"));
            }
        }
        cut.words.push(Word { column, form });
        cut.end = cutter.at + 1;
        cutter.blank_behind_word()?;
    }
}

struct Cutter {
    number: usize,
    characters: Vec<char>,
    at: usize,
}

impl Cutter {
    fn peek(&self) -> Option<char> {
        self.characters.get(self.at).copied()
    }

    fn next(&mut self) -> Option<char> {
        let next = self.peek();
        self.at += 1;
        next
    }

    fn fault(&self, at: usize, message: impl Into<String>) -> Fault {
        Fault {
            line: self.number,
            column: at + 1,
            message: message.into(),
        }
    }

    fn skip_blanks(&mut self) {
        while self.peek().is_some_and(is_blank) {
            self.at += 1;
        }
    }

    /// Words are separated by blanks; a comment may follow at once.
    fn blank_behind_word(&self) -> Result<(), Fault> {
        match self.peek() {
            None | Some('#') => Ok(()),
            Some(c) if is_blank(c) => Ok(()),
            Some(_) => Err(self.fault(self.at, "a blank is missing between two words")),
        }
    }

    fn refuse_control(&self, c: char) -> Result<(), Fault> {
        if c.is_control() && !is_blank(c) {
            let message = format!(
                "control character U+{:04X}; words are separated by spaces or tabs, and lines \
                 end with a line feed alone",
                u32::from(c)
            );
            return Err(self.fault(self.at, message));
        }
        Ok(())
    }

    fn plain(&mut self) -> Result<String, Fault> {
        let mut word = String::new();
        while let Some(c) = self.peek() {
            if is_blank(c) || c == '#' || c == '"' {
                break;
            }
            self.refuse_control(c)?;
            word.push(c);
            self.at += 1;
        }
        Ok(word)
    }

    /// No quoted text stands behind `=>`, so that `#` starts a comment there in any case.
    fn expectation(&mut self) -> Result<String, Fault> {
        let mut text = String::new();
        while let Some(c) = self.peek() {
            if c == '#' {
                break;
            }
            self.refuse_control(c)?;
            text.push(c);
            self.at += 1;
        }
        Ok(one_blank(&text))
    }

    fn text(&mut self) -> Result<Vec<u8>, Fault> {
        let opening = self.at;
        self.at += 1;
        let mut bytes = Vec::new();
        loop {
            match self.next() {
                None => return Err(self.fault(opening, "the text is not closed by \"")),
                Some('"') => return Ok(bytes),
                Some('\\') => bytes.push(self.escape()?),
                Some(c) => bytes.extend(c.to_string().as_bytes()),
            }
        }
    }

    /// The byte that the escape stands for, whose backslash has been passed.
    fn escape(&mut self) -> Result<u8, Fault> {
        let backslash = self.at - 1;
        match self.next() {
            Some('\\') => Ok(b'\\'),
            Some('"') => Ok(b'"'),
            Some('n') => Ok(b'\n'),
            Some('x') => {
                let high = self.next().and_then(|c| c.to_digit(16));
                let low = self.next().and_then(|c| c.to_digit(16));
                match (high, low) {
                    (Some(high), Some(low)) => Ok((high * 16 + low) as u8),
                    _ => Err(self.fault(backslash, "\\x takes two hexadecimal digits")),
                }
            }
            _ => Err(self.fault(
                backslash,
                "unknown escape; there are \\\\, \\\", \\n and \\xNN",
            )),
        }
    }
}

/// Runs of blanks made one, none at either end.
pub fn one_blank(text: &str) -> String {
    let words: Vec<&str> = text
        .split(is_blank)
        .filter(|word| !word.is_empty())
        .collect();
    words.join(" ")
}

#[cfg(test)]
mod tests {
    use super::*;

    fn plain(column: usize, text: &str) -> Word {
        Word {
            column,
            form: Form::Plain(text.to_string()),
        }
    }

    fn text(column: usize, bytes: &[u8]) -> Word {
        Word {
            column,
            form: Form::Text(bytes.to_vec()),
        }
    }

    fn fault_at(line: &str) -> usize {
        cut(1, line).unwrap_err().column
    }

    #[test]
    fn words_are_separated_by_spaces_or_tabs_and_end_at_a_comment() {
        let found = cut(1, " \thost-load\t0  16# a comment => \"").unwrap();
        let words = [plain(3, "host-load"), plain(13, "0"), plain(16, "16")];
        assert_eq!(found.words, words);
        assert_eq!(found.expected, None);
        assert_eq!(found.end, 18);
        assert_eq!(cut(1, "  # only a comment").unwrap().words, []);
    }

    #[test]
    fn a_quoted_text_holds_blanks_and_hashes_and_escapes() {
        let found = cut(1, r#""a # => b" "\\\"\n\x00\xfF" "é""#).unwrap();
        let words = [
            text(1, b"a # => b"),
            text(12, b"\\\"\n\x00\xff"),
            text(29, &[0xc3, 0xa9]),
        ];
        assert_eq!(found.words, words);
    }

    #[test]
    fn columns_count_characters() {
        let found = cut(1, "\"éé\" 5a").unwrap();
        assert_eq!(found.words[1], plain(6, "5a"));
    }

    #[test]
    fn an_expectation_has_its_blanks_made_one() {
        let found = cut(1, "stop =>  ok \t 0   # why").unwrap();
        assert_eq!(found.words, [plain(1, "stop")]);
        assert_eq!(found.expected, Some((6, "ok 0".to_string())));
    }

    #[test]
    fn faults_of_cutting_have_their_columns() {
        assert_eq!(fault_at(r#"host-store 0 "abc"#), 14);
        assert_eq!(fault_at(r#"host-store 0 "a\q""#), 16);
        assert_eq!(fault_at(r#"host-store 0 "a\x1g""#), 16);
        assert_eq!(fault_at(r#"host-store 0 "a"5a"#), 17);
        assert_eq!(fault_at(r#"host-store 0 5a"a""#), 16);
        assert_eq!(fault_at("stop =>ok 0"), 8);
        assert_eq!(fault_at("stop\r"), 5);
        assert_eq!(fault_at("stop => ok 0\r"), 13);
    }
}
