//! A line as words, the expectation behind them, and the faults found on the way.

use super::number::Number;

/// A word, and where it stands: columns count characters from 1.
#[derive(Clone, Debug, PartialEq)]
pub struct Word {
    pub column: usize,
    /// The column behind its last character.
    pub end: usize,
    pub content: Content,
}

#[derive(Clone, Debug, PartialEq)]
pub enum Content {
    /// Any word that is no quoted text.
    Plain(String),
    /// The bytes of a quoted text; none where the text has a fault, which is noted already.
    Text(Option<Vec<u8>>),
}

impl Word {
    pub fn is(&self, word: &str) -> bool {
        self.plain() == Some(word)
    }

    pub fn plain(&self) -> Option<&str> {
        match &self.content {
            Content::Plain(word) => Some(word),
            Content::Text(_) => None,
        }
    }
}

/// A word as messages show it: not more of it than is needed to find it.
pub fn quoted(word: &str) -> String {
    match word.char_indices().nth(40) {
        Some((end, _)) => format!("`{}..`", &word[..end]),
        None => format!("`{word}`"),
    }
}

/// The text behind `=>`, in which runs of blanks are one blank; the column is that of `=>`.
#[derive(Clone, Debug, PartialEq)]
pub struct Expectation {
    pub column: usize,
    pub text: String,
}

/// A line taken apart.
#[derive(Debug, Default, PartialEq)]
pub struct Line {
    pub words: Vec<Word>,
    pub expectation: Option<Expectation>,
    /// Columns and messages.
    pub faults: Vec<(usize, String)>,
    /// Where one word ends and the next begins is in doubt; to judge such words would give rise to faults that are none.
    pub torn: bool,
}

impl Line {
    pub fn read(text: &str) -> Line {
        let mut lexer = Lexer {
            chars: text.chars().collect(),
            at: 0,
            line: Line::default(),
        };
        lexer.run();
        lexer.line
    }
}

fn is_blank(c: char) -> bool {
    c == ' ' || c == '\t'
}

/// A control character that may stand only in a comment or a quoted text.
fn is_forbidden(c: char) -> bool {
    c.is_control() && c != '\t'
}

struct Lexer {
    chars: Vec<char>,
    at: usize,
    line: Line,
}

impl Lexer {
    fn run(&mut self) {
        while let Some(c) = self.peek() {
            match c {
                '#' => return,
                '"' => self.text(),
                c if is_blank(c) => self.at += 1,
                c if is_forbidden(c) => self.forbidden(c),
                _ => self.plain(),
            }
            if self.at_expectation() {
                return self.expectation();
            }
        }
    }

    fn peek(&self) -> Option<char> {
        self.chars.get(self.at).copied()
    }

    fn next(&mut self) -> Option<char> {
        let c = self.peek()?;
        self.at += 1;
        Some(c)
    }

    fn column(&self) -> usize {
        self.at + 1
    }

    fn fault(&mut self, column: usize, message: impl Into<String>) {
        self.line.faults.push((column, message.into()));
    }

    /// It is passed over like a blank.
    fn forbidden(&mut self, c: char) {
        let hint = match c {
            '\r' => " (lines end with a line feed alone)",
            _ => "",
        };
        let message = format!("control character 0x{:02x}{hint}", u32::from(c));
        self.fault(self.column(), message);
        let joins = |c: Option<&char>| c.is_some_and(|&c| !is_blank(c) && c != '#');
        self.line.torn |=
            self.at > 0 && joins(self.chars.get(self.at - 1)) && joins(self.chars.get(self.at + 1));
        self.at += 1;
    }

    fn plain(&mut self) {
        let column = self.column();
        let mut word = String::new();
        while let Some(c) = self.peek() {
            if is_blank(c) || is_forbidden(c) || c == '#' || c == '"' {
                break;
            }
            word.push(c);
            self.at += 1;
        }
        if word.starts_with("=>") && word != "=>" {
            return self.glued_arrow(column);
        }
        self.word(column, Content::Plain(word));
        self.must_stand_apart();
    }

    /// `=>ok`: nothing behind it is read, since it is meant as an expectation.
    fn glued_arrow(&mut self, column: usize) {
        self.fault(column, "`=>` is a word of its own: a blank must follow it");
        self.at = self.chars.len();
    }

    /// A text in quotes. A fault inside is noted where it stands, and the word is kept without bytes.
    fn text(&mut self) {
        let column = self.column();
        let known = self.line.faults.len();
        self.at += 1;
        let bytes = self.text_bytes(column);
        let sound = self.line.faults.len() == known;
        self.word(column, Content::Text(sound.then_some(bytes)));
        if sound {
            self.must_stand_apart();
        }
    }

    /// The bytes up to the closing quote.
    fn text_bytes(&mut self, opened: usize) -> Vec<u8> {
        let mut bytes = Vec::new();
        loop {
            let column = self.column();
            match self.next() {
                None => {
                    self.fault(opened, "the text that starts here has no closing `\"`");
                    return bytes;
                }
                Some('"') => return bytes,
                Some('\\') => match self.escape() {
                    Some(byte) => bytes.push(byte),
                    None => self.fault(column, "in a text, `\\` starts \\\\, \\\", \\n or \\xNN"),
                },
                Some(c) => bytes.extend(c.encode_utf8(&mut [0; 4]).as_bytes()),
            }
        }
    }

    /// What stands behind a backslash.
    fn escape(&mut self) -> Option<u8> {
        let c = self.peek()?;
        self.at += 1;
        match c {
            '\\' => Some(b'\\'),
            '"' => Some(b'"'),
            'n' => Some(b'\n'),
            'x' => {
                let high = self.hexadecimal_digit()?;
                let low = self.hexadecimal_digit()?;
                Some(high * 16 + low)
            }
            _ => None,
        }
    }

    fn hexadecimal_digit(&mut self) -> Option<u8> {
        let digit = self.peek()?.to_digit(16)?;
        self.at += 1;
        Some(digit as u8)
    }

    fn word(&mut self, column: usize, content: Content) {
        let end = self.column();
        self.line.words.push(Word {
            column,
            end,
            content,
        });
    }

    /// `5a"x"` is a fault: a blank, a comment or the line's end follows a word.
    fn must_stand_apart(&mut self) {
        let apart = match self.peek() {
            None | Some('#') => true,
            Some(c) => is_blank(c) || is_forbidden(c),
        };
        if !apart {
            self.fault(self.column(), "a blank must stand between two words");
            self.line.torn = true;
        }
    }

    /// Whether the word just read is `=>`.
    fn at_expectation(&self) -> bool {
        self.line
            .words
            .last()
            .is_some_and(|word| word.is("=>") && word.end == self.column())
    }

    /// The rest of the line behind `=>`, up to a comment.
    fn expectation(&mut self) {
        let arrow = self.line.words.pop().expect("the word `=>`");
        let mut text = String::new();
        while let Some(c) = self.peek().filter(|&c| c != '#') {
            if is_forbidden(c) {
                self.forbidden(c);
            } else {
                text.push(c);
                self.at += 1;
            }
        }
        let text = single_blanks(&text);
        if text.is_empty() {
            self.fault(arrow.column, "no text stands behind `=>`");
        }
        self.line.expectation = Some(Expectation {
            column: arrow.column,
            text,
        });
    }
}

/// The text with each run of blanks made one, and none at its ends.
fn single_blanks(text: &str) -> String {
    let words: Vec<&str> = text.split(is_blank).filter(|w| !w.is_empty()).collect();
    words.join(" ")
}

/// The words of a line, taken one by one. Faults are noted on the line, and reading goes on, so that all are found.
pub struct Words<'l> {
    line: &'l mut Line,
    at: usize,
    /// Of several missing words only the first is told.
    missing_told: bool,
}

impl<'l> Words<'l> {
    pub fn new(line: &'l mut Line) -> Words<'l> {
        Words {
            line,
            at: 0,
            missing_told: false,
        }
    }

    /// The first word. Where there is none, there is no call to expect anything of.
    pub fn first(&mut self) -> Option<Word> {
        if self.line.words.is_empty() {
            if let Some(expectation) = &self.line.expectation {
                let column = expectation.column;
                self.fault(column, "no call stands before `=>`");
            }
        }
        self.line.words.first().cloned()
    }

    pub fn peek(&self) -> Option<&Word> {
        self.line.words.get(self.at)
    }

    pub fn next(&mut self) -> Option<Word> {
        let word = self.peek().cloned()?;
        self.at += 1;
        Some(word)
    }

    /// The next word, if it is such a one.
    pub fn next_if(&mut self, wanted: impl Fn(&Word) -> bool) -> Option<Word> {
        self.peek().filter(|word| wanted(word))?;
        self.next()
    }

    pub fn fault(&mut self, column: usize, message: impl Into<String>) {
        self.line.faults.push((column, message.into()));
    }

    pub fn fault_at_first(&mut self, message: String) {
        let column = self.line.words.first().map_or(1, |word| word.column);
        self.fault(column, message);
    }

    /// Notes that a word is missing, behind the last that is there.
    pub fn missing(&mut self, name: &str) {
        if self.missing_told {
            return;
        }
        self.missing_told = true;
        let column = self.line.words.last().map_or(1, |word| word.end);
        self.fault(column, format!("{name} is missing"));
    }

    /// The next word as a number. A fault is noted, and the word passed over.
    pub fn number(&mut self, wanted: &Number) -> Option<u64> {
        let Some(word) = self.next() else {
            self.missing(wanted.name);
            return None;
        };
        let read = match &word.content {
            Content::Plain(text) => wanted.read(text),
            Content::Text(Some(_)) => Err(format!("{}: a quoted text is no number", wanted.name)),
            Content::Text(None) => return None,
        };
        match read {
            Ok(value) => Some(value),
            Err(message) => {
                self.fault(word.column, message);
                None
            }
        }
    }

    /// Passes over the rest, which cannot be judged.
    pub fn skip(&mut self) {
        self.at = self.line.words.len();
    }

    /// Passes over words, as long as they are such.
    pub fn skip_while(&mut self, skipped: impl Fn(&Word) -> bool) {
        while self.next_if(&skipped).is_some() {}
    }

    /// No word may be left.
    pub fn finish(&mut self, form: &str) {
        if let Some(word) = self.next() {
            self.fault(word.column, format!("the line should end here: {form}"));
            self.skip();
        }
    }

    pub fn expectation(&self) -> Option<String> {
        self.line.expectation.as_ref().map(|e| e.text.clone())
    }

    /// Only calls print something that could be expected.
    pub fn no_expectation(&mut self) {
        if let Some(expectation) = &self.line.expectation {
            let column = expectation.column;
            self.fault(
                column,
                "`=>` stands behind a call only; this line prints nothing",
            );
        }
    }
}
