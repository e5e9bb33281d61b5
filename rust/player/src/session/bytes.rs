//! BYTES: the bytes that a line gives, some of which may be stale.

use super::number::number;
use super::words::{quoted, Content, Word, Words};

/// BYTES of one line are at most so many.
pub const BYTES_MAX: u64 = 1 << 20;

/// Bytes as a line gives them. They are kept as written there, since a short word can stand for many bytes.
#[derive(Clone, Debug, Default, PartialEq)]
pub struct Pattern {
    pieces: Vec<Piece>,
}

#[derive(Clone, Debug, PartialEq)]
enum Piece {
    Given(Vec<u8>),
    Repeated(u8, u64),
    Stale(u64),
}

impl Piece {
    fn count(&self) -> u64 {
        match self {
            Piece::Given(bytes) => bytes.len() as u64,
            Piece::Repeated(_, count) | Piece::Stale(count) => *count,
        }
    }

    /// The first bytes, `limit` at most.
    fn truncated(&self, limit: u64) -> Piece {
        let count = self.count().min(limit);
        match self {
            Piece::Given(bytes) => Piece::Given(bytes[..count as usize].to_vec()),
            Piece::Repeated(byte, _) => Piece::Repeated(*byte, count),
            Piece::Stale(_) => Piece::Stale(count),
        }
    }
}

impl Pattern {
    pub fn push_given(&mut self, bytes: Vec<u8>) {
        self.pieces.push(Piece::Given(bytes));
    }

    pub fn push_stale(&mut self, count: usize) {
        self.pieces.push(Piece::Stale(count as u64));
    }

    /// How many bytes there are.
    pub fn count(&self) -> usize {
        self.pieces.iter().map(Piece::count).sum::<u64>() as usize
    }

    /// Puts another pattern behind this one.
    pub fn append(&mut self, other: Pattern) {
        self.pieces.extend(other.pieces);
    }

    /// The first bytes, as many as there may be.
    pub fn truncated(&self, room: usize) -> Pattern {
        let mut left = room as u64;
        let mut pattern = Pattern::default();
        for piece in &self.pieces {
            let piece = piece.truncated(left);
            left -= piece.count();
            pattern.pieces.push(piece);
        }
        pattern
    }

    /// The bytes, of which each stale one is `garbage`.
    pub fn fill(&self, garbage: u8) -> Vec<u8> {
        let mut bytes = Vec::new();
        for piece in &self.pieces {
            let end = bytes.len() + piece.count() as usize;
            match piece {
                Piece::Given(given) => bytes.extend_from_slice(given),
                Piece::Repeated(byte, _) => bytes.resize(end, *byte),
                Piece::Stale(_) => bytes.resize(end, garbage),
            }
        }
        bytes
    }
}

/// Whether stale bytes may stand among those of a line.
#[derive(Clone, Copy, PartialEq)]
pub enum Stale {
    Allowed,
    Forbidden,
}

/// The rest of the line as BYTES.
pub fn read(words: &mut Words, stale: Stale) -> Pattern {
    if words.peek().is_none() {
        words.missing("BYTES (`-` for no bytes)");
        return Pattern::default();
    }
    if words.peek().is_some_and(|word| word.is("-")) {
        words.next();
        words.finish("`-` stands alone, for no bytes");
        return Pattern::default();
    }
    read_while(words, stale, |_| true)
}

/// BYTES up to a word, which is taken, too. None of them is stale.
pub fn read_up_to(words: &mut Words, end: &str) -> Pattern {
    let goes_on = |word: &Word| !word.is(end);
    let mut pattern = Pattern::default();
    match words.peek() {
        None => words.missing("BYTES (`-` for no bytes)"),
        Some(word) if word.is(end) => {
            let column = word.column;
            let message = format!("BYTES (`-` for no bytes) are missing before `{end}`");
            words.fault(column, message);
        }
        Some(word) if word.is("-") => {
            words.next();
            if let Some(word) = words.peek().filter(|word| goes_on(word)) {
                let column = word.column;
                words.fault(column, "`-` stands alone, for no bytes");
                words.skip_while(goes_on);
            }
        }
        Some(_) => pattern = read_while(words, Stale::Forbidden, goes_on),
    }
    if words.next().is_none() {
        words.missing(&format!("`{end}`"));
    }
    pattern
}

/// Words as BYTES, as long as they are meant.
fn read_while(words: &mut Words, stale: Stale, meant: impl Fn(&Word) -> bool) -> Pattern {
    let mut pattern = Pattern::default();
    let mut total = Total::default();
    while let Some(word) = words.next_if(&meant) {
        match piece(&word, stale) {
            Ok(piece) => total.add(piece, &word, words, &mut pattern),
            Err(Some(message)) => words.fault(word.column, message),
            Err(None) => (),
        }
    }
    pattern
}

/// How many bytes a line has so far.
#[derive(Default)]
struct Total {
    count: u64,
    told: bool,
}

impl Total {
    /// Adds a piece to the pattern, unless the line would have too many bytes: that is told once.
    fn add(&mut self, piece: Piece, word: &Word, words: &mut Words, pattern: &mut Pattern) {
        self.count = self.count.saturating_add(piece.count());
        if self.count <= BYTES_MAX {
            pattern.pieces.push(piece);
        } else if !self.told {
            self.told = true;
            let message = format!("BYTES of one line are at most {BYTES_MAX}");
            words.fault(word.column, message);
        }
    }
}

/// The bytes that a word stands for, or what is wrong with it if that is not noted yet.
fn piece(word: &Word, stale: Stale) -> Result<Piece, Option<String>> {
    let text = match &word.content {
        Content::Text(bytes) => return bytes.clone().map(Piece::Given).ok_or(None),
        Content::Plain(text) => text,
    };
    let piece = match text.split_once('*') {
        Some((byte, count)) => repeated(byte, count),
        None => pairs(text),
    }
    .map_err(Some)?;
    if stale == Stale::Forbidden && matches!(piece, Piece::Stale(_)) {
        let message = "stale bytes may stand only in the buffer of a request";
        return Err(Some(message.to_string()));
    }
    Ok(piece)
}

/// `5a*8` or `?*8`.
fn repeated(byte: &str, count: &str) -> Result<Piece, String> {
    let times = number(count).map_err(|wrong| format!("the count behind `*`: {wrong}"))?;
    if byte == "?" {
        return Ok(Piece::Stale(times));
    }
    match hexadecimal(byte).as_deref() {
        Some(&[byte]) => Ok(Piece::Repeated(byte, times)),
        _ => {
            let byte = quoted(byte);
            let wanted = "one pair of hexadecimal digits, or `?`";
            Err(format!("{byte}: before `*` stands {wanted}"))
        }
    }
}

/// `5a5b5c`.
fn pairs(text: &str) -> Result<Piece, String> {
    match text {
        "-" => Err("`-` stands alone, for no bytes".to_string()),
        "?" => Err("how many stale bytes? `?*4` is four".to_string()),
        _ => hexadecimal(text)
            .map(Piece::Given)
            .ok_or_else(|| not_pairs(text)),
    }
}

fn not_pairs(text: &str) -> String {
    let word = quoted(text);
    if text.starts_with("0x") {
        format!("BYTES: {word}: bytes are written without `0x`")
    } else if text.chars().all(|c| c.is_ascii_hexdigit()) {
        format!("BYTES: {word} has an odd number of hexadecimal digits")
    } else {
        format!("BYTES: {word} is not in pairs of hexadecimal digits, nor a quoted text")
    }
}

/// The bytes of a word that is pairs of hexadecimal digits, one pair at least.
fn hexadecimal(text: &str) -> Option<Vec<u8>> {
    let digits: Option<Vec<u8>> = text
        .chars()
        .map(|c| c.to_digit(16).map(|digit| digit as u8))
        .collect();
    let digits = digits.filter(|d| !d.is_empty() && d.len() % 2 == 0)?;
    Some(digits.chunks(2).map(|d| d[0] * 16 + d[1]).collect())
}
