//! A file of BYTES alone, line by line, with comments.

use super::bytes::{self, Stale, BYTES_MAX};
use super::words::{Line, Words};
use super::Fault;

/// The bytes that a text stands for, or all of its faults.
pub fn read(file: &[u8]) -> Result<Vec<u8>, Vec<Fault>> {
    let mut found = Vec::new();
    let mut faults = Vec::new();
    for (index, line) in file.split(|&byte| byte == b'\n').enumerate() {
        let number = index + 1;
        let mut told = |column, message: String| {
            faults.push(Fault {
                line: number,
                column,
                message,
            })
        };
        match std::str::from_utf8(line) {
            Ok(text) => {
                let (bytes, wrong) = line_bytes(text);
                let count = found.len() + bytes.len();
                if count as u64 > BYTES_MAX {
                    told(1, format!("the bytes of a file are at most {BYTES_MAX}"));
                    return Err(faults);
                }
                found.extend(bytes);
                wrong
                    .into_iter()
                    .for_each(|(column, message)| told(column, message));
            }
            Err(error) => {
                let (good, wrong) = line.split_at(error.valid_up_to());
                let column = String::from_utf8_lossy(good).chars().count() + 1;
                told(column, format!("byte 0x{:02x} is not UTF-8", wrong[0]));
            }
        }
    }
    if faults.is_empty() {
        Ok(found)
    } else {
        Err(faults)
    }
}

/// The bytes of a line, and its faults by rising column.
fn line_bytes(text: &str) -> (Vec<u8>, Vec<(usize, String)>) {
    let mut line = Line::read(text);
    let lexed = line.faults.len();
    let mut words = Words::new(&mut line);
    let mut found = Vec::new();
    if words.first().is_some() {
        found = bytes::read(&mut words, Stale::Forbidden).fill(0);
        words.no_expectation();
    }
    if line.torn {
        line.faults.truncate(lexed);
    }
    line.faults.sort_by_key(|&(column, _)| column);
    (found, line.faults)
}

#[cfg(test)]
mod tests {
    use super::*;

    fn faults(text: &[u8]) -> Vec<(usize, usize)> {
        let faults = read(text).unwrap_err();
        faults.iter().map(|f| (f.line, f.column)).collect()
    }

    #[test]
    fn bytes_stand_on_any_lines() {
        assert_eq!(read(b""), Ok(vec![]));
        let text = b"# a file\n00 6963 # magic\n\n\t\"p#\" ff*2\n-\n";
        assert_eq!(read(text), Ok(vec![0, 0x69, 0x63, b'p', b'#', 0xff, 0xff]));
    }

    #[test]
    fn all_faults_are_told() {
        assert_eq!(
            faults(b"00\n0 zz\n?*4\n00 => ok\n=> ok"),
            [(2, 1), (2, 3), (3, 1), (4, 4), (5, 1)]
        );
        assert_eq!(faults(b"00\n\xc3\xa9 \xff"), [(2, 3)]);
        assert_eq!(faults(b"5a\"x\""), [(1, 3)]);
        assert_eq!(faults(b"00*1048576\n00\n0"), [(2, 1)]);
    }
}
