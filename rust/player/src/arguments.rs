//! The command line.

use crate::session::byte;
use glintbasket::Card;
use std::ffi::{OsStr, OsString};
use std::path::PathBuf;

pub const USAGE: &str = "\
usage: glintbasket play [--garbage BYTE] [--twice] FILE
       glintbasket show [--garbage BYTE] [--svg OUT] FILE
       glintbasket check-save [--card CARD] FILE
       glintbasket device-file [--text] FILE
       glintbasket --help | --version
";

pub const HELP: &str = "\
Glintbasket plays session files on a verified emulator of the host side of VFIO.

usage: glintbasket play [--garbage BYTE] [--twice] FILE
       glintbasket show [--garbage BYTE] [--svg OUT] FILE
       glintbasket check-save [--card CARD] FILE
       glintbasket device-file [--text] FILE
       glintbasket --help | --version

play    plays FILE and prints one line for each call
show    plays FILE and prints a map of its memory, the container's type, the
        mappings and the last refused byte; only calls that differ from what is
        expected are printed
check-save
        says whether the bytes of FILE are what saving writes; if not, the place
        of the first byte that no save has there, in which part and field
device-file
        prints header and records of FILE, a device file of the old layout; if it
        is none, the refusal, its place and what is wrong there

  --garbage BYTE   what each byte of memory, of records, of an output buffer and
                   each stale byte starts as, instead of what FILE says
                   (default 0xa5)
  --twice          plays FILE under two garbages, of which one is the complement
                   of the other, and compares every line
  --svg OUT        writes the map as a picture, too
  --card CARD      the card whose saves are meant, 64 or 128 by the number of its
                   feature bits (default 64)
  --text           FILE is a text: bytes as sessions write them, with comments
  --help, -h       prints this
  --version, -V    prints the version

Exit status:
  0  played, and every expectation is met; or FILE is a save, or a device file
  1  played, but an expectation is not met, or the two plays differ; or FILE is
     no save, or no device file
  2  not played: FILE has faults or cannot be read, or the command line is wrong
  3  what was played could not be written
";

#[derive(Debug, PartialEq)]
pub enum Command {
    Help,
    Version,
    Play {
        file: PathBuf,
        garbage: Option<u8>,
        twice: bool,
    },
    Show {
        file: PathBuf,
        garbage: Option<u8>,
        svg: Option<PathBuf>,
    },
    CheckSave {
        file: PathBuf,
        card: Card,
    },
    DeviceFile {
        file: PathBuf,
        text: bool,
    },
}

/// What stands on the command line behind the program's name, or what is wrong with it.
pub fn read(arguments: impl IntoIterator<Item = OsString>) -> Result<Command, String> {
    let mut arguments = arguments.into_iter();
    let command = arguments.next().ok_or("a command is missing")?;
    match command.to_str() {
        Some("--help" | "-h") => alone(arguments, Command::Help),
        Some("--version" | "-V") => alone(arguments, Command::Version),
        Some("play") => Options::read(arguments)?.play(),
        Some("show") => Options::read(arguments)?.show(),
        Some("check-save") => Options::read(arguments)?.check_save(),
        Some("device-file") => Options::read(arguments)?.device_file(),
        _ => Err(format!("{command:?} is no command")),
    }
}

/// A flag that nothing may follow.
fn alone(mut rest: impl Iterator<Item = OsString>, command: Command) -> Result<Command, String> {
    match rest.next() {
        Some(argument) => Err(format!("{argument:?} is too much")),
        None => Ok(command),
    }
}

/// What follows the command's name.
#[derive(Default)]
struct Options {
    help: bool,
    file: Option<PathBuf>,
    garbage: Option<u8>,
    twice: bool,
    svg: Option<PathBuf>,
    card: Option<Card>,
    text: bool,
}

impl Options {
    fn read(mut arguments: impl Iterator<Item = OsString>) -> Result<Options, String> {
        let mut options = Options::default();
        let mut flags_end = false;
        while let Some(argument) = arguments.next() {
            if !flags_end && argument == "--" {
                flags_end = true;
            } else if !flags_end && is_flag(&argument) {
                options.flag(&argument, &mut arguments)?;
            } else {
                put(&mut options.file, argument.into(), "FILE")?;
            }
        }
        Ok(options)
    }

    fn flag(
        &mut self,
        flag: &OsStr,
        rest: &mut impl Iterator<Item = OsString>,
    ) -> Result<(), String> {
        let mut value = || rest.next().ok_or(format!("{flag:?} lacks its value"));
        match flag.to_str() {
            Some("--garbage") => put(&mut self.garbage, garbage(&value()?)?, "--garbage"),
            Some("--svg") => put(&mut self.svg, value()?.into(), "--svg"),
            Some("--card") => put(&mut self.card, card(&value()?)?, "--card"),
            Some("--twice") => {
                self.twice = true;
                Ok(())
            }
            Some("--text") => {
                self.text = true;
                Ok(())
            }
            Some("--help" | "-h") => {
                self.help = true;
                Ok(())
            }
            _ => Err(format!("{flag:?} is no flag")),
        }
    }

    fn play(self) -> Result<Command, String> {
        if self.help {
            return Ok(Command::Help);
        }
        if self.svg.is_some() {
            return Err("--svg goes with show".to_string());
        }
        self.no_card()?;
        self.no_text()?;
        Ok(Command::Play {
            file: self.file.ok_or("FILE is missing")?,
            garbage: self.garbage,
            twice: self.twice,
        })
    }

    fn show(self) -> Result<Command, String> {
        if self.help {
            return Ok(Command::Help);
        }
        if self.twice {
            return Err("--twice goes with play".to_string());
        }
        self.no_card()?;
        self.no_text()?;
        Ok(Command::Show {
            file: self.file.ok_or("FILE is missing")?,
            garbage: self.garbage,
            svg: self.svg,
        })
    }

    fn check_save(self) -> Result<Command, String> {
        if self.help {
            return Ok(Command::Help);
        }
        self.no_session()?;
        self.no_text()?;
        Ok(Command::CheckSave {
            file: self.file.ok_or("FILE is missing")?,
            card: self.card.unwrap_or_default(),
        })
    }

    fn device_file(self) -> Result<Command, String> {
        if self.help {
            return Ok(Command::Help);
        }
        self.no_session()?;
        self.no_card()?;
        Ok(Command::DeviceFile {
            file: self.file.ok_or("FILE is missing")?,
            text: self.text,
        })
    }

    /// What is said of a session.
    fn no_session(&self) -> Result<(), String> {
        if self.garbage.is_some() || self.twice || self.svg.is_some() {
            return Err("--garbage, --twice and --svg go with sessions".to_string());
        }
        Ok(())
    }

    fn no_text(&self) -> Result<(), String> {
        if self.text {
            return Err("--text goes with device-file".to_string());
        }
        Ok(())
    }

    /// A session names its cards itself.
    fn no_card(&self) -> Result<(), String> {
        match self.card {
            Some(_) => Err("--card goes with check-save".to_string()),
            None => Ok(()),
        }
    }
}

/// Of which card a save is asked for.
fn card(value: &OsStr) -> Result<Card, String> {
    match value.to_str() {
        Some("64") => Ok(Card::Features64),
        Some("128") => Ok(Card::Features128),
        _ => Err("--card: a card is 64 or 128, by the number of its feature bits".to_string()),
    }
}

fn is_flag(argument: &OsStr) -> bool {
    argument.as_encoded_bytes().starts_with(b"-")
}

/// Puts what may be given once.
fn put<T>(slot: &mut Option<T>, value: T, name: &str) -> Result<(), String> {
    match slot.replace(value) {
        Some(_) => Err(format!("{name} is given twice")),
        None => Ok(()),
    }
}

fn garbage(value: &OsStr) -> Result<u8, String> {
    byte(&value.to_string_lossy()).map_err(|wrong| format!("--garbage: {wrong}"))
}

#[cfg(test)]
mod tests {
    use super::*;

    fn read_words(words: &str) -> Result<Command, String> {
        read(words.split_whitespace().map(OsString::from))
    }

    fn play(file: &str, garbage: Option<u8>, twice: bool) -> Result<Command, String> {
        Ok(Command::Play {
            file: file.into(),
            garbage,
            twice,
        })
    }

    #[test]
    fn flags_stand_on_either_side_of_the_file() {
        assert_eq!(read_words("play a"), play("a", None, false));
        let both = play("a", Some(0x5a), true);
        assert_eq!(read_words("play --garbage 0x5a --twice a"), both);
        assert_eq!(read_words("play a --twice --garbage 90"), both);
        assert_eq!(read_words("play -- --twice"), play("--twice", None, false));
    }

    #[test]
    fn show_takes_a_picture() {
        let expected = Command::Show {
            file: "a".into(),
            garbage: None,
            svg: Some("b".into()),
        };
        assert_eq!(read_words("show --svg b a"), Ok(expected));
    }

    #[test]
    fn device_file_may_be_a_text() {
        let expected = |text| {
            let file = "a".into();
            Ok(Command::DeviceFile { file, text })
        };
        assert_eq!(read_words("device-file a"), expected(false));
        assert_eq!(read_words("device-file a --text"), expected(true));
    }

    #[test]
    fn help_and_version() {
        assert_eq!(read_words("--help"), Ok(Command::Help));
        assert_eq!(read_words("-h"), Ok(Command::Help));
        assert_eq!(read_words("play --help"), Ok(Command::Help));
        assert_eq!(read_words("--version"), Ok(Command::Version));
        assert_eq!(read_words("-V"), Ok(Command::Version));
    }

    #[test]
    fn wrong_command_lines_are_told() {
        for (words, wrong) in [
            ("", "a command is missing"),
            ("dance", "\"dance\" is no command"),
            ("--help x", "\"x\" is too much"),
            ("play", "FILE is missing"),
            ("play a b", "FILE is given twice"),
            ("play --fast a", "\"--fast\" is no flag"),
            ("play a --garbage", "\"--garbage\" lacks its value"),
            (
                "play a --garbage 256",
                "--garbage: BYTE: `256` is above 255",
            ),
            ("play a --garbage 1 --garbage 1", "--garbage is given twice"),
            ("play a --svg b", "--svg goes with show"),
            ("show a --twice", "--twice goes with play"),
            ("show", "FILE is missing"),
        ] {
            assert_eq!(read_words(words), Err(wrong.to_string()), "{words}");
        }
    }
}
