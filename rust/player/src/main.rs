//! The session player: plays session files on the emulator. docs/session-format.md is their format.

mod answer;
mod arguments;
mod check_save;
mod device_file;
mod map_svg;
mod map_text;
mod pages;
mod play;
mod session;

use arguments::Command;
use play::{Played, RefusedByte, Store};
use session::{Fault, Session};
use std::fmt::Display;
use std::fs::{self, File};
use std::io::{self, BufWriter, Read, Write};
use std::path::Path;
use std::process::ExitCode;

/// A file that never ends must not take all of the machine's memory.
const FILE_MAX: u64 = 1 << 28;

/// Why the program ends with another status than 0 or 1: the text is for standard error.
enum Failure {
    /// Nothing was played.
    NotPlayed(String),
    /// What was played could not be written.
    Output(String),
}

impl From<io::Error> for Failure {
    fn from(error: io::Error) -> Failure {
        Failure::Output(message(format!("standard output: {error}")))
    }
}

fn main() -> ExitCode {
    let result = match arguments::read(std::env::args_os().skip(1)) {
        Ok(command) => run(command),
        Err(wrong) => {
            let text = message(wrong) + arguments::USAGE;
            Err(Failure::NotPlayed(text))
        }
    };
    let (status, text) = match result {
        Ok(true) => (0, String::new()),
        Ok(false) => (1, String::new()),
        Err(Failure::NotPlayed(text)) => (2, text),
        Err(Failure::Output(text)) => (3, text),
    };
    // Where standard error is closed, the status alone has to tell.
    let _ = io::stderr().write_all(text.as_bytes());
    ExitCode::from(status)
}

/// One line for standard error that is about no line of a file.
fn message(text: impl Display) -> String {
    format!("glintbasket: {text}\n")
}

/// Whether all is as expected.
fn run(command: Command) -> Result<bool, Failure> {
    let mut out = BufWriter::new(io::stdout().lock());
    let met = match command {
        Command::Help => write!(out, "{}", arguments::HELP).map(|()| true)?,
        Command::Version => {
            writeln!(out, "glintbasket {}", env!("CARGO_PKG_VERSION")).map(|()| true)?
        }
        Command::Play {
            file,
            garbage,
            twice: false,
        } => play_once(&mut out, &session(&file, garbage)?)?,
        Command::Play {
            file,
            garbage,
            twice: true,
        } => play_twice(&mut out, &session(&file, garbage)?)?,
        Command::Show { file, garbage, svg } => {
            show(&mut out, &file, &session(&file, garbage)?, svg.as_deref())?
        }
        Command::CheckSave { file, card } => {
            let stream = read_file(&file)?;
            let found = check_save::Finding::of(card, &stream);
            writeln!(out, "{found}")?;
            found.is_save()
        }
        Command::DeviceFile { file, text: false } => {
            device_file::print(&mut out, &read_file(&file)?)?
        }
        Command::DeviceFile { file, text: true } => {
            device_file::print(&mut out, &text_bytes(&file)?)?
        }
    };
    out.flush()?;
    Ok(met)
}

/// The session of a file, with the command line's garbage if there is one.
fn session(path: &Path, garbage: Option<u8>) -> Result<Session, Failure> {
    let bytes = read_file(path)?;
    let mut session = session::read(&bytes).map_err(|faults| faulty(path, &faults))?;
    session.garbage = garbage.unwrap_or(session.garbage);
    Ok(session)
}

/// The bytes that a text stands for.
fn text_bytes(path: &Path) -> Result<Vec<u8>, Failure> {
    let text = read_file(path)?;
    session::read_text(&text).map_err(|faults| faulty(path, &faults))
}

/// A line for each fault of a file.
fn faulty(path: &Path, faults: &[Fault]) -> Failure {
    let name = path.display();
    let lines = faults.iter().map(|fault| format!("{name}:{fault}\n"));
    Failure::NotPlayed(lines.collect())
}

fn read_file(path: &Path) -> Result<Vec<u8>, Failure> {
    let name = path.display();
    file_bytes(path).map_err(|wrong| Failure::NotPlayed(message(format!("{name}: {wrong}"))))
}

fn file_bytes(path: &Path) -> Result<Vec<u8>, String> {
    let tell = |error: io::Error| error.to_string();
    let file = File::open(path).map_err(tell)?;
    if file.metadata().map_err(tell)?.is_dir() {
        return Err("is a directory, not a file".to_string());
    }
    let mut bytes = Vec::new();
    file.take(FILE_MAX + 1)
        .read_to_end(&mut bytes)
        .map_err(tell)?;
    if bytes.len() as u64 > FILE_MAX {
        return Err(format!("is longer than {FILE_MAX} bytes"));
    }
    Ok(bytes)
}

fn store(session: &Session, garbage: u8) -> Result<Store, Failure> {
    Store::new(session, garbage).map_err(|wrong| Failure::NotPlayed(message(wrong)))
}

fn play_once(out: &mut impl Write, session: &Session) -> Result<bool, Failure> {
    let mut met = true;
    for played in store(session, session.garbage)?.player().play(session) {
        print(out, &played)?;
        met &= played.unmet().is_none();
    }
    Ok(met)
}

fn print(out: &mut impl Write, played: &Played) -> io::Result<()> {
    played
        .lines()
        .iter()
        .try_for_each(|line| writeln!(out, "{line}"))
}

/// Plays under two garbages. One is the complement of the other, so that each bit that reaches a line shows.
fn play_twice(out: &mut impl Write, session: &Session) -> Result<bool, Failure> {
    let (one, other) = (session.garbage, !session.garbage);
    let first = all_lines(session, one)?;
    let mut alike = true;
    let mut met = true;
    let mut store = store(session, other)?;
    for (played, first) in store.player().play(session).zip(&first) {
        let second = played.lines();
        met &= first.len() == 1 && second.len() == 1;
        for line in first {
            writeln!(out, "{line}")?;
        }
        if *first != second {
            alike = false;
            writeln!(
                out,
                "{}: differs with garbage {other:#04x}:",
                played.step.line
            )?;
            print(out, &played)?;
        }
    }
    let verdict = if alike {
        "all lines alike"
    } else {
        "lines differ"
    };
    writeln!(out, "{verdict} under garbage {one:#04x} and {other:#04x}")?;
    Ok(met && alike)
}

/// The lines of each step.
fn all_lines(session: &Session, garbage: u8) -> Result<Vec<Vec<String>>, Failure> {
    let mut store = store(session, garbage)?;
    let lines = store.player().play(session).map(|p| p.lines()).collect();
    Ok(lines)
}

/// Plays, prints the steps that differ from what is expected, and then the map.
fn show(
    out: &mut impl Write,
    file: &Path,
    session: &Session,
    svg: Option<&Path>,
) -> Result<bool, Failure> {
    if let Some(svg) = svg {
        must_differ(file, svg)?;
    }
    let mut store = store(session, session.garbage)?;
    let mut player = store.player();
    let mut met = true;
    let mut refused: Option<RefusedByte> = None;
    for played in player.play(session) {
        if played.unmet().is_some() {
            met = false;
            print(out, &played)?;
        }
        refused = played.refused_byte.or(refused);
    }
    map_text::print(out, player.bench(), refused.as_ref())?;
    if let Some(svg) = svg {
        let title = file.display().to_string();
        let picture = map_svg::draw(&title, player.bench(), refused.as_ref());
        fs::write(svg, picture)
            .map_err(|error| Failure::Output(message(format!("{}: {error}", svg.display()))))?;
    }
    Ok(met)
}

/// The picture must not overwrite the session.
fn must_differ(file: &Path, svg: &Path) -> Result<(), Failure> {
    match (fs::canonicalize(file), fs::canonicalize(svg)) {
        (Ok(one), Ok(other)) if one == other => {
            let text = format!("{}: is the session file itself", svg.display());
            Err(Failure::NotPlayed(message(text)))
        }
        _ => Ok(()),
    }
}
