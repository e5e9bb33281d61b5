//! `glint-reference play FILE`: plays a session file by the second statement of the rules.

use std::env;
use std::fs;
use std::io::{self, BufWriter, Write};
use std::process::ExitCode;

use glint_reference::session::{byte, play, read};

const USAGE: &str = "\
usage: glint-reference play [--garbage BYTE] FILE

Plays a session file and prints the outcome of each call.

  --garbage BYTE   what memory, output buffers and stale bytes start as, instead of what the
                   file says (a number of at most 255, as 0xa5)

Exit status: 0 if every expectation was met, 1 if one was not, 2 if the file is faulty.
";

const MET: u8 = 0;
const NOT_MET: u8 = 1;
const FAULTY: u8 = 2;

struct Options {
    file: String,
    garbage: Option<u8>,
}

fn main() -> ExitCode {
    let arguments: Vec<String> = env::args_os()
        .skip(1)
        .map(|argument| argument.to_string_lossy().into_owned())
        .collect();
    if arguments.iter().any(|a| a == "--help" || a == "-h") {
        print!("{USAGE}");
        return ExitCode::from(MET);
    }
    match options(&arguments) {
        Ok(options) => ExitCode::from(play_file(&options)),
        Err(message) => {
            eprint!("glint-reference: {message}\n{USAGE}");
            ExitCode::from(FAULTY)
        }
    }
}

fn options(arguments: &[String]) -> Result<Options, String> {
    let mut arguments = arguments.iter();
    match arguments.next().map(String::as_str) {
        Some("play") => {}
        Some(other) => return Err(format!("unknown command {other:?}")),
        None => return Err("a command is missing".to_string()),
    }
    let (mut file, mut garbage) = (None, None);
    while let Some(argument) = arguments.next() {
        if argument == "--garbage" {
            let word = arguments.next().ok_or("--garbage takes a BYTE")?;
            garbage = Some(byte(word)?);
        } else if argument.starts_with("--") {
            return Err(format!("unknown option {argument:?}"));
        } else if file.is_some() {
            return Err(format!("one FILE only, not {argument:?} as well"));
        } else {
            file = Some(argument.clone());
        }
    }
    let file = file.ok_or("FILE is missing")?;
    Ok(Options { file, garbage })
}

fn play_file(options: &Options) -> u8 {
    let file = &options.file;
    let bytes = match fs::read(file) {
        Ok(bytes) => bytes,
        Err(error) => {
            eprintln!("glint-reference: {file}: {error}");
            return FAULTY;
        }
    };
    let mut session = match read(&bytes) {
        Ok(session) => session,
        Err(faults) => {
            for fault in faults {
                let (line, column) = (fault.line, fault.column);
                eprintln!("{file}:{line}:{column}: {}", fault.message);
            }
            return FAULTY;
        }
    };
    session.garbage = options.garbage.unwrap_or(session.garbage);
    let mut out = BufWriter::new(io::stdout().lock());
    match play(&session, &mut out).and_then(|met| out.flush().map(|()| met)) {
        Ok(true) => MET,
        Ok(false) => NOT_MET,
        Err(error) => {
            eprintln!("glint-reference: the outcomes cannot be printed: {error}");
            FAULTY
        }
    }
}
