//! Prints the answer to a document, of a file or of standard input; with `--json`, as JSON. Where
//! there is no answer, it says why, with the place where the document is wrong, and ends with the
//! status of gamhilon.h; with 1 where reading or writing fails, and with 64 where the words make no
//! command.
use std::fs::File;
use std::io::{Read, Write};
use std::process::ExitCode;

const IO_FAILED: u8 = 1;
const BAD_COMMAND_LINE: u8 = 64;

const USAGE: &str = "usage: gamhilon-print [--json] [FILE]

Prints the citations and the bibliography of a document (docs/DOCUMENT.md), with --json as JSON
(docs/ANSWER.md). Without FILE, or where that is -, it reads standard input.
";

fn main() -> ExitCode {
    let mut words: Vec<String> = std::env::args().skip(1).collect();
    let as_json = words.first().is_some_and(|word| word == "--json");
    words.drain(..usize::from(as_json));
    match words.as_slice() {
        [] => print("-", as_json),
        [word] if word == "--help" => shown(USAGE),
        [path] if path == "-" || !path.starts_with('-') => print(path, as_json),
        _ => {
            let _ = std::io::stderr().write_all(USAGE.as_bytes());
            ExitCode::from(BAD_COMMAND_LINE)
        }
    }
}

/// Prints the answer to the document of a file.
fn print(path: &str, as_json: bool) -> ExitCode {
    let name = if path == "-" { "standard input" } else { path };
    let document = match read(path) {
        Ok(document) => document,
        Err(error) => return failed(name, &error, IO_FAILED),
    };
    let answer =
        if as_json { gamhilon::render_json(&document) } else { gamhilon::render_text(&document) };
    match answer {
        Ok(text) => shown(&text),
        Err(refusal) => failed(name, &refusal, u8::try_from(refusal.status()).unwrap_or(u8::MAX)),
    }
}

fn read(path: &str) -> std::io::Result<Vec<u8>> {
    let mut bytes = Vec::new();
    match path {
        "-" => std::io::stdin().read_to_end(&mut bytes)?,
        _ => File::open(path)?.read_to_end(&mut bytes)?,
    };
    Ok(bytes)
}

/// Writes a text to standard output.
fn shown(text: &str) -> ExitCode {
    let mut out = std::io::stdout().lock();
    match out.write_all(text.as_bytes()).and_then(|()| out.flush()) {
        Ok(()) => ExitCode::SUCCESS,
        Err(error) => failed("standard output", &error, IO_FAILED),
    }
}

/// Says why there is no answer. Where that can't be written, the status tells it still.
fn failed(name: &str, error: &dyn std::error::Error, status: u8) -> ExitCode {
    let _ = writeln!(std::io::stderr(), "gamhilon-print: {name}: {error}");
    ExitCode::from(status)
}
