//! `workbench`: sheets and journals as text that a person reads and edits, and as pictures; a journal's answers
//! explained.
//! This file: arguments, files and exit codes (0 done; 1 refused, bad text or a file's error; 2 usage).

#![forbid(unsafe_code)]

mod draw;
mod explain;
mod groups;
mod journal_text;
mod kinds;
mod lines;
mod plan;
mod reasons;
mod refused;
mod sheet_text;
mod state;
mod words;

use reference::sheet::{self, HEADER};
use reference::station::Station;
use reference::writer::{self, RawStation};
use reference::{journal, panel};
use std::io::{self, Write};
use std::{env, fs, process};

const USAGE: &str = "\
usage: workbench show-sheet SHEET              the sheet as text
       workbench show-journal JOURNAL          the journal as text, one record a line
       workbench make-sheet TEXT SHEET         such a text as a sheet
       workbench make-journal TEXT JOURNAL     such a text as a journal
       workbench explain SHEET JOURNAL         each record, its answer and what it leaves, in words
       workbench copy-sheet SHEET OUT          the sheet read, and written again in version 2
       workbench check-panel SHEET             whether the cabin panel takes the sheet
       workbench draw-sheet SHEET OUT          the station's plan as a picture, SVG
       workbench draw-journal SHEET JOURNAL OUT
                                               what the zones hold record by record, as a picture, SVG
";

/// Why a command ends with 1.
enum Failure {
    /// A sheet or journal to be shown is refused: that is the answer, on stdout.
    Refused(String),
    /// A file or a text is at fault: on stderr.
    Error(String),
}

fn main() {
    let arguments: Vec<String> = env::args_os().skip(1).map(|word| word.to_string_lossy().into_owned()).collect();
    let arguments: Vec<&str> = arguments.iter().map(String::as_str).collect();
    let done = match arguments[..] {
        ["show-sheet", sheet] => show_sheet(sheet),
        ["show-journal", journal] => show_journal(journal),
        ["make-sheet", text, sheet] => make_sheet(text, sheet),
        ["make-journal", text, journal] => make_journal(text, journal),
        ["explain", sheet, journal] => explain_files(sheet, journal),
        ["copy-sheet", sheet, out] => copy_sheet(sheet, out),
        ["check-panel", sheet] => check_panel(sheet),
        ["draw-sheet", sheet, out] => draw_sheet(sheet, out),
        ["draw-journal", sheet, journal, out] => draw_journal(sheet, journal, out),
        _ => {
            eprint!("{USAGE}");
            process::exit(2);
        }
    };
    process::exit(match done {
        Ok(text) => print(&text, 0),
        Err(Failure::Refused(text)) => print(&format!("{text}\n"), 1),
        Err(Failure::Error(text)) => {
            eprintln!("{text}");
            1
        }
    });
}

/// The exit code: `code`, or 1 where stdout fails. A reader that stops early is no failure.
fn print(text: &str, code: i32) -> i32 {
    let mut stdout = io::stdout().lock();
    match stdout.write_all(text.as_bytes()).and_then(|()| stdout.flush()) {
        Err(error) if error.kind() != io::ErrorKind::BrokenPipe => {
            eprintln!("stdout: {error}");
            1
        }
        _ => code,
    }
}

fn show_sheet(path: &str) -> Result<String, Failure> {
    let bytes = read_file(path)?;
    let station = sheet::read(&bytes).map_err(|fault| Failure::Refused(refused::sheet(&bytes, fault)))?;
    Ok(sheet_text::show(&station))
}

fn show_journal(path: &str) -> Result<String, Failure> {
    let bytes = read_file(path)?;
    journal_text::show(&bytes).map_err(|_| Failure::Refused(refused::journal(&bytes)))
}

fn make_sheet(text_path: &str, path: &str) -> Result<String, Failure> {
    let text = read_text(text_path)?;
    let described = sheet_text::read(&text).map_err(|error| in_text(text_path, &error))?;
    let bytes = described.sheet.bytes();
    let station = sheet::read(&bytes).map_err(|fault| {
        let (line, words) = (described.line_of(fault), refused::sheet(&bytes, fault));
        Failure::Error(format!("{text_path}: line {line}: {words}; nothing written"))
    })?;
    write_file(path, &written(&station)?)
}

fn make_journal(text_path: &str, path: &str) -> Result<String, Failure> {
    let text = read_text(text_path)?;
    let bytes = journal_text::read(&text).map_err(|error| in_text(text_path, &error))?;
    if journal::check(&bytes).is_err() {
        return Err(Failure::Error(format!("{text_path}: {}; nothing written", refused::journal(&bytes))));
    }
    write_file(path, &bytes)
}

fn explain_files(sheet_path: &str, journal_path: &str) -> Result<String, Failure> {
    let (sheet, journal) = (read_file(sheet_path)?, read_file(journal_path)?);
    let station = sheet::read(&sheet).map_err(|fault| Failure::Refused(refused::sheet(&sheet, fault)))?;
    explain::explain(&station, &journal).map_err(|_| Failure::Refused(refused::journal(&journal)))
}

/// Writes the station that was read, not the bytes it was read from. WRITE-5: "A sheet of version 1 is so turned into one
/// of version 2".
fn copy_sheet(path: &str, out: &str) -> Result<String, Failure> {
    let bytes = read_file(path)?;
    let station = sheet::read(&bytes).map_err(|fault| Failure::Refused(refused::sheet(&bytes, fault)))?;
    let copy = written(&station)?;
    let mut done = write_file(out, &copy)?;
    if copy[..HEADER] != bytes[..HEADER] {
        done += &format!("{out}: version 2, made from version 1: crossovers are groups\n");
    }
    Ok(done)
}

/// The station's sheet by the writer, WRITE-1: of version 2.
fn written(station: &Station) -> Result<Vec<u8>, Failure> {
    let station = RawStation::from(station);
    let mut sheet = vec![0; station.sheet_length()];
    let done = writer::write(&station, &mut sheet);
    done.map_err(|refusal| Failure::Refused(refused::writing(&station, sheet.len(), refusal)))?;
    Ok(sheet)
}

/// Reads the sheet as the cabin panel does.
fn check_panel(path: &str) -> Result<String, Failure> {
    let bytes = read_file(path)?;
    let station = panel::read(&bytes).map_err(|fault| Failure::Refused(refused::sheet(&bytes, fault)))?;
    Ok(format!("the cabin panel takes the sheet: {}\n", words::station(&station)))
}

fn draw_sheet(path: &str, out: &str) -> Result<String, Failure> {
    let bytes = read_file(path)?;
    let station = sheet::read(&bytes).map_err(|fault| Failure::Refused(refused::sheet(&bytes, fault)))?;
    write_file(out, draw::sheet(&station).as_bytes())
}

fn draw_journal(sheet_path: &str, journal_path: &str, out: &str) -> Result<String, Failure> {
    let (sheet, journal) = (read_file(sheet_path)?, read_file(journal_path)?);
    let station = sheet::read(&sheet).map_err(|fault| Failure::Refused(refused::sheet(&sheet, fault)))?;
    let drawn = draw::journal(&station, &journal).map_err(|_| Failure::Refused(refused::journal(&journal)))?;
    write_file(out, drawn.as_bytes())
}

fn read_file(path: &str) -> Result<Vec<u8>, Failure> {
    fs::read(path).map_err(|error| Failure::Error(format!("{path}: {error}")))
}

fn read_text(path: &str) -> Result<String, Failure> {
    String::from_utf8(read_file(path)?).map_err(|error| {
        let good = &error.as_bytes()[..error.utf8_error().valid_up_to()];
        let line = 1 + good.iter().filter(|&&byte| byte == b'\n').count();
        Failure::Error(format!("{path}: line {line}: expected text in UTF-8; nothing written"))
    })
}

fn write_file(path: &str, bytes: &[u8]) -> Result<String, Failure> {
    fs::write(path, bytes).map_err(|error| Failure::Error(format!("{path}: {error}")))?;
    Ok(format!("{path}: {} bytes written\n", bytes.len()))
}

fn in_text(path: &str, error: &lines::TextError) -> Failure {
    Failure::Error(format!("{path}: {error}; nothing written"))
}
