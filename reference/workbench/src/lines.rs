//! Lines of a text, `head: field, field, ..`: comments and empty lines skipped, fields taken one by one,
//! errors with the line's number and what was expected.

use reference::set::{holds, only, Set};
use std::collections::VecDeque;
use std::fmt;

/// `line` counts from 1.
#[derive(Debug)]
pub struct TextError {
    pub line: usize,
    pub expected: String,
    pub found: String,
}

impl fmt::Display for TextError {
    fn fmt(&self, out: &mut fmt::Formatter) -> fmt::Result {
        write!(out, "line {}: expected {}; found {}", self.line, self.expected, self.found)
    }
}

pub struct Line {
    pub number: usize,
    /// What stands before the colon, spaces made single.
    pub head: String,
    fields: VecDeque<String>,
}

/// The lines that are neither empty nor comments. A comment starts at `#` and ends with its line.
pub fn lines(text: &str) -> impl Iterator<Item = Result<Line, TextError>> + '_ {
    let numbered = (1..).zip(text.lines());
    let cut = numbered.map(|(number, line)| (number, line.split('#').next().unwrap_or("").trim()));
    cut.filter(|(_, line)| !line.is_empty()).map(|(number, line)| {
        let (head, fields) = line.split_once(':').ok_or_else(|| TextError {
            line: number,
            expected: "'name: field, field, ..'".to_string(),
            found: quoted(line),
        })?;
        Ok(Line { number, head: single_spaces(head), fields: split_fields(fields) })
    })
}

/// The number of the line after the last, for what is missing at the end.
pub fn end(text: &str) -> usize {
    1 + text.lines().count()
}

impl Line {
    /// The error that the head is not what was expected.
    pub fn other_head(&self, expected: &str) -> TextError {
        TextError { line: self.number, expected: expected.to_string(), found: quoted(&format!("{}:", self.head)) }
    }

    /// The next field, as `read` takes it.
    pub fn take<T>(&mut self, expected: &str, read: impl FnOnce(&str) -> Option<T>) -> Result<T, TextError> {
        let field = self.fields.pop_front().unwrap_or_default();
        read(&field).ok_or_else(|| TextError {
            line: self.number,
            expected: expected.to_string(),
            found: quoted(&field),
        })
    }

    /// The next field: `name N`, N from `low` to `high`.
    pub fn number(&mut self, name: &str, low: u32, high: u32) -> Result<u32, TextError> {
        let expected = format!("'{name} N', N from {low} to {high}");
        self.take(&expected, |field| number_after(field, name, low, high))
    }

    /// The next field: `name N`, N at most 255.
    pub fn byte(&mut self, name: &str) -> Result<u8, TextError> {
        self.number(name, 0, 255).map(|number| number as u8)
    }

    /// The next field: `name {n,n,..}`, each turnout once.
    pub fn set(&mut self, name: &str) -> Result<Set, TextError> {
        let expected = format!("'{name} {{n,n,..}}', each turnout once, from 0 to 63");
        self.take(&expected, |field| set(after(field, name)?))
    }

    /// The next field: one of the words of a table, as its value.
    pub fn choice(&mut self, table: &[(&str, u8)]) -> Result<u8, TextError> {
        let words: Vec<String> = table.iter().map(|(word, _)| format!("'{word}'")).collect();
        self.take(&words.join(" or "), |field| table.iter().find(|(word, _)| *word == field).map(|(_, value)| *value))
    }

    /// The last field, if there is one: these words, or older ones for the same.
    pub fn flag(&mut self, words: &str, older: &str) -> Result<bool, TextError> {
        if self.fields.is_empty() {
            return Ok(false);
        }
        let expected = format!("'{words}' or the end of the line");
        self.take(&expected, |field| (field == words || field == older).then_some(true))
    }

    /// No field is left.
    pub fn end(&self) -> Result<(), TextError> {
        let Some(field) = self.fields.front() else {
            return Ok(());
        };
        Err(TextError { line: self.number, expected: "the end of the line".to_string(), found: quoted(field) })
    }
}

/// The N of `name N`.
pub fn number_after(field: &str, name: &str, low: u32, high: u32) -> Option<u32> {
    number(after(field, name)?).filter(|number| (low..=high).contains(number))
}

fn number(text: &str) -> Option<u32> {
    text.bytes().all(|byte| byte.is_ascii_digit()).then(|| text.parse().ok())?
}

fn after<'t>(field: &'t str, name: &str) -> Option<&'t str> {
    field.strip_prefix(name)?.strip_prefix(' ')
}

fn set(text: &str) -> Option<Set> {
    let listed = text.strip_prefix('{')?.strip_suffix('}')?.trim();
    if listed.is_empty() {
        return Some(0);
    }
    listed.split(',').try_fold(0, |set, turnout| {
        let turnout = number(turnout.trim()).filter(|&n| n < 64)? as u8;
        (!holds(set, turnout)).then_some(set | only(turnout))
    })
}

/// Splits at the commas that stand outside sets.
fn split_fields(text: &str) -> VecDeque<String> {
    let mut in_set = false;
    let separates = |character: char| {
        match character {
            '{' => in_set = true,
            '}' => in_set = false,
            _ => {}
        }
        character == ',' && !in_set
    };
    text.split(separates).map(single_spaces).collect()
}

fn single_spaces(text: &str) -> String {
    text.split_whitespace().collect::<Vec<_>>().join(" ")
}

fn quoted(found: &str) -> String {
    if found.is_empty() {
        "nothing".to_string()
    } else {
        format!("'{found}'")
    }
}
