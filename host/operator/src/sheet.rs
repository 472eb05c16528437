//! A sheet's text: lines `key = value`, comments from `#` on, sections in square brackets.
//!
//! A value that is missing, malformed or given twice is never guessed. It is read as one that lies outside the range of every field of its type, so
//! that the core refuses it and says where it stands. What a sheet holds beside its values is named in a note.

use crate::field::{Form, Key};
use crate::numbers::grouped;
use ylhovesko::bags::Reading;

/// No unsigned field of a sheet reaches this.
pub const NO_UNSIGNED: u32 = u32::MAX;
/// No limit reaches this.
const NO_LIMIT: u64 = u64::MAX;
/// No temperature reaches this.
const NO_TEMPERATURE: i32 = i32::MIN;
/// No reading is taken that is this. Not fitted would be, of the cutter, and would leave NMHC out.
const NO_READING: Reading = Reading::OVER_RANGE;

/// A line `key = value`.
#[derive(Debug)]
struct Entry {
    key: String,
    value: String,
    line: usize,
}

/// What stands under one heading, or before the first.
#[derive(Debug, Default)]
pub struct Section {
    pub heading: String,
    line: usize,
    entries: Vec<Entry>,
}

impl Section {
    fn value(&self, key: &str) -> Option<&str> {
        let mut named = self.entries.iter().filter(|entry| entry.key == key);
        named.next().filter(|_| named.next().is_none()).map(|entry| entry.value.as_str())
    }

    /// Whether a line names the key, with whatever value.
    pub fn names(&self, key: &str) -> bool {
        self.entries.iter().any(|entry| entry.key == key)
    }

    /// A value as it is written, a whole number in groups of digits.
    pub fn told(&self, key: &Key) -> String {
        let written = self.value(&key.name).filter(|value| is_readable(value, &key.form));
        written.map_or("no value".to_string(), |value| whole_of(value).map_or(lowered(value), grouped))
    }

    /// `3,001; 1 to 3,000 in 0.1 kW`.
    pub fn told_with_range(&self, key: &Key) -> String {
        format!("{}; {}", self.told(key), key.form.range())
    }

    /// Whether the key's whole number lies in its range, for the choice of the one that is shown.
    pub fn in_range(&self, key: &Key) -> bool {
        matches!(key.form, Form::Whole(range) if self.whole(&key.name).is_some_and(|number| range.has(number)))
    }

    fn whole(&self, key: &str) -> Option<i128> {
        self.value(key).and_then(whole_of)
    }

    pub fn unsigned(&self, key: &str) -> u32 {
        self.value(key).map_or(NO_UNSIGNED, unsigned_of)
    }

    pub fn limit(&self, key: &str) -> u64 {
        self.whole(key).and_then(|number| number.try_into().ok()).unwrap_or(NO_LIMIT)
    }

    pub fn temperature(&self, key: &str) -> i32 {
        self.whole(key).and_then(|number| number.try_into().ok()).unwrap_or(NO_TEMPERATURE)
    }

    pub fn reading(&self, key: &str) -> Reading {
        self.value(key).and_then(reading_of).unwrap_or(NO_READING)
    }

    /// Says which lines name a key that is not among the known ones, or one that stood before, or a value that is none of its key's; and which
    /// keys no line names.
    fn notes(&self, known: &[Key]) -> Vec<String> {
        let mut notes: Vec<String> = (0..self.entries.len()).filter_map(|at| self.note(known, at)).collect();
        let missing = known.iter().filter(|key| key.needed && !self.names(&key.name));
        let place = if self.heading.is_empty() { String::new() } else { format!("line {}: [{}]: ", self.line, self.heading) };
        notes.extend(missing.map(|key| format!("{place}'{}' is missing, expected is {}", key.name, key.form.expected())));
        notes
    }

    fn note(&self, known: &[Key], at: usize) -> Option<String> {
        let Entry { key, value, line } = &self.entries[at];
        let Some(Key { form, .. }) = known.iter().find(|other| other.name == *key) else {
            return Some(format!("line {line}: unknown key {}", quoted(key)));
        };
        if let Some(first) = self.entries[..at].iter().find(|other| other.key == *key) {
            return Some(format!("line {line}: key '{key}' stands in line {} already", first.line));
        }
        (!is_readable(value, form)).then(|| format!("line {line}: '{key}' is {}, expected is {}", quoted(value), form.expected()))
    }
}

/// Whether a value is of its key's form. A whole number may be one that is too large for its field, which the core refuses with its range.
fn is_readable(value: &str, form: &Form) -> bool {
    match form {
        Form::Kind => true,
        Form::Whole(_) => whole_of(value).is_some(),
        Form::Reading | Form::CutterReading => reading_of(value).is_some(),
    }
}

/// A whole number with more room than any field has, so that one that no field takes can still be shown.
fn whole_of(value: &str) -> Option<i128> {
    value.parse().ok()
}

/// Whether a value is a whole number, though perhaps one that no field takes.
pub fn is_whole(value: &str) -> bool {
    whole_of(value).is_some()
}

/// The number of an unsigned field; one that no field takes where it is none.
pub fn unsigned_of(value: &str) -> u32 {
    whole_of(value).and_then(|number| number.try_into().ok()).unwrap_or(NO_UNSIGNED)
}

/// What is said of a text with a byte that is none.
pub fn no_text(bytes: &[u8]) -> Option<String> {
    let error = std::str::from_utf8(bytes).err()?;
    let line = 1 + bytes[..error.valid_up_to()].iter().filter(|&&byte| byte == b'\n').count();
    Some(format!("line {line}: a byte that is no UTF-8 text"))
}

/// `12.5 ppm`, `1.2 %`, `over range` or `not fitted`.
fn reading_of(value: &str) -> Option<Reading> {
    match lowered(value).as_str() {
        "over range" => Some(Reading::OVER_RANGE),
        "not fitted" => Some(Reading::NOT_FITTED),
        other => {
            if let Some(number) = other.strip_suffix("ppm") {
                return decimal(number.trim()).map(Reading::ppm);
            }
            decimal(other.strip_suffix('%')?.trim()).map(Reading::percent)
        }
    }
}

/// Only what is written in digits: the words for infinity and for no number are not readings.
fn decimal(number: &str) -> Option<f32> {
    let digits = number.chars().all(|c| c.is_ascii_digit() || "+-.e".contains(c));
    number.parse().ok().filter(|_| digits)
}

/// In small letters, with one space between words.
fn lowered(words: &str) -> String {
    words.split_whitespace().collect::<Vec<_>>().join(" ").to_ascii_lowercase()
}

/// The most of a file's own words that a note shows.
const SHOWN: usize = 60;

/// A file's own words in a note, in quotes; what would move a terminal's cursor is spelt out, and what is no text is a question mark.
pub fn quoted(words: &str) -> String {
    let shown: String = words.chars().take(SHOWN).collect();
    let rest = if words.chars().nth(SHOWN).is_some() { " .." } else { "" };
    format!("'{}'{rest}", shown.replace('\u{fffd}', "?").escape_debug())
}

/// A sheet as it is written.
#[derive(Debug, Default)]
pub struct Sheet {
    /// The value of the first key, where that is `sheet` and stands there alone.
    pub kind: Option<String>,
    /// What stands before the first heading.
    pub head: Section,
    pub sections: Vec<Section>,
    unread: bool,
    /// What was found that is no part of a sheet.
    pub notes: Vec<String>,
}

impl Sheet {
    /// Reads the text of a sheet, however damaged.
    pub fn read(bytes: &[u8]) -> Sheet {
        let text = String::from_utf8_lossy(bytes);
        let mut sheet = split(text.trim_start_matches('\u{feff}'));
        sheet.notes.extend(no_text(bytes));
        let is_first = sheet.head.entries.first().is_some_and(|entry| entry.key == "sheet");
        sheet.kind = sheet.head.value("sheet").filter(|_| is_first).map(lowered);
        sheet
    }

    /// A sheet of which nothing was read, with a note that says why.
    pub fn unread(note: String) -> Sheet {
        Sheet { unread: true, notes: vec![note], ..Sheet::default() }
    }

    /// The sheet where it says that it is of this kind, else one without a value: nothing is taken from what says that it is something else.
    pub fn of_kind(self, kind: &str) -> Sheet {
        if self.kind.as_deref() == Some(kind) {
            return self;
        }
        let notes = self.notes_without_kind(&format!("not 'sheet = {kind}'"));
        Sheet { unread: true, notes, ..Sheet::default() }
    }

    /// The notes on a file whose first key is not the one that it should be: of what is no sheet no line is shown.
    pub fn notes_without_kind(self, is: &str) -> Vec<String> {
        if self.unread {
            return self.notes;
        }
        vec![format!("its first key is {is}")]
    }

    /// Nothing that was written is passed over, and nothing that was left out: what is no value of a known key is named.
    pub fn note_keys(&mut self, head: &[Key], section: &[Key]) {
        if self.unread {
            return;
        }
        self.notes.extend(self.head.notes(head));
        self.notes.extend(self.sections.iter().flat_map(|part| part.notes(section)));
    }

    /// Names each section that is none of the expected ones, or does not stand in its place among them.
    pub fn note_sections(&mut self, expected: &[&str]) {
        for (at, Section { heading, line, .. }) in self.sections.iter().enumerate() {
            if !expected.contains(&heading.as_str()) {
                self.notes.push(format!("line {line}: unknown section {}", quoted(heading)));
            } else if expected.get(at) != Some(&heading.as_str()) {
                let due = expected.get(at).map_or("none".to_string(), |due| format!("'{due}'"));
                self.notes.push(format!("line {line}: section '{heading}' stands where {due} is expected"));
            }
        }
    }
}

/// What stands before the first heading, and the sections; the lines that are neither empty, a heading nor `key = value` are noted.
fn split(text: &str) -> Sheet {
    let mut sheet = Sheet::default();
    for (line, written) in (1..).zip(text.lines()) {
        let said = written.split('#').next().unwrap_or("").trim();
        if said.is_empty() {
            continue;
        }
        if let Some(heading) = said.strip_prefix('[').and_then(|rest| rest.strip_suffix(']')) {
            sheet.sections.push(Section { heading: lowered(heading), line, entries: Vec::new() });
        } else if let Some((key, value)) = said.split_once('=') {
            let entry = Entry { key: lowered(key), value: value.trim().to_string(), line };
            sheet.sections.last_mut().unwrap_or(&mut sheet.head).entries.push(entry);
        } else {
            sheet.notes.push(format!("line {line}: neither 'key = value' nor a heading: {}", quoted(said)));
        }
    }
    sheet
}
