//! A cycle table in comma-separated values becomes a house file, and a trace becomes such a table again.
//!
//! The table's columns are second, speed in 0.1 km/h and phase (stop, acc, cruise, dec), and of some tables also the marks "no gear-shift" and
//! "no 1. gear" (0 or 1). A table that is not of this form makes no file, nor does one whose trace the core refuses. Version 2 is made, which has no marks:
//! so that none is lost in silence, a table with a mark is refused unless version 1 is asked for. A table in which a phase is empty is a draft (draft.rs).

use crate::arguments::Arguments;
use crate::files::{self, LONGEST};
use crate::kind::Kind;
use crate::refusals::line;
use crate::sheet::quoted;
use crate::trace::{self, Second, Version};
use crate::{lines, Failure, Told};
use std::ffi::OsString;
use std::path::Path;
use ylhovesko::gear::judge_trace;
use ylhovesko::Refusal;

/// The first line of a table, by which it is known.
pub const HEADING: &str = "second,speed_tenths,phase";
/// That of a table with the marks.
pub const MARKED_HEADING: &str = "second,speed_tenths,phase,no_gearshift,no_first";

/// As the table names them, in the order of the trace's flags.
const PHASES: [&str; 4] = ["stop", "acc", "cruise", "dec"];

/// What the heading of a table says of its lines, and whether a phase may be empty there.
pub struct Columns {
    has_marks: bool,
    of_draft: bool,
}

impl Columns {
    /// By the first line of a table; or what is said of another line.
    pub fn of(heading: &str) -> Result<Columns, String> {
        let has_marks = match heading.trim_start_matches('\u{feff}').trim() {
            HEADING => false,
            MARKED_HEADING => true,
            _ => return Err(format!("the first line is neither '{HEADING}' nor '{MARKED_HEADING}'")),
        };
        Ok(Columns { has_marks, of_draft: false })
    }

    /// The same of a draft.
    fn of_draft(heading: &str) -> Result<Columns, String> {
        Columns::of(heading).map(|columns| Columns { of_draft: true, ..columns })
    }

    /// The second of a line, where it is that of the second that is due; or what is said of a line of another form.
    pub fn second(&self, line: &str, due: usize) -> Result<Second, String> {
        let expected = || {
            let form = if self.has_marks { "SPEED,PHASE,MARK,MARK" } else { "SPEED,PHASE" };
            let phases = if self.of_draft { "stop, acc, cruise, dec or none" } else { "stop, acc, cruise or dec" };
            let (at, found) = (line_of(due), quoted(line));
            format!("line {at}: {found}, expected is '{due},{form}' with phase {phases}")
        };
        second_of(line, due, self).ok_or_else(expected)
    }
}

fn mark(word: &str) -> Option<bool> {
    match word {
        "0" => Some(false),
        "1" => Some(true),
        _ => None,
    }
}

/// A phase by its name, or none where it is missing and may be.
fn phase_of(name: &str, may_be_missing: bool) -> Option<Option<usize>> {
    if name.is_empty() && may_be_missing {
        return Some(None);
    }
    PHASES.iter().position(|known| *known == name).map(Some)
}

/// A second, where the line is that of the second that is due; with the marks where the table has them. A line that is too long may have been cut, and
/// would be another.
fn second_of(line: &str, due: usize, columns: &Columns) -> Option<Second> {
    if line.len() as u64 > LONGEST {
        return None;
    }
    let fields: Vec<&str> = line.trim().split(',').collect();
    let [second, speed, phase, marks @ ..] = fields.as_slice() else { return None };
    if second.parse() != Ok(due) {
        return None;
    }
    let [no_shift, no_first] = match (columns.has_marks, marks) {
        (true, [no_shift, no_first]) => [mark(no_shift)?, mark(no_first)?],
        (false, []) => [false; 2],
        _ => return None,
    };
    Some(Second::of(speed.parse().ok()?, phase_of(phase, columns.of_draft)?, no_shift, no_first))
}

/// The line of a table in which a second stands; the heading is line 1.
fn line_of(second: usize) -> usize {
    second + 1
}

/// The seconds of a table, by its first line. It is no longer than [`LONGEST`], so that they are no more than a house file can count.
fn seconds_of(table: &[u8], by_heading: fn(&str) -> Result<Columns, String>) -> Result<Vec<Second>, String> {
    if table.len() as u64 > LONGEST {
        return Err(format!("it is longer than {LONGEST} bytes"));
    }
    let text = String::from_utf8_lossy(table);
    let mut lines = text.lines();
    let columns = by_heading(lines.next().unwrap_or_default())?;
    lines.zip(1..).map(|(line, due)| columns.second(line, due)).collect()
}

/// The seconds of a table in which phases may be missing.
pub fn seconds_of_draft(table: &[u8]) -> Result<Vec<Second>, String> {
    seconds_of(table, Columns::of_draft)
}

/// The seconds of a table in a file; a draft is none, and it is said who reads it.
fn read(table: &Path) -> Result<Vec<Second>, Failure> {
    let bytes = files::read(table)?;
    let exchanged = Kind::Table.exchanged(&bytes);
    let seconds = exchanged.map_or_else(|| seconds_of(&bytes, Columns::of), Err);
    seconds.map_err(|complaint| {
        let who_reads_it = if seconds_of_draft(&bytes).is_ok() { "; this is a draft: 'mend' and 'turn' read it" } else { "" };
        Failure::of_file(table, &[complaint + who_reads_it])
    })
}

/// The trace of a table in this version; or what is said of one that the core refuses.
pub fn trace_of(table: &Path, version: Version) -> Result<Result<Vec<u8>, Told>, Failure> {
    let seconds = read(table)?;
    Ok(trace::house_file(&seconds, version).map_err(|refusal| refused(table, &seconds, version, refusal)))
}

/// Why the core takes no trace of a table; and how a mark is kept, where version 2 was to be made of one.
fn refused(table: &Path, seconds: &[Second], version: Version, refusal: Refusal) -> Told {
    let found = trace::found_in_making(seconds, version, refusal);
    let told = Told::refused(format!("{}: {}\n", table.display(), line(refusal, &found)));
    let at = refusal.at as usize;
    let note = at.checked_sub(1).and_then(|index| mark_note(*seconds.get(index)?, at, version));
    told.noting(&note.map_or(String::new(), |note| lines(table, &[note])))
}

/// How the marks of the second at this place are kept, where the trace is of version 2, which has none.
pub fn mark_note(second: Second, at: usize, version: Version) -> Option<String> {
    let marks = second.marks().filter(|_| version == Version::Two)?;
    Some(format!("line {}: {marks}; with --marks the trace is of version 1, which keeps the marks", line_of(at)))
}

/// `part1_unmarked.wtr: a trace of 600 seconds, version 2`.
pub fn made(name: &str, trace: &[u8], version: Version) -> Told {
    Told::accepted(format!("{name}: a trace of {} seconds, version {}\n", trace::seconds(trace).len(), version.number()))
}

/// `house-file`: a table into a trace.
pub fn house_file(given: &[OsString]) -> Result<Told, Failure> {
    let arguments = Arguments::of(given, &[], &["--marks"])?;
    let [table, file] = arguments.exactly("a cycle table and the trace to be made")?;
    files::apart(&table, &file)?;
    let version = Version::of_table(arguments.has("--marks"));
    let trace = match trace_of(&table, version)? {
        Ok(trace) => trace,
        Err(refused) => return Ok(refused),
    };
    files::write_trace(&file, &trace)?;
    Ok(made(&file.display().to_string(), &trace, version))
}

/// The table of an accepted trace or draft, with the marks where its version has them.
pub fn table_of(seconds: &[Second], has_marks: bool) -> String {
    let heading = if has_marks { MARKED_HEADING } else { HEADING };
    let lines = (1..).zip(seconds).map(|(number, second)| {
        let marks = [second.no_shift(), second.no_first()].map(u8::from);
        let marks = if has_marks { format!(",{},{}", marks[0], marks[1]) } else { String::new() };
        let phase = if second.is_open() { "" } else { PHASES[second.phase()] };
        format!("{number},{},{phase}{marks}\n", second.speed)
    });
    format!("{heading}\n{}", lines.collect::<String>())
}

/// `table`: a trace into a table.
pub fn table(given: &[OsString]) -> Result<Told, Failure> {
    let [path, made] = Arguments::of(given, &[], &[])?.exactly("a trace and the cycle table to be made")?;
    files::apart(&path, &made)?;
    let trace = files::trace(&path)?;
    if let Err(refusal) = judge_trace(&trace.bytes) {
        let line = line(refusal, &trace::found(&trace.bytes, refusal));
        return Ok(Told::refused(format!("{}: {line}\n", path.display())).noting(&trace.notes));
    }
    let seconds = trace::seconds(&trace.bytes);
    files::write(&made, &table_of(&seconds, Version::of(&trace.bytes) == Some(Version::One)))?;
    Ok(Told::accepted(format!("{}: a table of {} seconds\n", made.display(), seconds.len())))
}
