//! Drafts, as a technician types them from a scan: what mending fills and what it leaves open, and the trace that is made of a draft with nothing open.
//!
//! A draft is a house file of version 3, or a cycle table in which phases may be empty. Its first bytes tell which.

use crate::arguments::Arguments;
use crate::kind::Kind;
use crate::refusals::{self, Found};
use crate::trace::{self, kilometres_an_hour, Second, Trace, Version};
use crate::{files, house_file, lines, Failure, Told};
use std::ffi::OsString;
use std::path::Path;
use ylhovesko::draft::Mended;
use ylhovesko::Refusal;

/// The draft in a file, as a house file. A trace is handed on, so that the core refuses it.
fn read(path: &Path) -> Result<Trace, Failure> {
    let bytes = files::read(path)?;
    let failure = |said: String| Failure::of_file(path, &[said]);
    let note = Kind::Draft.exchanged(&bytes);
    let of_file = |bytes: Vec<u8>, notes: String| Trace { path: path.to_path_buf(), bytes, notes };
    match Kind::of(&bytes) {
        Some(Kind::Draft | Kind::Trace) => Ok(of_file(bytes, note.map_or(String::new(), |note| lines(path, &[note])))),
        None if files::is_named_trace(path) => Ok(of_file(bytes, String::new())),
        None | Some(Kind::Table) => {
            let seconds = house_file::seconds_of_draft(&bytes).map_err(failure)?;
            Ok(of_file(trace::draft_of(&seconds), String::new()))
        }
        Some(_) => Err(failure(note.unwrap_or_default())),
    }
}

/// `mend`: fills what can be filled, and says what.
pub fn mend(given: &[OsString]) -> Result<Told, Failure> {
    let arguments = Arguments::of(given, &["--csv", "--draft"], &[])?;
    let [path] = arguments.exactly("a draft")?;
    let [csv, file] = arguments.outputs(["--csv", "--draft"])?;
    let draft = read(&path)?;
    let mended = match mended(&draft) {
        Ok(mended) => mended,
        Err(refused) => return Ok(refused),
    };
    if let Some(path) = csv {
        files::write(path, &house_file::table_of(&trace::seconds(&mended.bytes), true))?;
    }
    if let Some(path) = file {
        files::write_trace(path, &mended.bytes)?;
    }
    Ok(Told::accepted(text(&files::name(&path), &mended)).noting(&draft.notes))
}

/// What a draft is mended to; or why the core refuses it.
fn mended(draft: &Trace) -> Result<Mended, Told> {
    let refused = |refusal| refused(draft, &trace::found_in_draft(&draft.bytes, refusal), refusal);
    ylhovesko::draft::mend(&draft.bytes).map_err(refused)
}

/// What `mend` prints of a file, and what `turn` says of what was mended.
pub fn of_file(path: &Path) -> Result<Vec<Told>, Failure> {
    let (draft, name) = (read(path)?, files::name(path));
    let mended = match mended(&draft) {
        Ok(mended) => mended,
        Err(refused) => return Ok(vec![refused]),
    };
    let turned = match turned(&mended.bytes) {
        Ok(trace) => house_file::made(&name, &trace, Version::One),
        Err((refusal, found)) => {
            Told::refused(refusals::line(refusal, &found) + "\n").as_example(&format!("Turning of what {name} was mended to"))
        }
    };
    Ok(vec![Told::accepted(text(&name, &mended)).noting(&draft.notes), turned])
}

/// The refusal of a draft in words, with its file.
fn refused(draft: &Trace, found: &Found, refusal: Refusal) -> Told {
    Told::refused(format!("{}: {}\n", draft.path.display(), refusals::line(refusal, found))).noting(&draft.notes)
}

/// What was mended: each second that was changed with the phase that it took, and each that is left open with the reason.
fn text(name: &str, Mended { bytes, changed, open }: &Mended) -> String {
    let seconds = trace::seconds(bytes);
    let took = |number: &u16| second_line(*number, &seconds, at(&seconds, *number).phase_name());
    let filled: String = changed.iter().map(took).collect();
    let left: String = open.chunk_by(|one, next| one + 1 == *next).map(|gap| gap_lines(&seconds, gap)).collect();
    let counts = format!("{} changed, {} left open", changed.len(), open.len());
    let lists = [("Changed", "phase", filled), ("Left open", "why", left)].map(|(title, last, lines)| list(title, last, &lines));
    format!("Mending of {name}, {} seconds: {counts}\n{}", seconds.len(), lists.concat())
}

/// A list under its title and the heading of its last column; nothing where it has no line.
fn list(title: &str, last: &str, lines: &str) -> String {
    if lines.is_empty() {
        return String::new();
    }
    format!("\n{title}\n{:>6} {:>8}  {last}\n{lines}", "second", "km/h")
}

/// The second with this number, which counts from 1.
fn at(seconds: &[Second], number: u16) -> Second {
    seconds[usize::from(number) - 1]
}

fn second_line(number: u16, seconds: &[Second], last: &str) -> String {
    format!("{number:>6} {:>8}  {last}\n", kilometres_an_hour(at(seconds, number).speed))
}

/// The lines of a gap that is left open.
fn gap_lines(seconds: &[Second], gap: &[u16]) -> String {
    let why = why(seconds, gap[0].into(), gap[gap.len() - 1].into());
    gap.iter().map(|number| second_line(*number, seconds, why)).collect()
}

/// Why the gap from this second to that one, which count from 1, stays open, for a technician to read: the core alone judges it.
fn why(seconds: &[Second], first: usize, last: usize) -> &'static str {
    if first == 1 || last == seconds.len() {
        return "at an end of the draft";
    }
    let around = &seconds[first - 2..=last];
    let phases_differ = around[0].phase() != around[around.len() - 1].phase();
    let speeds_differ = around.iter().any(|second| second.speed != around[0].speed);
    match (phases_differ, speeds_differ) {
        (true, true) => "phases and speeds differ",
        (true, false) => "phases differ",
        (false, _) => "speeds differ",
    }
}

/// The trace of version 1 that a draft is turned into; or the refusal in words.
fn turned(draft: &[u8]) -> Result<Vec<u8>, (Refusal, Found)> {
    ylhovesko::draft::turn(draft).map_err(|refusal| (refusal, found_in_turning(draft, refusal)))
}

/// Where the refusal of a turning lies, and what stands there. A second that mending does not refuse is an open one.
fn found_in_turning(draft: &[u8], refusal: Refusal) -> Found {
    if refusal.number != 4 || ylhovesko::draft::mend(draft).err() == Some(refusal) {
        return trace::found_in_draft(draft, refusal);
    }
    let speed = at(&trace::seconds(draft), refusal.at as u16).speed;
    Found { place: format!("second {}", refusal.at), value: format!("its phase is missing, at {} km/h", kilometres_an_hour(speed)) }
}

/// `turn`: a draft with nothing open into a trace.
pub fn turn(given: &[OsString]) -> Result<Told, Failure> {
    let [path, file] = Arguments::of(given, &[], &[])?.exactly("a draft and the trace to be made")?;
    files::apart(&path, &file)?;
    let draft = read(&path)?;
    let trace = match turned(&draft.bytes) {
        Ok(trace) => trace,
        Err((refusal, found)) => return Ok(refused(&draft, &found, refusal)),
    };
    files::write_trace(&file, &trace)?;
    Ok(house_file::made(&file.display().to_string(), &trace, Version::One))
}
