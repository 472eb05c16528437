//! The gears of a trace while it is still arriving, for the rider's display: the lines of a cycle table come one at a time, and each second is shown as
//! soon as the core has given it.
//!
//! A line that is no second of the table is never guessed. The core gets a second that it refuses, and a note says which line it is and what is expected.

use crate::arguments::Arguments;
use crate::files::{self, Given, LONGEST};
use crate::house_file::{mark_note, Columns};
use crate::kind::Kind;
use crate::refusals;
use crate::trace::{self, Second, Version, NO_SECOND};
use crate::{lines, note, print, row, vehicle, Failure, Told};
use std::ffi::OsString;
use std::io::{self, BufRead, Read};
use std::path::Path;
use ylhovesko::gear::Vehicle;
use ylhovesko::live::Live;
use ylhovesko::Refusal;

/// By which standard input is named.
const INPUT: &str = "standard input";

pub fn live(given: &[OsString]) -> Result<Told, Failure> {
    let arguments = Arguments::of(given, &[], &["--marks"])?;
    let [vehicle] = arguments.exactly("a vehicle sheet")?;
    let vehicle = files::vehicle(&vehicle)?;
    note(&vehicle.notes);
    let arriving = match Arriving::begun(Path::new(INPUT), &vehicle, Version::of_table(arguments.has("--marks"))) {
        Ok(arriving) => arriving,
        Err(refused) => return Ok(refused),
    };
    print(&row::second_heading())?;
    arriving.followed(io::stdin().lock(), &mut |prompt| print(&prompt.line()))
}

/// What `live` gives for a table of version 2, each second with the one that was received last by then.
pub fn of_table(table: &Path, vehicle: &Given<Vehicle>) -> Result<Told, Failure> {
    let bytes = files::read(table)?;
    let arriving = match Arriving::begun(table, vehicle, Version::Two) {
        Ok(arriving) => arriving,
        Err(refused) => return Ok(refused.noting(&vehicle.notes)),
    };
    let title = format!("Live gears of {} for {}", files::name(table), vehicle::name(vehicle));
    let mut text = format!("{title}\n\n{:>8}  {}", "given at", row::second_heading());
    let shown = arriving.followed(bytes.as_slice(), &mut |prompt| {
        let at = prompt.at.map_or("end".to_string(), |received| received.to_string());
        text += &format!("{at:>8}  {}", prompt.line());
        Ok(true)
    })?;
    let mut told = Told::accepted(text).noting(&vehicle.notes);
    told.add(shown);
    Ok(told)
}

/// A second that is given.
struct Prompt {
    /// The second that was received last; none at the end of the trace.
    at: Option<usize>,
    number: usize,
    /// The gear and the clutch.
    pair: [u8; 2],
}

impl Prompt {
    fn line(&self) -> String {
        row::second_line(self.number, self.pair)
    }
}

/// Shows a second, and whether it was seen.
type Show<'a> = dyn FnMut(Prompt) -> Result<bool, Failure> + 'a;

/// A trace that is arriving.
struct Arriving<'a> {
    /// Where its lines come from.
    table: &'a Path,
    version: Version,
    engine: Live,
    received: usize,
    given: usize,
}

impl<'a> Arriving<'a> {
    /// With nothing received yet; or what is said of a vehicle that the core refuses.
    fn begun(table: &'a Path, vehicle: &Given<Vehicle>, version: Version) -> Result<Arriving<'a>, Told> {
        let words = |refusal| refusals::line(refusal, &vehicle::found(&vehicle.text, refusal));
        let refused = |refusal| Told::refused(words(refusal) + "\n");
        let engine = Live::begin(version.number().into(), vehicle.value).map_err(refused)?;
        Ok(Arriving { table, version, engine, received: 0, given: 0 })
    }

    /// Takes line after line to the end of the table and shows what is given for each, until there is no one who sees it.
    fn followed(mut self, mut input: impl BufRead, show: &mut Show) -> Result<Told, Failure> {
        if let Some(heading) = self.line(&mut input)? {
            let columns = self.columns(&heading)?;
            while let Some(line) = self.line(&mut input)? {
                let given = match self.second(&columns, &line) {
                    Ok(given) => given,
                    Err(refused) => return Ok(refused),
                };
                if !self.shown(Some(self.received), given, show)? {
                    return Ok(Told::default());
                }
            }
        }
        match self.engine.end() {
            Ok(given) => self.shown(None, given, show).map(|_| Told::default()),
            Err(refusal) => Ok(self.refused(None, refusal)),
        }
    }

    /// The next line; none at the end of the input. One that is longer than any table is cut, and still too long to be a second.
    fn line(&self, input: &mut impl BufRead) -> Result<Option<String>, Failure> {
        let mut bytes = Vec::new();
        match input.take(LONGEST + 1).read_until(b'\n', &mut bytes) {
            Ok(0) => Ok(None),
            Ok(_) => Ok(String::from_utf8_lossy(&bytes).lines().next().map(str::to_string)),
            Err(error) => Err(self.failure(format!("cannot be read: {error}"))),
        }
    }

    fn columns(&self, heading: &str) -> Result<Columns, Failure> {
        let exchanged = Kind::Table.exchanged(heading.as_bytes());
        exchanged.map_or_else(|| Columns::of(heading), Err).map_err(|said| self.failure(said))
    }

    fn failure(&self, said: String) -> Failure {
        Failure::of_file(self.table, &[said])
    }

    /// Hands over the second of a line. What the core gives for it, or its refusal, with a note on a line that is at fault.
    fn second(&mut self, columns: &Columns, line: &str) -> Result<Option<[u8; 2]>, Told> {
        self.received += 1;
        let read = columns.second(line, self.received);
        let second = read.as_ref().ok().copied();
        self.engine.second(second.map_or(NO_SECOND, Second::handed_over)).map_err(|refusal| {
            let fault = read.map_or_else(Some, |second| mark_note(second, self.received, self.version));
            // Second 2,001 is refused whatever it holds: the refusal names no second then.
            let fault = fault.filter(|_| refusal.at > 0);
            self.refused(second, refusal).noting(&fault.map_or(String::new(), |fault| lines(self.table, &[fault])))
        })
    }

    /// The refusal in words, with what was read last.
    fn refused(&self, last: Option<Second>, refusal: Refusal) -> Told {
        let found = trace::found_live(self.received, last, self.version, refusal);
        Told::refused(refusals::line(refusal, &found) + "\n")
    }

    /// Shows what was given at a call, and whether it was seen.
    fn shown(&mut self, at: Option<usize>, given: impl IntoIterator<Item = [u8; 2]>, show: &mut Show) -> Result<bool, Failure> {
        for pair in given {
            self.given += 1;
            if !show(Prompt { at, number: self.given, pair })? {
                return Ok(false);
            }
        }
        Ok(true)
    }
}
