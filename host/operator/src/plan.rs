//! Plans: the rows of many vehicles on one trace, of which a planner has the seconds in each gear, the shifts and the seconds with the clutch out.

use crate::arguments::Arguments;
use crate::cells::cell;
use crate::list::{self, List, Named};
use crate::numbers::grouped;
use crate::{files, note, refusals, row, trace, Failure, Told};
use std::ffi::OsString;
use std::io::{self, IsTerminal};
use std::path::Path;
use ylhovesko::gear::Vehicle;
use ylhovesko::plan;
use ylhovesko::Refusal;

/// How many vehicles a call of the core has at most, so that a long run can say how far it is and takes no more room than the rows of so many.
const BLOCK: usize = 4096;

pub fn plan(given: &[OsString]) -> Result<Told, Failure> {
    let arguments = Arguments::of(given, &["--csv"], &[])?;
    let [trace, list] = arguments.exactly("a trace and a list of vehicles")?;
    let [csv] = arguments.outputs(["--csv"])?;
    of_files(&trace, &list, csv)
}

/// The table itself where no file is named for it, so that it can be handed on; else how many vehicles it has.
fn of_files(trace: &Path, list: &Path, csv: Option<&Path>) -> Result<Told, Failure> {
    let (title, lines, notes) = match lines_of(trace, list)? {
        Ok(planned) => planned,
        Err(refused) => return Ok(refused),
    };
    let Some(path) = csv else { return Ok(Told::accepted(lines).noting(&notes)) };
    files::write(path, &lines)?;
    Ok(Told::accepted(title + "\n").noting(&notes))
}

/// The table under its title, as the demo shows it.
pub fn under_title(trace: &Path, list: &Path) -> Result<Told, Failure> {
    Ok(match lines_of(trace, list)? {
        Ok((title, lines, notes)) => Told::accepted(format!("{title}\n\n{lines}")).noting(&notes),
        Err(refused) => refused,
    })
}

/// The title, the table and the notes on the files of a plan; or what is said of a trace that the core refuses.
fn lines_of(trace_path: &Path, list_path: &Path) -> Result<Result<(String, String, String), Told>, Failure> {
    let trace = files::trace(trace_path)?;
    let List { vehicles, notes } = list::read(list_path)?;
    let notes = trace.notes + &notes;
    let answers = match answers_of(&trace.bytes, &vehicles) {
        Ok(answers) => answers,
        Err(refusal) => {
            let line = refusals::line(refusal, &trace::found(&trace.bytes, refusal));
            return Ok(Err(Told::refused(line + "\n").noting(&notes)));
        }
    };
    let refused = answers.iter().filter(|answer| answer.is_err()).count();
    let seconds = trace::seconds(&trace.bytes).len();
    let (list, trace) = (files::name(list_path), files::name(trace_path));
    let title = format!(
        "Plan of {list} on {trace}, {seconds} seconds: {} vehicles, {} refused",
        grouped_count(vehicles.len()),
        grouped_count(refused)
    );
    let lines = vehicles.iter().zip(&answers).map(|(named, answer)| csv_line(&named.name, answer));
    Ok(Ok((title, format!("{}\n{}", heading(), lines.collect::<String>()), notes)))
}

fn grouped_count(count: usize) -> String {
    grouped(count as i128)
}

/// What a planner has of a row.
struct Counts {
    /// In neutral, and in gears 1 to 8.
    seconds: [usize; 9],
    /// How often the gear is another than in the second before.
    shifts: usize,
    clutch_out: usize,
}

impl Counts {
    fn of(row: &[[u8; 2]]) -> Counts {
        let in_gear = |gear: usize| row.iter().filter(|[each, _]| usize::from(*each) == gear).count();
        Counts {
            seconds: std::array::from_fn(in_gear),
            shifts: row.windows(2).filter(|pair| pair[0][0] != pair[1][0]).count(),
            clutch_out: row.iter().filter(|[_, clutch]| row::is_out(*clutch)).count(),
        }
    }
}

/// What is said of each vehicle, from one call of the core for each block of them.
fn answers_of(trace: &[u8], vehicles: &[Named]) -> Result<Vec<Result<Counts, Refusal>>, Refusal> {
    let progress = Progress::of(vehicles.len());
    let mut answers = Vec::with_capacity(vehicles.len());
    let blocks = vehicles.chunks(BLOCK).map(|block| block.iter().map(|named| named.vehicle).collect::<Vec<Vehicle>>());
    // a list of none is asked for too, since its trace may be refused
    for block in blocks.chain(vehicles.is_empty().then(Vec::new)) {
        let planned = plan::plan(trace, &block)?;
        answers.extend(planned.rows().map(|row| row.map(Counts::of)));
        progress.show(answers.len());
    }
    progress.clear();
    Ok(answers)
}

/// What a line of the table has.
fn heading() -> String {
    let gears: String = (1..=8).map(|gear| format!(",seconds in gear {gear}")).collect();
    format!("name,refusal,place,seconds in neutral{gears},shifts,seconds with the clutch out")
}

/// A line of the table. What there is not is empty: of an accepted vehicle the refusal and its place, of a refused one all figures.
fn csv_line(name: &str, answer: &Result<Counts, Refusal>) -> String {
    let name = cell(name);
    match answer {
        Ok(Counts { seconds, shifts, clutch_out }) => {
            let seconds: String = seconds.iter().map(|count| format!(",{count}")).collect();
            format!("{name},,{seconds},{shifts},{clutch_out}\n")
        }
        Err(Refusal { number, at, .. }) => {
            let place = if *at == 0 { String::new() } else { at.to_string() };
            format!("{name},{number},{place}{}\n", ",".repeat(11))
        }
    }
}

/// How far a long run is, on the error stream while it lasts. There is none where that is no terminal, or the core is called once.
struct Progress {
    total: usize,
    is_shown: bool,
}

/// How many signs the bar has.
const BAR: usize = 40;

/// `[####....] 8,192 of 16,000 vehicles`.
fn bar(done: usize, total: usize) -> String {
    let full = BAR * done / total.max(1);
    format!("[{}{}] {} of {} vehicles", "#".repeat(full), ".".repeat(BAR - full), grouped_count(done), grouped_count(total))
}

impl Progress {
    fn of(total: usize) -> Progress {
        Progress { total, is_shown: total > BLOCK && io::stderr().is_terminal() }
    }

    fn show(&self, done: usize) {
        if self.is_shown {
            note(&format!("\r{}", bar(done, self.total)));
        }
    }

    /// Takes the bar away, before anything else is said there.
    fn clear(&self) {
        if self.is_shown {
            note(&format!("\r{}\r", " ".repeat(bar(self.total, self.total).len())));
        }
    }
}

#[cfg(test)]
mod tests {
    use super::*;

    #[test]
    fn a_bar_grows() {
        assert_eq!(bar(0, 16_000), format!("[{}] 0 of 16,000 vehicles", ".".repeat(40)));
        assert_eq!(bar(8000, 16_000), format!("[{}{}] 8,000 of 16,000 vehicles", "#".repeat(20), ".".repeat(20)));
        assert_eq!(bar(16_000, 16_000), format!("[{}] 16,000 of 16,000 vehicles", "#".repeat(40)));
        let lengths = (0..=16_000).map(|done| bar(done, 16_000).len());
        assert_eq!(lengths.max(), Some(bar(16_000, 16_000).len()), "what is cleared is as long as any");
    }

    #[test]
    fn counts_of_a_row() {
        let row = [[0, 1], [1, 1], [1, 0], [2, 0], [3, 1], [2, 0], [1, 1], [1, 1]];
        let Counts { seconds, shifts, clutch_out } = Counts::of(&row);
        assert_eq!((seconds, shifts, clutch_out), ([1, 4, 2, 1, 0, 0, 0, 0, 0], 5, 5));
        assert_eq!(Counts::of(&row[..1]).shifts, 0);
    }
}
