//! A stored result: the comma-separated values that `result` wrote, of which a lot reads the weighted gases.
//!
//! A line that is missing, malformed or given twice is never guessed. Its gas is read as none, so that the core gets ends that it refuses; a note says
//! which line it is and what is expected.

use crate::refusals::{measured, GASES, NMHC};
use crate::result_sheet::{not_measured, verdict_of, Weighted, WeightedGases, WEIGHTED};
use crate::sheet::quoted;
use std::path::PathBuf;
use ylhovesko::bags::Ends;

/// A stored result that was read, with a line for each note on its file.
pub struct StoredResult {
    pub path: PathBuf,
    pub weighted: WeightedGases,
    pub notes: String,
}

/// A line of a weighted gas: what stands after the gas is not yet read.
struct Line<'a> {
    number: usize,
    gas: &'a str,
    rest: &'a str,
}

fn expected(gas: &str) -> String {
    let figures = "'LOWER,UPPER,LIMIT,VERDICT' with whole numbers and verdict pass, fail or undecided";
    if gas != NMHC {
        return figures.to_string();
    }
    format!("{figures}, or '{}' where no part has it", not_measured())
}

/// The weighted gases of such a text, and what is said of the lines that are at fault.
pub fn read(text: &str) -> (WeightedGases, Vec<String>) {
    let lines: Vec<Line> = (1..).zip(text.lines()).filter_map(|(number, written)| line_of(number, written)).collect();
    let unknown = lines.iter().filter(|line| !GASES.contains(&line.gas));
    let mut notes: Vec<String> = unknown.map(|line| format!("line {}: unknown gas {}", line.number, quoted(line.gas))).collect();
    let has_nmhc = has_nmhc(text, &lines);
    let each = std::array::from_fn(|at| {
        let gas = measured(has_nmhc).get(at)?;
        let named: Vec<&Line> = lines.iter().filter(|line| line.gas == *gas).collect();
        only(gas, &named).map_err(|note| notes.push(note)).ok()
    });
    (WeightedGases { each, has_nmhc }, notes)
}

/// A result has NMHC where any line names it, but for one that says that it is not measured. What was stored before there was a cutter names it nowhere.
fn has_nmhc(text: &str, weighted: &[Line]) -> bool {
    let in_a_part = text.lines().map(str::trim).any(|line| !line.starts_with(',') && line.split(',').nth(2) == Some(NMHC));
    let said: Vec<&str> = weighted.iter().filter(|line| line.gas == NMHC).map(|line| line.rest).collect();
    in_a_part || !(said.is_empty() || said == [not_measured()])
}

fn line_of(number: usize, written: &str) -> Option<Line<'_>> {
    let weighted = written.trim().strip_prefix(&format!(",{WEIGHTED},"))?;
    let (gas, rest) = weighted.split_once(',').unwrap_or((weighted, ""));
    Some(Line { number, gas, rest })
}

/// What the one line of a gas says, or what is wrong with it.
fn only(gas: &str, lines: &[&Line]) -> Result<Weighted, String> {
    match lines {
        [] => Err(format!("weighted {gas} is missing, expected is {}", expected(gas))),
        [line] => weighted(line.rest)
            .ok_or_else(|| format!("line {}: weighted {gas} is {}, expected is {}", line.number, quoted(line.rest), expected(gas))),
        [first, again, ..] => Err(format!("line {}: weighted {gas} stands in line {} already", again.number, first.number)),
    }
}

fn weighted(rest: &str) -> Option<Weighted> {
    let cells: Vec<&str> = rest.split(',').collect();
    let [lower, upper, limit, verdict] = cells.try_into().ok()?;
    let ends = Ends { lower: lower.parse().ok()?, upper: upper.parse().ok()? };
    Some(Weighted { ends, limit: limit.parse().ok()?, verdict: verdict_of(verdict)? })
}
