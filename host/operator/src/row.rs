//! The gear row: a trace's seconds with the gear and the clutch that the core gave them.

use crate::trace::{self, kilometres_an_hour};
use ylhovesko::gear::{gears, Vehicle};
use ylhovesko::Refusal;

/// One second of the row.
#[derive(Clone, Copy, Debug, PartialEq, Eq)]
pub struct Second {
    /// In its trace, from 1.
    pub number: usize,
    /// In 0.1 km/h.
    pub speed: u16,
    pub phase: &'static str,
    /// 0 is neutral.
    pub gear: u8,
    pub clutch_out: bool,
}

/// The seconds of a trace in turn.
pub type Row = Vec<Second>;

/// The row of a trace for a vehicle, or why the core gives none.
pub fn row_of(trace: &[u8], vehicle: Vehicle) -> Result<Row, Refusal> {
    rows_of(&[trace], vehicle).map(|rows| rows.concat()).map_err(|(_, refusal)| refusal)
}

/// The rows of the parts of a test, one after the other in one buffer; or the first part that the core refuses, from 0, and why.
pub fn rows_of(traces: &[&[u8]], vehicle: Vehicle) -> Result<Vec<Row>, (usize, Refusal)> {
    let parts: Vec<Vec<trace::Second>> = traces.iter().map(|trace| trace::seconds(trace)).collect();
    let mut buffer = vec![0; parts.iter().map(|seconds| 2 * seconds.len()).sum()];
    let mut start = 0;
    for (part, trace) in traces.iter().enumerate() {
        gears(trace, vehicle, &mut buffer, start).map_err(|refusal| (part, refusal))?;
        // The core took the trace, so its seconds are as many as it counts.
        start += 2 * parts[part].len();
    }
    let mut told = buffer.chunks_exact(2);
    let row = |seconds: Vec<trace::Second>| (1..).zip(seconds.into_iter().zip(&mut told)).map(second_of).collect();
    Ok(parts.into_iter().map(row).collect())
}

fn second_of((number, (second, pair)): (usize, (trace::Second, &[u8]))) -> Second {
    Second { number, speed: second.speed, phase: second.phase_name(), gear: pair[0], clutch_out: is_out(pair[1]) }
}

/// What the clutch byte of a second says.
pub fn is_out(clutch: u8) -> bool {
    clutch == 1
}

/// The parts of a test as one row, whose seconds count through.
pub fn joined(rows: &[Row]) -> Row {
    (1..).zip(rows.iter().flatten()).map(|(number, second)| Second { number, ..*second }).collect()
}

fn gear_name(gear: u8) -> String {
    if gear == 0 {
        "neutral".to_string()
    } else {
        gear.to_string()
    }
}

pub fn clutch(out: bool) -> &'static str {
    if out {
        "out"
    } else {
        "in"
    }
}

/// The row in lines: one for each run of seconds with the same gear and clutch.
pub fn table(row: &[Second]) -> String {
    let mut lines = format!("{:>6} {:>6}  {:<7}  {:<6} {:>10} {:>10}\n", "from", "to", "gear", "clutch", "lowest", "highest");
    lines += &format!("{:>6} {:>6}  {:<7}  {:<6} {:>10} {:>10}\n", "s", "s", "", "", "km/h", "km/h");
    for run in row.chunk_by(|a, b| (a.gear, a.clutch_out) == (b.gear, b.clutch_out)) {
        let (first, last) = (run[0], run[run.len() - 1]);
        let lowest = run.iter().map(|second| second.speed).min().unwrap_or(0);
        let highest = run.iter().map(|second| second.speed).max().unwrap_or(0);
        lines += &format!(
            "{:>6} {:>6}  {:<7}  {:<6} {:>10} {:>10}\n",
            first.number,
            last.number,
            gear_name(first.gear),
            clutch(first.clutch_out),
            kilometres_an_hour(lowest),
            kilometres_an_hour(highest)
        );
    }
    lines
}

/// Over the lines of single seconds.
pub fn second_heading() -> String {
    format!("{:>6}  {:<7}  {}\n", "second", "gear", "clutch")
}

/// A line of a single second, of which the core gave the gear and the clutch.
pub fn second_line(number: usize, [gear, clutch_byte]: [u8; 2]) -> String {
    format!("{number:>6}  {:<7}  {}\n", gear_name(gear), clutch(is_out(clutch_byte)))
}

/// What a second's line of comma-separated values has.
const COLUMNS: &str = "second,speed in km/h,phase,gear,clutch,rule set";

fn csv_line(second: &Second, rule_set: u32) -> String {
    let Second { number, speed, phase, gear, clutch_out } = *second;
    format!("{number},{},{phase},{gear},{},{rule_set}\n", kilometres_an_hour(speed), clutch(clutch_out))
}

/// The row in comma-separated values, a line a second, each with the rule set that the row is by.
pub fn csv(row: &[Second], rule_set: u32) -> String {
    format!("{COLUMNS}\n{}", row.iter().map(|second| csv_line(second, rule_set)).collect::<String>())
}

/// The parts of a test likewise, each second with that of the test and its part before it.
pub fn csv_of_parts(rows: &[Row], rule_set: u32) -> String {
    let parts = (1..).zip(rows).flat_map(|(part, row)| row.iter().map(move |second| (part, second)));
    let lines = (1..).zip(parts).map(|(of_test, (part, second))| format!("{of_test},{part},{}", csv_line(second, rule_set)));
    format!("second of the test,part,{COLUMNS}\n{}", lines.collect::<String>())
}
