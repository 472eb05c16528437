//! The paper's table of refusals, in words.

use ylhovesko::Refusal;

/// Hydrocarbons without methane, which a test has where the cutter is fitted.
pub const NMHC: &str = "NMHC";

/// In the paper's order.
pub const GASES: [&str; 5] = ["HC", "CO", "NOx", "CO2", NMHC];

/// The gases of a test that has NMHC or has it not.
pub fn measured(has_nmhc: bool) -> &'static [&'static str] {
    let count = if has_nmhc { GASES.len() } else { GASES.len() - 1 };
    &GASES[..count]
}

/// "Given when", row by row. 20 stands where it is judged, directly after 7.
const ROWS: [(u32, &str); 21] = [
    (1, "under 8 bytes, mark, zero byte or version wrong"),
    (2, "count not 1 to 2,000"),
    (3, "length not 8 + 4 x count"),
    (4, "speed, flags or fourth byte wrong"),
    (5, "vehicle sheet out of range"),
    (6, "ndv not below that of the gear before"),
    (7, "power to mass"),
    (20, "a mark in a trace of version 1, under rule set 2"),
    (8, "start past the buffer, or too few bytes there"),
    (9, "too close to call"),
    (10, "class not 1 to 3, or wrong number of parts"),
    (11, "bag sheet value"),
    (12, "reading unusable"),
    (13, "G not below Q"),
    (14, "H above 30"),
    (15, "normal and reduced counts differ"),
    (16, "reference mass outside"),
    (17, "rotating mass or speed outside"),
    (18, "more than 256 records in a lot"),
    (19, "ethane efficiency under methane efficiency plus 500 thousandths"),
    (21, "lower end above upper end, or an end beyond 10^13 micrograms/km"),
];

/// Where a refusal lies and what stands there, in words; empty where there is neither.
#[derive(Default)]
pub struct Found {
    pub place: String,
    /// With its range, where it has one.
    pub value: String,
}

/// A word of a list that counts from 1.
pub fn named(list: &[&'static str], number: u32) -> &'static str {
    (number as usize).checked_sub(1).and_then(|i| list.get(i)).copied().unwrap_or("unknown")
}

/// "Given when" of a number.
fn given_when(number: u32) -> &'static str {
    ROWS.iter().find(|(row, _)| *row == number).map_or("unknown", |(_, words)| words)
}

/// `refused: 5 vehicle sheet out of range, field 1, power: 3,001; 1 to 3,000 in 0.1 kW`.
pub fn line(refusal: Refusal, found: &Found) -> String {
    let mut line = format!("refused: {} {}", refusal.number, given_when(refusal.number));
    for (before, words) in [(", ", &found.place), (": ", &found.value)] {
        if !words.is_empty() {
            line += before;
            line += words;
        }
    }
    line
}
