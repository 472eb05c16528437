//! Plans: the gear sheet of each vehicle in a loop, and what any plan judges first.

use ylhovesko::gear::Vehicle;
use ylhovesko::plan::SHEET;
use ylhovesko::Refusal;

use crate::gear::{judge_trace, write_gears, Second};
use crate::{check, nowhere};

/// The vehicle of a sheet.
pub(crate) fn vehicle([power, mass, rated, idle, gears, ndv @ .., rule_set]: [u32; SHEET]) -> Vehicle {
    Vehicle { power, mass, rated, idle, gears, ndv, rule_set }
}

/// The seconds of the trace and the sheets of the vehicles; or the first of the refusals 1 to 4 and 8.
pub(crate) fn judge<'a>(
    trace: &'a [u8],
    sheets: &'a [u32],
    rows: &[u8],
    answers: &[u32],
) -> Result<(&'a [Second], &'a [[u32; SHEET]]), Refusal> {
    let seconds = judge_trace(trace)?;
    let (sheets, within) = sheets.as_chunks();
    let fits = rows.len() / (2 * seconds.len()) >= sheets.len() && answers.len() / 2 >= sheets.len();
    check(within.is_empty() && fits, nowhere(8))?;
    Ok((seconds, sheets))
}

/// The row of every vehicle and what is said of it; or the first refusal of the whole, and all as it was lent.
pub fn write_rows(trace: &[u8], sheets: &[u32], rows: &mut [u8], answers: &mut [u32]) -> Result<(), Refusal> {
    let (seconds, sheets) = judge(trace, sheets, rows, answers)?;
    let a_row = 2 * seconds.len();
    for (i, (&sheet, answer)) in sheets.iter().zip(answers.as_chunks_mut().0).enumerate() {
        let told = write_gears(trace, &vehicle(sheet), rows, a_row * i);
        *answer = told.map_or_else(|refusal| [refusal.number, refusal.at], |()| [0, 0]);
    }
    Ok(())
}
