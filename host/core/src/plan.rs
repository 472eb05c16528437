//! Plans: the rows of many vehicles on one trace, as a planner tries ratios against it. What is said of a vehicle and written for it is what
//! [`crate::gear::gears`] says and writes for it by itself.

use crate::gear::Vehicle;
use crate::{agreed, calls, Refusal};

/// How many numbers of a list of sheets are one vehicle.
pub const SHEET: usize = 14;

/// What is said of one vehicle: the number and the place of its refusal, both 0 where it is accepted.
pub type Answer = [u32; 2];

/// An answer as the gear sheet gives it.
///
/// ```
/// use ylhovesko::plan::told;
/// assert_eq!(told([0, 0]), Ok(()));
/// assert_eq!(told([5, 2]).unwrap_err().at, 2);
/// ```
pub fn told([number, at]: Answer) -> Result<(), Refusal> {
    if number == 0 {
        assert_eq!(at, 0, "an accepted vehicle has no place");
        return Ok(());
    }
    Err(Refusal { number, at, within: 0, side: 0 })
}

/// A list of vehicles as the numbers that it is in memory.
fn numbers(vehicles: &[Vehicle]) -> &[u32] {
    const { assert!(size_of::<Vehicle>() == SHEET * size_of::<u32>() && align_of::<Vehicle>() == align_of::<u32>()) };
    // Safety: a vehicle has C's layout and is nothing but so many numbers, as was just asserted.
    unsafe { std::slice::from_raw_parts(vehicles.as_ptr().cast(), SHEET * vehicles.len()) }
}

/// Writes the row of every vehicle on the trace, 2 bytes a second, that of vehicle i from byte 2 x count x i on, and to the front of the answers what is said of
/// each. The part of a refused vehicle stays as it was, and so does what is behind the last vehicle; its refusals are 5 to 7, 20 and 9. Or gives the first of
/// the refusals 1 to 4 of the trace and 8, where the rows or the answers do not fit, and everything stays as it was. Of a single vehicle
/// [`crate::gear::gears`] is faster.
///
/// ```
/// use ylhovesko::gear::Vehicle;
/// use ylhovesko::plan::write_rows;
/// let vehicle = Vehicle { power: 300, mass: 200, rated: 8000, idle: 1200, gears: 3, ndv: [20_000, 12_000, 9_000, 0, 0, 0, 0, 0], rule_set: 1 };
/// let vehicles = [vehicle, Vehicle { mass: 29, ..vehicle }, vehicle];
/// let stop = [b'W', b'T', b'R', 0, 1, 0, 1, 0, 0, 0, 0, 0];
/// let (mut rows, mut answers) = ([7; 7], [[7; 2]; 4]);
/// write_rows(&stop, &vehicles, &mut rows, &mut answers).unwrap();
/// assert_eq!(rows, [1, 1, 7, 7, 1, 1, 7]);
/// assert_eq!(answers, [[0, 0], [5, 2], [0, 0], [7, 7]]);
/// assert_eq!(write_rows(&stop, &vehicles, &mut rows[..5], &mut answers).unwrap_err().number, 8);
/// ```
pub fn write_rows(trace: &[u8], vehicles: &[Vehicle], rows: &mut [u8], answers: &mut [Answer]) -> Result<(), Refusal> {
    write_numbers(trace, numbers(vehicles), rows, answers.as_flattened_mut())
}

/// As [`write_rows`], from the numbers as they cross the boundary. Sheets that end within a vehicle, and answers of which the last has no place, are refused
/// with 8.
///
/// ```
/// let stop = [b'W', b'T', b'R', 0, 1, 0, 1, 0, 0, 0, 0, 0];
/// assert_eq!(ylhovesko::plan::write_numbers(&stop, &[300; 13], &mut [7; 4], &mut [7; 4]).unwrap_err().number, 8);
/// ```
pub fn write_numbers(trace: &[u8], sheets: &[u32], rows: &mut [u8], answers: &mut [u32]) -> Result<(), Refusal> {
    agreed();
    calls::plan(trace, sheets, rows, answers).told()
}

/// The rows of a plan, with what is said of each vehicle.
#[derive(Clone, Debug, PartialEq, Eq)]
pub struct Plan {
    seconds: usize,
    rows: Vec<u8>,
    answers: Vec<Answer>,
}

impl Plan {
    /// The row of each vehicle in turn, the gear and the clutch of every second; or its refusal.
    pub fn rows(&self) -> impl Iterator<Item = Result<&[[u8; 2]], Refusal>> {
        let rows = self.rows.as_chunks().0.chunks(self.seconds);
        rows.zip(&self.answers).map(|(row, answer)| told(*answer).map(|()| row))
    }
}

/// What [`write_rows`] writes, as one; or the first of the refusals 1 to 4.
///
/// ```
/// use ylhovesko::gear::Vehicle;
/// use ylhovesko::plan::plan;
/// let vehicle = Vehicle { power: 300, mass: 200, rated: 8000, idle: 1200, gears: 3, ndv: [20_000, 12_000, 9_000, 0, 0, 0, 0, 0], rule_set: 1 };
/// let stops = [b'W', b'T', b'R', 0, 1, 0, 2, 0, 0, 0, 0, 0, 0, 0, 0, 0];
/// let planned = plan(&stops, &[vehicle, Vehicle { gears: 2, ..vehicle }]).unwrap();
/// let rows: Vec<_> = planned.rows().collect();
/// assert_eq!(rows[0], Ok(&[[1, 1], [1, 1]][..]));
/// assert_eq!(rows[1].unwrap_err().at, 5);
/// assert_eq!(plan(&stops[..15], &[vehicle]).unwrap_err().number, 3);
/// ```
pub fn plan(trace: &[u8], vehicles: &[Vehicle]) -> Result<Plan, Refusal> {
    // a trace that is accepted has 8 bytes and 4 for each second; of any other nothing is written
    let seconds = trace.len().saturating_sub(8) / 4;
    let (mut rows, mut answers) = (vec![0; 2 * seconds * vehicles.len()], vec![[0; 2]; vehicles.len()]);
    write_rows(trace, vehicles, &mut rows, &mut answers)?;
    Ok(Plan { seconds, rows, answers })
}
