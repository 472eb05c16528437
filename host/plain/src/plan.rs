//! Plans (the request for them): "one trace, a lent slice of vehicle sheets .., a lent buffer for all rows, a lent buffer for the answers". Each vehicle is the gear sheet's
//! by itself, one after the other.

use crate::gear::{write_gears, Vehicle};
use crate::trace;
use crate::{check, nowhere, Refusal};

/// The numbers of a sheet: "the C struct's own layout", power to gears, eight ratios, the rule set.
const SHEET: usize = 14;
/// "A refusal's number and place for each vehicle."
const ANSWER: usize = 2;

fn vehicle([p, m, s, n, ng, ndv @ .., rule_set]: [u32; SHEET]) -> Vehicle {
    Vehicle { p, m, s, n, ng, ndv, rule_set }
}

/// "The whole call is refused for what is wrong with the trace (1 to 4) or with a buffer too small (8), and then everything stays as lent; for each vehicle 5, 6,
/// 7, 20, 9 stand in its answer, and its part of the rows stays as lent." As include/ylhovesko.h says, 8 is also for sheets that end within a vehicle, "of
/// vehicle i, from 0, the row begins at byte 2 x count x i of rows", and what is behind the last vehicle stays in both buffers.
///
/// ```
/// use plain::plan::write_rows;
/// let accepted = [300, 200, 8000, 1200, 3, 20_000, 12_000, 9_000, 0, 0, 0, 0, 0, 1];
/// let mut light = accepted;
/// light[1] = 29;
/// let stop = [b'W', b'T', b'R', 0, 1, 0, 1, 0, 0, 0, 0, 0];
/// let (mut rows, mut answers) = ([7; 7], [7; 7]);
/// write_rows(&stop, &[accepted, light, accepted].concat(), &mut rows, &mut answers).unwrap();
/// assert_eq!((rows, answers), ([1, 1, 7, 7, 1, 1, 7], [0, 0, 5, 2, 0, 0, 7]));
/// assert_eq!(write_rows(&stop, &accepted, &mut rows[..1], &mut answers).unwrap_err().number, 8);
/// ```
pub fn write_rows(trace: &[u8], sheets: &[u32], rows: &mut [u8], answers: &mut [u32]) -> Result<(), Refusal> {
    let a_row = 2 * trace::read(trace)?.len();
    let (sheets, within) = sheets.as_chunks::<SHEET>();
    check(within.is_empty(), nowhere(8))?;
    check(rows.len() >= a_row * sheets.len(), nowhere(8))?;
    check(answers.len() >= ANSWER * sheets.len(), nowhere(8))?;
    for (i, sheet) in sheets.iter().enumerate() {
        let told = write_gears(trace, &vehicle(*sheet), rows, a_row * i);
        let answer = told.map_or_else(|refusal| [refusal.number, refusal.at], |()| [0; ANSWER]);
        answers[ANSWER * i..ANSWER * (i + 1)].copy_from_slice(&answer);
    }
    Ok(())
}

#[cfg(test)]
mod plans {
    //! The request's sentences, on stops: a row of gear 1 with the clutch out.

    use super::*;

    const ACCEPTED: [u32; SHEET] = [300, 200, 8000, 1200, 3, 20_000, 12_000, 9_000, 0, 0, 0, 0, 0, 1];

    /// Three seconds, the last of which is marked.
    const STOPS: [u8; 20] = [b'W', b'T', b'R', 0, 1, 0, 3, 0, 0, 0, 0, 0, 0, 0, 0, 0, 0, 0, 4, 0];

    fn with(at: usize, number: u32) -> [u32; SHEET] {
        let mut sheet = ACCEPTED;
        sheet[at] = number;
        sheet
    }

    /// What is said of a list with so much room, and both buffers, which are lent full of sevens.
    fn planned(sheets: &[u32], [rows, answers]: [usize; 2]) -> (Result<(), Refusal>, Vec<u8>, Vec<u32>) {
        let (mut rows, mut answers) = (vec![7; rows], vec![7; answers]);
        (write_rows(&STOPS, sheets, &mut rows, &mut answers), rows, answers)
    }

    #[test]
    fn each_vehicle_has_its_own_answer() {
        let list = [ACCEPTED, with(0, 0), with(6, 20_000), with(0, 3000), with(13, 2), ACCEPTED, with(13, 3)];
        let (told, rows, answers) = planned(list.as_flattened(), [6 * 7 + 1, 2 * 7 + 1]);
        assert_eq!(told, Ok(()));
        assert_eq!(answers, [0, 0, 5, 1, 6, 2, 7, 0, 20, 3, 0, 0, 5, 14, 7]);
        let row = |i: usize| rows[6 * i..6 * (i + 1)].to_vec();
        assert_eq!([row(0), row(5)], [[1; 6], [1; 6]]);
        assert!([1, 2, 3, 4, 6].iter().all(|i| row(*i) == [7; 6]) && rows[6 * 7] == 7);
    }

    #[test]
    fn all_is_refused_and_stays() {
        let two = [ACCEPTED, ACCEPTED].concat();
        for (sheets, room) in [(&two[..], [11, 4]), (&two[..], [12, 3]), (&two[..27], [12, 4]), (&two[..13], [0, 0]), (&two[..], [0, 0])] {
            let (told, rows, answers) = planned(sheets, room);
            assert_eq!(told, Err(nowhere(8)));
            assert!(rows.iter().all(|byte| *byte == 7) && answers.iter().all(|number| *number == 7));
        }
        let refused = write_rows(&STOPS[..19], &two[..13], &mut [], &mut []);
        assert_eq!(refused, Err(nowhere(3)), "the trace comes first");
    }

    #[test]
    fn no_vehicles_at_all() {
        assert_eq!(planned(&[], [3, 3]), (Ok(()), vec![7; 3], vec![7; 3]));
        assert_eq!(planned(&[], [0, 0]), (Ok(()), vec![], vec![]));
    }
}
