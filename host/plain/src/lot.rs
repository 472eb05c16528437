//! The lot sheet (02, M-105 and M-108), refusals 18 and 21. Gases go HC, CO, NOx, CO2, NMHC.

use crate::bags::{Verdict, GASES, NMHC};
use crate::figure::Figure;
use crate::{at, check, nowhere, Refusal};

/// What the sheet reads of a result record: the weighted ends in micrograms/km, the verdicts by their numbers, and whether it has the fifth gas.
#[derive(Clone, Copy, Debug)]
pub struct Record {
    pub weighted: [Figure; GASES],
    pub verdicts: [u32; GASES],
    pub has_nmhc: bool,
}

impl Record {
    /// For the fifth gas the lot sheet, "refusal 21 too, reads only records that have it" (02, M-108).
    fn has(&self, gas: usize) -> bool {
        gas != NMHC || self.has_nmhc
    }
}

/// "At most 256": the records of a list.
const MOST_RECORDS: usize = 256;

/// "10^13 micrograms/km either way": an end may be this, or this below zero, and lie between.
const FARTHEST_END: i128 = 10_000_000_000_000;

/// Refusal 18: "more than 256".
fn judge_count(records: &[Record]) -> Result<(), Refusal> {
    check(records.len() <= MOST_RECORDS, nowhere(18))
}

/// What refusal 21 asks of a gas: not "a lower end above its upper end, or an end beyond 10^13 micrograms/km either way".
fn sound(weighted: &Figure) -> bool {
    let near = |end: i128| (-FARTHEST_END..=FARTHEST_END).contains(&end);
    weighted.lower <= weighted.upper && near(weighted.lower) && near(weighted.upper)
}

/// Refusal 21 "with its index": the first record, from 0 on, of which any gas is not sound.
fn judge_records(records: &[Record]) -> Result<(), Refusal> {
    let all_sound = |record: &Record| (0..GASES).all(|gas| !record.has(gas) || sound(&record.weighted[gas]));
    (0..).zip(records).try_for_each(|(index, record)| check(all_sound(record), at(21, index)))
}

/// The verdict of a number, as include/ylhovesko.h has them. What is neither a pass nor a fail is undecided, so that "the three counts add up to the number of
/// records" whatever number stands in one.
fn verdict(number: u32) -> Verdict {
    match number {
        1 => Verdict::Pass,
        2 => Verdict::Fail,
        _ => Verdict::Undecided,
    }
}

/// "The verdicts counted are those in the records": the ends are not asked.
fn count(verdicts: &[u32], counted: Verdict) -> usize {
    verdicts.iter().filter(|number| verdict(**number) == counted).count()
}

/// "The sums of lower and of upper ends."
fn sum(weighted: &[Figure]) -> Figure {
    let lower = weighted.iter().map(|figure| figure.lower).sum();
    let upper = weighted.iter().map(|figure| figure.upper).sum();
    Figure { lower, upper }
}

/// "The mean's ends rounded outward"; of an empty list "no mean".
fn mean(weighted: &[Figure]) -> Option<Figure> {
    let Figure { lower, upper } = sum(weighted);
    (!weighted.is_empty()).then(|| Figure::over(lower, upper, weighted.len() as i128))
}

/// "The index, from 0, of the record with the greatest upper end, earliest if several"; of an empty list "no index". It counts all records of the list.
fn worst(records: &[Record], gas: usize) -> Option<usize> {
    let upper = |record: &Record| record.has(gas).then_some(record.weighted[gas].upper);
    let greatest = records.iter().filter_map(upper).max()?;
    records.iter().position(|record| upper(record) == Some(greatest))
}

/// What the sheet gives "per gas", in the paper's order; the ends in micrograms/km.
#[derive(Clone, Copy, Debug, PartialEq, Eq)]
pub struct GasSheet {
    pub passed: usize,
    pub failed: usize,
    pub undecided: usize,
    pub sum: Figure,
    pub mean: Option<Figure>,
    pub worst: Option<usize>,
}

fn gas_sheet(records: &[Record], gas: usize) -> GasSheet {
    let having = || records.iter().filter(|record| record.has(gas));
    let weighted: Vec<Figure> = having().map(|record| record.weighted[gas]).collect();
    let verdicts: Vec<u32> = having().map(|record| record.verdicts[gas]).collect();
    GasSheet {
        passed: count(&verdicts, Verdict::Pass),
        failed: count(&verdicts, Verdict::Fail),
        undecided: count(&verdicts, Verdict::Undecided),
        sum: sum(&weighted),
        mean: mean(&weighted),
        worst: worst(records, gas),
    }
}

/// The sheet of each gas over the records that have it, "none is as an empty list" (02, M-108); or the first of the refusals 18 and 21. "An empty list .. is
/// accepted."
///
/// ```
/// use plain::figure::Figure;
/// use plain::lot::{sheet, Record};
/// let machine = |lower, upper, verdict| Record { weighted: [Figure { lower, upper }; 5], verdicts: [verdict; 5], has_nmhc: lower == 1 };
/// let [hc, .., nmhc] = sheet(&[machine(-4, 4, 1), machine(1, 4, 3)]).unwrap();
/// assert_eq!((hc.passed, hc.failed, hc.undecided), (1, 0, 1));
/// assert_eq!((hc.sum, hc.mean), (Figure { lower: -3, upper: 8 }, Some(Figure { lower: -2, upper: 4 })));
/// assert_eq!((hc.worst, nmhc.worst, nmhc.sum), (Some(0), Some(1), Figure { lower: 1, upper: 4 }));
/// let [empty, ..] = sheet(&[]).unwrap();
/// assert_eq!((empty.undecided, empty.mean, empty.worst), (0, None, None));
/// let refused = sheet(&[machine(1, 1, 1), machine(2, 1, 1)]).unwrap_err();
/// assert_eq!((refused.number, refused.at), (21, 1));
/// ```
pub fn sheet(records: &[Record]) -> Result<[GasSheet; GASES], Refusal> {
    judge_count(records)?;
    judge_records(records)?;
    Ok(std::array::from_fn(|gas| gas_sheet(records, gas)))
}

#[cfg(test)]
mod known_lots {
    //! 02's sentences on lists that are added up by hand.

    use super::*;

    fn figure(lower: i128, upper: i128) -> Figure {
        Figure { lower, upper }
    }

    /// A record that has the same of every gas.
    fn record(weighted: Figure, verdict: u32) -> Record {
        Record { weighted: [weighted; GASES], verdicts: [verdict; GASES], has_nmhc: true }
    }

    fn records(ends: &[(i128, i128)]) -> Vec<Record> {
        ends.iter().map(|&(lower, upper)| record(figure(lower, upper), 3)).collect()
    }

    /// The sum and the mean of a list, and its worst record.
    fn summed(ends: &[(i128, i128)]) -> (Figure, Option<Figure>, Option<usize>) {
        let [hc, others @ ..] = sheet(&records(ends)).unwrap();
        assert_eq!(others, [hc; GASES - 1], "{ends:?}");
        (hc.sum, hc.mean, hc.worst)
    }

    /// The number and the index of the refusal of a list.
    fn refused(ends: &[(i128, i128)]) -> (u32, u32) {
        let refusal = sheet(&records(ends)).unwrap_err();
        assert_eq!((refusal.within, refusal.side), (0, 0), "{ends:?}");
        (refusal.number, refusal.at)
    }

    const NOTHING: GasSheet = GasSheet { passed: 0, failed: 0, undecided: 0, sum: Figure { lower: 0, upper: 0 }, mean: None, worst: None };

    #[test]
    fn empty_list() {
        assert_eq!(sheet(&[]), Ok([NOTHING; GASES]));
    }

    #[test]
    fn rounded_outward() {
        assert_eq!(summed(&[(1, 2), (1, 2), (3, 4)]), (figure(5, 8), Some(figure(1, 3)), Some(2)));
        assert_eq!(summed(&[(-2, -1), (-2, -1), (-4, -3)]), (figure(-8, -5), Some(figure(-3, -1)), Some(0)));
        assert_eq!(summed(&[(-1, 0), (0, 1)]), (figure(-1, 1), Some(figure(-1, 1)), Some(1)));
        assert_eq!(summed(&[(-1, -1), (-2, -2)]), (figure(-3, -3), Some(figure(-2, -1)), Some(0)));
        assert_eq!(summed(&[(-5, 5), (-3, 7)]), (figure(-8, 12), Some(figure(-4, 6)), Some(1)));
    }

    #[test]
    fn greatest_sums() {
        let farthest = vec![(-FARTHEST_END, FARTHEST_END); 256];
        let sum = figure(-2_560_000_000_000_000, 2_560_000_000_000_000);
        assert_eq!(summed(&farthest), (sum, Some(figure(-FARTHEST_END, FARTHEST_END)), Some(0)));
    }

    #[test]
    fn earliest_of_equals() {
        let index = |uppers: &[i128]| summed(&uppers.iter().map(|&upper| (-9, upper)).collect::<Vec<_>>()).2;
        assert_eq!([index(&[4, 4, 4]), index(&[1, 4, 4]), index(&[4, 1, 4]), index(&[1, 2, 4])], [Some(0), Some(1), Some(0), Some(2)]);
        assert_eq!([index(&[-3, -1, -2]), index(&[-9, -9])], [Some(1), Some(0)]);
    }

    #[test]
    fn verdicts_as_they_stand() {
        let of = |verdicts: &[u32]| {
            let records: Vec<Record> = verdicts.iter().map(|&number| record(figure(0, 0), number)).collect();
            sheet(&records).unwrap().map(|gas| [gas.passed, gas.failed, gas.undecided])[3]
        };
        assert_eq!(of(&[1, 2, 2, 3, 3, 3]), [1, 2, 3]);
        assert_eq!(of(&[0, 4, 257, 258, u32::MAX]), [0, 0, 5]);
    }

    #[test]
    fn gases_by_themselves() {
        let weighted = [figure(1, 2), figure(-4, -3), figure(5, 5), figure(0, 9), figure(-7, 6)];
        let other = [figure(2, 2), figure(-4, -4), figure(5, 7), figure(0, 8), figure(-1, 8)];
        let one = Record { weighted, verdicts: [1, 2, 3, 1, 2], has_nmhc: true };
        let sheets = sheet(&[one, Record { weighted: other, verdicts: [1, 1, 2, 3, 2], has_nmhc: true }]).unwrap();
        assert_eq!(sheets.map(|gas| gas.sum), [figure(3, 4), figure(-8, -7), figure(10, 12), figure(0, 17), figure(-8, 14)]);
        assert_eq!(sheets.map(|gas| gas.worst), [Some(0), Some(0), Some(1), Some(0), Some(1)]);
        let counts = [[2, 0, 0], [1, 1, 0], [0, 1, 1], [1, 0, 1], [0, 2, 0]];
        assert_eq!(sheets.map(|gas| [gas.passed, gas.failed, gas.undecided]), counts);
    }

    /// "Reads only records that have it": the third has the worst of three, and the mean is of two.
    #[test]
    fn fifth_gas_of_some() {
        let without = |record: Record| Record { has_nmhc: false, ..record };
        let faulty =
            without(Record { weighted: [figure(0, 1), figure(0, 1), figure(0, 1), figure(0, 1), figure(9, 8)], ..record(figure(0, 0), 1) });
        let [hc, .., nmhc] = sheet(&[faulty, record(figure(1, 2), 2), record(figure(2, 5), 3)]).unwrap();
        assert_eq!((hc.worst, [hc.passed, hc.failed, hc.undecided]), (Some(2), [1, 1, 1]));
        assert_eq!((nmhc.worst, [nmhc.passed, nmhc.failed, nmhc.undecided]), (Some(2), [0, 1, 1]));
        assert_eq!((nmhc.sum, nmhc.mean), (figure(3, 7), Some(figure(1, 4))));
        let [co, nmhc] = sheet(&[faulty, without(record(figure(0, 9), 2))]).map(|sheets| [sheets[1], sheets[NMHC]]).unwrap();
        assert_eq!((co.failed, nmhc), (1, NOTHING));
        assert_eq!(sheet(&[faulty, Record { has_nmhc: true, ..faulty }]), Err(at(21, 1)));
    }

    #[test]
    fn refusals_in_their_order() {
        let (fine, far) = ((0, 1), FARTHEST_END + 1);
        assert!(sheet(&records(&[fine; 256])).is_ok());
        assert_eq!(refused(&[fine; 257]), (18, 0));
        assert_eq!(refused(&[(1, 0); 257]), (18, 0));
        for faulty in [(1, 0), (0, far), (far, far), (-far, 0), (-far, -far)] {
            assert_eq!([refused(&[faulty, fine]), refused(&[fine, faulty]), refused(&[fine, faulty, faulty])], [(21, 0), (21, 1), (21, 1)]);
        }
        let mut later_gas = records(&[fine, fine, (1, 0)]);
        later_gas[1].weighted[3] = figure(0, far);
        assert_eq!(sheet(&later_gas), Err(at(21, 1)));
    }
}
