//! The lot sheet, refusals 18 and 21.

use ylhovesko::bags::{Ends, Gases};
use ylhovesko::lot::{GasSheet, Mean, Record, MOST};
use ylhovesko::Refusal;

use crate::bags::ends;
use crate::{at, check, nowhere};

const FARTHEST: i64 = 10_000_000_000_000;
const PASS: u32 = 1;
const FAIL: u32 = 2;

fn sound(weighted: &Ends) -> bool {
    -FARTHEST <= weighted.lower && weighted.lower <= weighted.upper && weighted.upper <= FARTHEST
}

fn judge(records: &[Record]) -> Result<(), Refusal> {
    check(records.len() <= MOST, nowhere(18))?;
    for (k, record) in records.iter().enumerate() {
        let [four @ .., nmhc] = record.weighted.each();
        check(four.iter().all(sound) && (record.has_nmhc == 0) | sound(&nmhc), at(21, k as u32))?;
    }
    Ok(())
}

/// How many records have passed and how many have failed, by gas, the first four.
fn count(records: &[Record]) -> ([u32; 4], [u32; 4]) {
    let (mut passed, mut failed) = ([0; 4], [0; 4]);
    for record in records {
        let verdicts = record.verdicts.each();
        for gas in 0..4 {
            passed[gas] += u32::from(verdicts[gas] == PASS);
            failed[gas] += u32::from(verdicts[gas] == FAIL);
        }
    }
    (passed, failed)
}

/// The sums of both ends, by gas, the first four.
fn sums(records: &[Record]) -> [Ends; 4] {
    let mut sums = [Ends::default(); 4];
    for record in records {
        let weighted = record.weighted.each();
        for gas in 0..4 {
            sums[gas].lower += weighted[gas].lower;
            sums[gas].upper += weighted[gas].upper;
        }
    }
    sums
}

/// The index of the first record with the greatest upper end, by gas, the first four.
fn worst(records: &[Record]) -> [usize; 4] {
    let (mut greatest, mut worst) = ([i64::MIN; 4], [0; 4]);
    for (k, record) in records.iter().enumerate() {
        let weighted = record.weighted.each();
        for gas in 0..4 {
            if weighted[gas].upper > greatest[gas] {
                (greatest[gas], worst[gas]) = (weighted[gas].upper, k);
            }
        }
    }
    worst
}

/// What was found of a gas in so many records that have it.
struct Found {
    records: u32,
    passed: u32,
    failed: u32,
    sum: Ends,
    worst: usize,
}

/// The fifth gas, with no branch on whether a record has it, which cannot be foreseen.
fn nmhc(records: &[Record]) -> Found {
    let mut found = Found { records: 0, passed: 0, failed: 0, sum: Ends::default(), worst: 0 };
    let mut greatest = i64::MIN;
    for (k, record) in records.iter().enumerate() {
        let (has, verdict) = (record.has_nmhc != 0, record.verdicts.nmhc);
        let Ends { lower, upper } = record.weighted.nmhc;
        found.records += u32::from(has);
        found.passed += u32::from(has & (verdict == PASS));
        found.failed += u32::from(has & (verdict == FAIL));
        found.sum.lower += if has { lower } else { 0 };
        found.sum.upper += if has { upper } else { 0 };
        if has & (upper > greatest) {
            (greatest, found.worst) = (upper, k);
        }
    }
    found
}

fn sheet(Found { records, passed, failed, sum, worst }: Found) -> GasSheet {
    let mean = (records != 0).then(|| Mean { ends: ends(sum.lower, sum.upper, records.into()), worst });
    GasSheet { passed, failed, undecided: records - passed - failed, sum, mean }
}

/// The lot sheet of the records, or the first of the refusals 18 and 21.
pub fn lot(records: &[Record]) -> Result<Gases<GasSheet>, Refusal> {
    judge(records)?;
    // the records of a lot stay in the nearest cache, so that a short loop for each figure is quicker than one long loop
    let ((passed, failed), sums, worst) = (count(records), sums(records), worst(records));
    let n = records.len() as u32;
    let found = |gas: usize| Found { records: n, passed: passed[gas], failed: failed[gas], sum: sums[gas], worst: worst[gas] };
    Ok(Gases::of([found(0), found(1), found(2), found(3), nmhc(records)].map(sheet)))
}
