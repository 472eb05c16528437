//! The lot sheet: the results of many machines of one type, put together.

use crate::bags::{Ends, Gases, TestResult};
use crate::{agreed, calls, Outcome, Refusal};

/// The most records of a lot.
pub const MOST: usize = 256;

/// What a lot reads of the result of a test: the weighted ends in micrograms/km, and the verdicts as numbers. The fields are open, so that a record can be
/// handed on as it was stored: 1 is a pass, 2 a fail, and every other number counts as undecided. Where `has_nmhc` is 0 nothing else is read of the fifth
/// gas; every other number says that the record has it.
#[repr(C)]
#[derive(Clone, Copy, Debug, Default, PartialEq, Eq)]
pub struct Record {
    pub weighted: Gases<Ends>,
    pub verdicts: Gases<u32>,
    pub has_nmhc: u32,
}

impl Record {
    pub fn of(result: &TestResult) -> Record {
        Record {
            weighted: result.weighted,
            verdicts: Gases::of(result.verdicts.each().map(|verdict| verdict.number())),
            has_nmhc: u32::from(result.has_nmhc),
        }
    }
}

/// The mean of a gas over the records of a lot that have it, rounded outward, and the index in the lot of the record with the greatest upper end, the
/// earliest if there are several.
#[derive(Clone, Copy, Debug, PartialEq, Eq)]
pub struct Mean {
    pub ends: Ends,
    pub worst: usize,
}

/// One gas over the records of a lot that have it: the verdicts counted as they stand in the records, the sums of lower and of upper ends, and the
/// mean where there is such a record.
#[derive(Clone, Copy, Debug, PartialEq, Eq)]
pub struct GasSheet {
    pub passed: u32,
    pub failed: u32,
    pub undecided: u32,
    pub sum: Ends,
    pub mean: Option<Mean>,
}

/// What crosses the boundary in place of a `Result`; `ylhovesko_lot_sheet` of include/ylhovesko.h.
#[repr(C)]
pub(crate) struct LotOutcome {
    pub outcome: Outcome,
    pub gases: Gases<GasNumbers>,
}

/// A gas of it: where no record is counted, `worst` and `mean` are 0 and mean nothing.
#[repr(C)]
#[derive(Clone, Copy, Debug, Default, PartialEq, Eq)]
pub(crate) struct GasNumbers {
    pub passed: u32,
    pub failed: u32,
    pub undecided: u32,
    pub worst: u32,
    pub sum: Ends,
    pub mean: Ends,
}

impl GasNumbers {
    fn told(self) -> GasSheet {
        let GasNumbers { passed, failed, undecided, worst, sum, mean } = self;
        let counted = passed + failed + undecided != 0;
        GasSheet { passed, failed, undecided, sum, mean: counted.then_some(Mean { ends: mean, worst: worst as usize }) }
    }
}

/// The lot sheet of the records, or the first of the refusals 18 and 21; 21 names the record by its index.
///
/// ```
/// use ylhovesko::bags::{Ends, Gases};
/// use ylhovesko::lot::{lot, Mean, Record};
/// let machine = |lower, upper, verdict| Record { weighted: Gases::of([Ends { lower, upper }; 5]), verdicts: Gases::of([verdict; 5]), has_nmhc: 0 };
/// let told = lot(&[machine(-4, 4, 1), machine(1, 4, 3)]).unwrap().nox;
/// assert_eq!((told.passed, told.failed, told.undecided), (1, 0, 1));
/// assert_eq!(told.sum, Ends { lower: -3, upper: 8 });
/// assert_eq!(told.mean, Some(Mean { ends: Ends { lower: -2, upper: 4 }, worst: 0 }));
/// assert_eq!(lot(&[machine(1, 4, 3)]).unwrap().nmhc.mean, None);
/// assert_eq!(lot(&[]).unwrap().nox.mean, None);
/// let refused = lot(&[machine(1, 1, 1), machine(2, 1, 1)]).unwrap_err();
/// assert_eq!((refused.number, refused.at), (21, 1));
/// ```
pub fn lot(records: &[Record]) -> Result<Gases<GasSheet>, Refusal> {
    agreed();
    let LotOutcome { outcome, gases } = calls::lot(records);
    Ok(Gases::of(outcome.beside(gases)?.each().map(GasNumbers::told)))
}
