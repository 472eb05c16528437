//! The emission sheet: a bag sheet becomes the result of a Type I test.
//!
//! The types are those of include/ylhovesko.h, which has the units and ranges.

pub use crate::Ends;
use crate::{agreed, calls, Outcome, Refusal};

/// One thing for each gas.
#[repr(C)]
#[derive(Clone, Copy, Debug, Default, PartialEq, Eq)]
pub struct Gases<T> {
    pub hc: T,
    pub co: T,
    pub nox: T,
    pub co2: T,
    /// Hydrocarbons without methane.
    pub nmhc: T,
}

impl<T> Gases<T> {
    /// In the paper's order.
    pub fn each(self) -> [T; 5] {
        [self.hc, self.co, self.nox, self.co2, self.nmhc]
    }

    /// From the paper's order.
    pub fn of(each: [T; 5]) -> Gases<T> {
        let [hc, co, nox, co2, nmhc] = each;
        Gases { hc, co, nox, co2, nmhc }
    }
}

/// What the analyser sent for one gas: a kind, and the bits of its float. The fields are open, so that a message can be handed on as it came; a
/// kind that is none of the four counts as over range. It enters the figures as two ends, the float's exact value in 1/256 ppm rounded down and up.
#[repr(C)]
#[derive(Clone, Copy, Debug, Default, PartialEq, Eq)]
pub struct Reading {
    pub kind: u32,
    pub bits: u32,
}

impl Reading {
    pub const OVER_RANGE: Reading = Reading { kind: 2, bits: 0 };
    pub const NOT_FITTED: Reading = Reading { kind: 3, bits: 0 };

    pub fn ppm(x: f32) -> Reading {
        Reading { kind: 0, bits: x.to_bits() }
    }

    pub fn percent(x: f32) -> Reading {
        Reading { kind: 1, bits: x.to_bits() }
    }
}

/// The readings of a bag, or of its dilution air. HC is read in carbon equivalent, which is propane times 3; `cutter` is HC read behind the non-methane
/// cutter, likewise. Where it is not fitted in a bag or an air, the test has no NMHC; as left by `default` it is 0 ppm behind one that is fitted.
#[repr(C)]
#[derive(Clone, Copy, Debug, Default, PartialEq, Eq)]
pub struct Bag {
    pub hc: Reading,
    pub co: Reading,
    pub nox: Reading,
    pub co2: Reading,
    pub cutter: Reading,
}

impl Bag {
    /// In the paper's order.
    pub fn each(self) -> [Reading; 5] {
        [self.hc, self.co, self.nox, self.co2, self.cutter]
    }

    /// From the paper's order.
    pub fn of(each: [Reading; 5]) -> Bag {
        let [hc, co, nox, co2, cutter] = each;
        Bag { hc, co, nox, co2, cutter }
    }
}

/// A part of the bag sheet: its fields 1 to 9 and its readings.
#[repr(C)]
#[derive(Clone, Copy, Debug, Default, PartialEq, Eq)]
pub struct Part {
    pub pump: u32,
    pub revolutions: u32,
    pub barometer: u32,
    pub depression: u32,
    pub temperature: i32,
    pub humidity: u32,
    pub saturation: u32,
    pub distance: u32,
    pub density: Gases<u32>,
    pub bag: Bag,
    pub air: Bag,
}

/// The dilution triple, in tenths.
#[repr(C)]
#[derive(Clone, Copy, Debug, Default, PartialEq, Eq)]
pub struct Triple {
    pub d: u32,
    pub wc: u32,
    pub wh: u32,
}

/// The fuel sheet.
#[repr(C)]
#[derive(Clone, Copy, Debug, Default, PartialEq, Eq)]
pub struct Fuel {
    pub k: u32,
    pub hc: u32,
    pub co: u32,
    pub co2: u32,
    pub density: u32,
}

/// How much of methane and of ethane the non-methane cutter takes away, in thousandths.
#[repr(C)]
#[derive(Clone, Copy, Debug, Default, PartialEq, Eq)]
pub struct Efficiencies {
    pub methane: u32,
    pub ethane: u32,
}

/// The bag sheet of a test. `count` says how many parts are given; the third is used for class 3 alone. Density, limit and efficiencies of the fifth gas
/// are judged where the test does not have it, too.
#[repr(C)]
#[derive(Clone, Copy, Debug, Default, PartialEq, Eq)]
pub struct Sheet {
    pub class: u32,
    pub count: u32,
    pub triple: Triple,
    pub fuel: Fuel,
    pub limits: Gases<u64>,
    pub efficiencies: Efficiencies,
    pub parts: [Part; 3],
}

/// The figures of a part: ml at 20 degrees C and 101.325 kPa, micrograms and micrograms/km.
#[repr(C)]
#[derive(Clone, Copy, Debug, Default, PartialEq, Eq)]
pub struct PartResult {
    pub volume: Ends,
    pub mass: Gases<Ends>,
    pub rate: Gases<Ends>,
}

/// How a weighted gas stands to its limit.
#[derive(Clone, Copy, Debug, PartialEq, Eq)]
pub enum Verdict {
    Pass,
    Fail,
    /// The limit lies between the ends.
    Undecided,
    /// The test does not have the gas.
    NoVerdict,
}

impl Verdict {
    fn of(number: u32) -> Verdict {
        match number {
            0 => Verdict::NoVerdict,
            1 => Verdict::Pass,
            2 => Verdict::Fail,
            3 => Verdict::Undecided,
            other => unreachable!("the core gives verdict {other} of four"),
        }
    }

    /// As it crosses the boundary.
    pub fn number(self) -> u32 {
        match self {
            Verdict::Pass => 1,
            Verdict::Fail => 2,
            Verdict::Undecided => 3,
            Verdict::NoVerdict => 0,
        }
    }
}

/// The result of a test: weighted gases in micrograms/km, the fuel in microlitres per 100 km. A third part that the class does not have is all 0. Where
/// the test does not have the fifth gas, its figures are 0 in every part and weighted, and it has no verdict.
#[derive(Clone, Copy, Debug, PartialEq, Eq)]
pub struct TestResult {
    pub parts: [PartResult; 3],
    pub weighted: Gases<Ends>,
    pub verdicts: Gases<Verdict>,
    /// Whether the test has the fifth gas.
    pub has_nmhc: bool,
    pub fuel: Ends,
}

/// What crosses the boundary in place of a `Result`; `ylhovesko_test_result` of include/ylhovesko.h.
#[repr(C)]
pub(crate) struct TestOutcome {
    pub outcome: Outcome,
    pub figures: Figures,
}

/// Its part that is all 0 on a refusal.
#[repr(C)]
#[derive(Debug, Default, PartialEq, Eq)]
pub(crate) struct Figures {
    pub parts: [PartResult; 3],
    pub weighted: Gases<Ends>,
    pub verdicts: Gases<u32>,
    pub has_nmhc: u32,
    pub fuel: Ends,
}

/// The full result of a test, or the first of the refusals 10 to 14 and 19.
///
/// ```
/// use ylhovesko::bags::{petrol, result, Bag, Gases, Part, Reading, Sheet, Verdict};
/// let fuel = petrol(750);
/// let zero = Reading::ppm(0.0);
/// let air = Bag { hc: zero, co: zero, nox: zero, co2: zero, cutter: Reading::NOT_FITTED };
/// let part = Part {
///     pump: 1000,
///     revolutions: 50_000,
///     barometer: 101_325,
///     distance: 1000,
///     density: Gases { nmhc: 577_000, ..fuel.density },
///     bag: Bag { co2: Reading::percent(1.0), ..air },
///     air,
///     ..Part::default()
/// };
/// let sheet = Sheet {
///     class: 1,
///     count: 2,
///     triple: fuel.triple,
///     fuel: fuel.fuel,
///     parts: [part; 3],
///     ..Sheet::default()
/// };
/// let told = result(sheet).unwrap();
/// assert_eq!((told.parts[0].volume.lower, told.parts[0].volume.upper), (53_660_992, 53_660_993));
/// assert_eq!((told.verdicts.hc, told.verdicts.co2), (Verdict::Pass, Verdict::Fail));
/// assert_eq!((told.has_nmhc, told.verdicts.nmhc), (false, Verdict::NoVerdict));
/// assert_eq!(result(Sheet { count: 3, ..sheet }).unwrap_err().number, 10);
/// ```
pub fn result(sheet: Sheet) -> Result<TestResult, Refusal> {
    agreed();
    let TestOutcome { outcome, figures } = calls::result(sheet);
    let Figures { parts, weighted, verdicts, has_nmhc, fuel } = outcome.beside(figures)?;
    Ok(TestResult { parts, weighted, verdicts: Gases::of(verdicts.each().map(Verdict::of)), has_nmhc: has_nmhc != 0, fuel })
}

/// What a fuel brings to the bag sheet: the densities of every part, the triple and the fuel sheet. The regulation has no density of the fifth gas: it
/// is 0, which the bag sheet refuses (11), so that the caller has to give it.
#[repr(C)]
#[derive(Clone, Copy, Debug, PartialEq, Eq)]
pub struct Preset {
    pub density: Gases<u32>,
    pub triple: Triple,
    pub fuel: Fuel,
}

/// The regulation's petrol. The density of the test fuel in g/l is measured; it is judged with the bag sheet.
///
/// ```
/// let petrol = ylhovesko::bags::petrol(750);
/// assert_eq!((petrol.density.hc, petrol.triple.d, petrol.fuel.k, petrol.fuel.density), (577_000, 134, 1155, 750));
/// ```
pub fn petrol(fuel_density: u32) -> Preset {
    agreed();
    calls::petrol(fuel_density)
}

/// The regulation's diesel. Its triple has 133 tenths, the nearest to 13.28.
///
/// ```
/// let diesel = ylhovesko::bags::diesel(840);
/// assert_eq!((diesel.density.hc, diesel.triple.d, diesel.fuel.k, diesel.fuel.hc), (579_000, 133, 1160, 862));
/// ```
pub fn diesel(fuel_density: u32) -> Preset {
    agreed();
    calls::diesel(fuel_density)
}
