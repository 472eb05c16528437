//! The emission sheet, refusals 10 to 14 and 19.

use ylhovesko::bags::{Bag, Ends, Gases, Part, PartResult, Reading, Sheet, TestResult, Verdict};
use ylhovesko::Refusal;

use crate::{at, check, nowhere};

const MOST_UNITS: f64 = 16_777_216.0;
const NOX: usize = 2;
const NMHC: usize = 4;

/// Both over a divisor above zero, rounded outward.
pub(crate) fn ends(lower: i64, upper: i64, divisor: i64) -> Ends {
    Ends { lower: lower.div_euclid(divisor), upper: -(-upper).div_euclid(divisor) }
}

/// For two figures of which the second is not negative.
fn product(a: Ends, b: Ends) -> Ends {
    let lower = a.lower * if a.lower < 0 { b.upper } else { b.lower };
    let upper = a.upper * if a.upper < 0 { b.lower } else { b.upper };
    Ends { lower, upper }
}

/// For two figures of which the second is not negative.
fn times(a: Ends, b: Ends, divisor: i64) -> Ends {
    let Ends { lower, upper } = product(a, b);
    ends(lower, upper, divisor)
}

fn scaled(a: Ends, factor: i64, divisor: i64) -> Ends {
    ends(a.lower * factor, a.upper * factor, divisor)
}

/// A reading in units of 1/256 ppm: the float's exact value, rounded down and up.
fn units(reading: Reading) -> Option<Ends> {
    let each = match reading.kind {
        0 => 256.0,
        1 => 2_560_000.0,
        _ => return None,
    };
    // exact: 24 bits of the float times 22
    let units = f64::from(f32::from_bits(reading.bits)) * each;
    // what is not a number is in no range; the limit is whole, so that a value up to it has its upper end up to it
    if !(0.0..=MOST_UNITS).contains(&units) {
        return None;
    }
    let lower = units as i64;
    Some(Ends { lower, upper: lower + i64::from(units > lower as f64) })
}

fn field(part: u32, field: u32, holds: bool) -> Result<(), Refusal> {
    check(holds, Refusal { number: 11, at: part, within: field, side: 0 })
}

fn judge_test(s: &Sheet) -> Result<(), Refusal> {
    let (triple, fuel, cutter) = (s.triple, s.fuel, s.efficiencies);
    field(0, 10, (100..=200).contains(&triple.d) && triple.wc <= 20 && triple.wh <= 20)?;
    let factors = fuel.hc <= 1000 && fuel.co <= 1000 && fuel.co2 <= 1000;
    field(0, 11, (1..=1500).contains(&fuel.k) && factors && (600..=1000).contains(&fuel.density))?;
    field(0, 12, s.limits.each().iter().all(|&limit| limit <= 1_000_000_000_000))?;
    field(0, 13, cutter.methane <= 1000 && cutter.ethane <= 1000)
}

fn judge_part(place: u32, p: &Part) -> Result<(), Refusal> {
    field(place, 1, (100..=20_000).contains(&p.pump))?;
    field(place, 2, (1..=100_000).contains(&p.revolutions) && p.pump * p.revolutions <= 1_000_000_000)?;
    field(place, 3, (80_000..=110_000).contains(&p.barometer))?;
    field(place, 4, p.depression <= 20_000)?;
    field(place, 5, (-400..=1500).contains(&p.temperature))?;
    field(place, 6, p.humidity <= 1000)?;
    field(place, 7, p.saturation <= 12_000)?;
    field(place, 8, (100..=100_000).contains(&p.distance))?;
    field(place, 9, p.density.each().iter().all(|density| (1..=2_100_000).contains(density)))
}

/// In the fifth place what was read behind the cutter.
#[derive(Clone, Copy, Default)]
struct Units {
    bag: [Ends; 5],
    air: [Ends; 5],
}

fn has_cutter(bag: &Bag) -> bool {
    bag.cutter.kind != Reading::NOT_FITTED.kind
}

/// The readings of a part. A cutter that is not fitted stays 0.
fn readings(place: u32, p: &Part) -> Result<Units, Refusal> {
    let mut found = Units::default();
    let (bag, air) = (p.bag.each(), p.air.each());
    for gas in 0..5 {
        let unusable = |side| Refusal { number: 12, at: place, within: gas as u32 + 1, side };
        if gas != NMHC || has_cutter(&p.bag) {
            found.bag[gas] = units(bag[gas]).ok_or(unusable(1))?;
        }
        if gas != NMHC || has_cutter(&p.air) {
            found.air[gas] = units(air[gas]).ok_or(unusable(2))?;
        }
    }
    Ok(found)
}

/// The fifth gas of a bag or of its air: it rises with HC and falls with what was read behind the cutter.
fn nmhc(s: &Sheet, side: &[Ends; 5]) -> Ends {
    let (hc, cutter) = (side[0], side[NMHC]);
    let [methane, ethane] = [s.efficiencies.methane, s.efficiencies.ethane].map(i64::from);
    let over = |hc: i64, cutter: i64| hc * (1000 - methane) - cutter * 1000;
    ends(over(hc.lower, cutter.upper), over(hc.upper, cutter.lower), ethane - methane)
}

fn g(s: &Sheet, units: &Units) -> Ends {
    let [hc, co, _, co2, _] = units.bag;
    let [wc, wh] = [s.triple.wc, s.triple.wh].map(i64::from);
    let sum = |hc: i64, co: i64, co2: i64| 10 * co2 + wc * co + wh * hc;
    Ends { lower: sum(hc.lower, co.lower, co2.lower), upper: sum(hc.upper, co.upper, co2.upper) }
}

fn q(s: &Sheet) -> i64 {
    2_560_000 * i64::from(s.triple.d)
}

/// The vapour's pressure and the rest of the barometer's, in mPa.
fn pressures(p: &Part) -> (i64, i64) {
    let vapour = i64::from(p.humidity) * i64::from(p.saturation);
    (vapour, 1000 * i64::from(p.barometer) - vapour)
}

fn dry_enough(p: &Part) -> bool {
    let (vapour, dry) = pressures(p);
    6211 * vapour <= 300 * dry
}

fn kh(p: &Part) -> Ends {
    let (vapour, dry) = pressures(p);
    let over = 65_536 * 1_000_000 * dry;
    ends(over, over, 1_352_030 * dry - 20_434_190 * vapour)
}

fn volume(p: &Part) -> Ends {
    let swept = i64::from(p.pump * p.revolutions) * i64::from(p.barometer - p.depression);
    ends(swept * 5863, swept * 5863, 101_325 * (2 * i64::from(p.temperature) + 5463))
}

/// G is below Q, and the air's fifth gas may be below zero.
fn concentration(bag: Ends, air: Ends, g: Ends, q: i64) -> Ends {
    let air = product(air, Ends { lower: q - g.upper, upper: q - g.lower });
    ends(16 * (bag.lower * q - air.upper), 16 * (bag.upper * q - air.lower), q)
}

/// The figures of a part; the fifth gas is 0 where the test does not have it.
fn part_result(s: &Sheet, p: &Part, units: &Units, has_nmhc: bool) -> PartResult {
    let (g, q, volume, density, kh) = (g(s, units), q(s), volume(p), p.density.each(), kh(p));
    let mass: [Ends; 5] = std::array::from_fn(|gas| {
        let (bag, air) = match gas {
            NMHC if !has_nmhc => return Ends::default(),
            NMHC => (nmhc(s, &units.bag), nmhc(s, &units.air)),
            _ => (units.bag[gas], units.air[gas]),
        };
        let gas_volume = times(concentration(bag, air, g, q), volume, 4_096_000);
        let mass = scaled(gas_volume, i64::from(density[gas]), 1_000_000);
        if gas == NOX {
            times(mass, kh, 65_536)
        } else {
            mass
        }
    });
    let rate = mass.map(|mass| scaled(mass, 1000, i64::from(p.distance)));
    PartResult { volume, mass: Gases::of(mass), rate: Gases::of(rate) }
}

fn verdict(weighted: Ends, limit: u64) -> Verdict {
    let limit = limit as i64;
    if weighted.upper <= limit {
        Verdict::Pass
    } else if weighted.lower > limit {
        Verdict::Fail
    } else {
        Verdict::Undecided
    }
}

/// The class's parts and their weights in percent.
fn weights(s: &Sheet) -> Result<&'static [i64], Refusal> {
    match (s.class, s.count) {
        (1, 2) => Ok(&[50, 50]),
        (2, 2) => Ok(&[30, 70]),
        (3, 3) => Ok(&[25, 50, 25]),
        _ => Err(nowhere(10)),
    }
}

/// The units of each part, or the first of the refusals 11 to 14 and 19; and whether the test has the fifth gas.
fn judge(s: &Sheet, given: &[Part]) -> Result<([Units; 3], bool), Refusal> {
    judge_test(s)?;
    for (k, part) in given.iter().enumerate() {
        judge_part(k as u32 + 1, part)?;
    }
    let mut units = [Units::default(); 3];
    for (k, part) in given.iter().enumerate() {
        units[k] = readings(k as u32 + 1, part)?;
    }
    for (k, units) in units[..given.len()].iter().enumerate() {
        check(g(s, units).upper < q(s), at(13, k as u32 + 1))?;
    }
    for (k, part) in given.iter().enumerate() {
        check(dry_enough(part), at(14, k as u32 + 1))?;
    }
    let has_nmhc = given.iter().all(|part| has_cutter(&part.bag) && has_cutter(&part.air));
    check(!has_nmhc || s.efficiencies.ethane >= s.efficiencies.methane + 500, nowhere(19))?;
    Ok((units, has_nmhc))
}

/// The full result of a test, or the first of the refusals 10 to 14 and 19.
pub fn result(s: &Sheet) -> Result<TestResult, Refusal> {
    let weights = weights(s)?;
    let given = &s.parts[..weights.len()];
    let (units, has_nmhc) = judge(s, given)?;
    let mut parts = [PartResult::default(); 3];
    for (k, part) in given.iter().enumerate() {
        parts[k] = part_result(s, part, &units[k], has_nmhc);
    }
    let rates = parts.map(|part| part.rate.each());
    let weighted: [Ends; 5] = std::array::from_fn(|gas| {
        let (mut lower, mut upper) = (0, 0);
        for (weight, rate) in weights.iter().zip(&rates) {
            lower += weight * rate[gas].lower;
            upper += weight * rate[gas].upper;
        }
        ends(lower, upper, 100)
    });
    let limits = s.limits.each();
    let mut verdicts = std::array::from_fn(|gas| verdict(weighted[gas], limits[gas]));
    if !has_nmhc {
        verdicts[NMHC] = Verdict::NoVerdict;
    }
    Ok(TestResult { parts, weighted: Gases::of(weighted), verdicts: Gases::of(verdicts), has_nmhc, fuel: fuel(s, weighted) })
}

/// In microlitres per 100 km.
fn fuel(s: &Sheet, [hc, co, _, co2, _]: [Ends; 5]) -> Ends {
    let [f1, f2, f3] = [s.fuel.hc, s.fuel.co, s.fuel.co2].map(i64::from);
    let carbon = |hc: i64, co: i64, co2: i64| i64::from(s.fuel.k) * (f1 * hc + f2 * co + f3 * co2);
    ends(carbon(hc.lower, co.lower, co2.lower), carbon(hc.upper, co.upper, co2.upper), 10_000 * i64::from(s.fuel.density))
}
