//! The gear sheet (01, Shift speeds to Corrections), refusals 1 to 7, 20, 8 and 9.

use crate::figure::Figure;
use crate::trace::{self, Phase, Second};
use crate::{at, check, nowhere, Refusal};

/// The vehicle sheet in the paper's letters: P in 0.1 kW, m in kg, s and n per minute, ndv in 0.01 per minute per km/h. The rule set is "1 or 2, last in its
/// listing" (02, M-101): 01's rules, or chapter 2W-II of document 004.
#[derive(Clone, Copy, Debug, PartialEq, Eq)]
pub struct Vehicle {
    pub p: u32,
    pub m: u32,
    pub s: u32,
    pub n: u32,
    pub ng: u32,
    pub ndv: [u32; 8],
    pub rule_set: u32,
}

/// Refusals 5, 6 and 7.
pub(crate) fn judge(v: &Vehicle) -> Result<(), Refusal> {
    check((1..=3000).contains(&v.p), at(5, 1))?;
    check((30..=1000).contains(&v.m), at(5, 2))?;
    check((1000..=20000).contains(&v.s), at(5, 3))?;
    check((300..=3000).contains(&v.n) && v.n <= v.s - 500, at(5, 4))?;
    check((3..=8).contains(&v.ng), at(5, 5))?;
    let ndv = &v.ndv[..v.ng as usize];
    for (gear, each) in (1..).zip(ndv) {
        check((1000..=100_000).contains(each), at(5, 5 + gear))?;
    }
    check((1..=2).contains(&v.rule_set), at(5, 14))?;
    for (gear, pair) in (2..).zip(ndv.windows(2)) {
        check(pair[1] < pair[0], at(6, gear))?;
    }
    check(19 * v.p <= 150 * (v.m + 75), nowhere(7))
}

/// "20 for a marked version 1 trace under set 2, with its first marked second" (02, M-109); "marks on stop seconds count" (readings). A trace of version 2 that
/// was accepted has none.
fn judge_marks(v: &Vehicle, seconds: &[Second]) -> Result<(), Refusal> {
    let first_marked = (1..).zip(seconds).find(|(_, second)| second.is_marked());
    match first_marked {
        Some((place, _)) if v.rule_set == 2 => Err(at(20, place)),
        _ => Ok(()),
    }
}

/// 1 in the units of the exponential's ends.
const ONE: i128 = 1 << 32;

/// The ends of e to the power -x, in units of 1/2^32, for P and m of an accepted sheet.
///
/// ```
/// let (lower, upper) = plain::gear::exponential(1, 1000);
/// assert!(lower < upper && upper < 1 << 32);
/// ```
pub fn exponential(p: u32, m: u32) -> (i128, i128) {
    let (mut a, mut b) = (vec![ONE], vec![ONE]);
    for k in 1..=24 {
        let divisor = 100 * (i128::from(m) + 75) * k as i128;
        a.push(a[k - 1] * 19 * i128::from(p) / divisor);
        b.push((b[k - 1] * 19 * i128::from(p) + divisor - 1) / divisor);
    }
    let every_other = |terms: &[i128]| -> i128 { terms.iter().step_by(2).sum() };
    let lower = every_other(&a[0..=22]) - every_other(&b[1..=23]);
    let upper = every_other(&b[0..=24]) - every_other(&a[1..=23]);
    (lower, upper)
}

/// The shift speeds of a vehicle: for each gear i from 1 on, ndv(i) and the two sides that 10 x speed x ndv(i) x 2^32 is held against.
#[derive(Clone, Debug)]
pub struct Speeds {
    pub ndv: Vec<i128>,
    pub lower: Vec<i128>,
    pub upper: Vec<i128>,
}

/// The upshift speeds i to i+1, for i from 1 to ng-1, as engine speeds times 10,000 x 2^32.
pub fn speeds(v: &Vehicle) -> Speeds {
    let ends = exponential(v.p, v.m);
    let (s, n) = (i128::from(v.s), i128::from(v.n));
    let side = |gear: u32, e: i128| {
        let tenth = if gear == 1 { 1000 * ONE } else { 0 };
        (5753 * e - tenth) * (s - n) + 10_000 * ONE * n
    };
    let gears = 1..v.ng;
    Speeds {
        ndv: gears.clone().map(|i| i128::from(v.ndv[i as usize - 1])).collect(),
        lower: gears.clone().map(|i| side(i, ends.0)).collect(),
        upper: gears.map(|i| side(i, ends.1)).collect(),
    }
}

/// The shift speeds of a vehicle in 0.001 km/h: the upshifts from gear 1 on, and the downshift 2 to 1, which rule set 2 alone has.
#[derive(Debug)]
pub struct ShiftSpeeds {
    pub upshifts: Vec<Figure>,
    pub to_first: Option<Figure>,
}

/// The shift speeds of a vehicle, or the first of the refusals 5 to 7. As include/ylhovesko.h says of the upshifts, "first the engine speed at which gears
/// are shifted" is rounded outward "to 1/10,000 per minute, then that over ndv", whose unit is 0.01 per minute per km/h. The engine speed of the downshift
/// 2 to 1 is exact, so that it is rounded once.
///
/// ```
/// use plain::gear::{shift_speeds, Vehicle};
/// let vehicle = Vehicle { p: 300, m: 200, s: 8000, n: 1200, ng: 3, ndv: [20_000, 12_000, 9_000, 0, 0, 0, 0, 0], rule_set: 2 };
/// let speeds = shift_speeds(&vehicle).unwrap();
/// let ends: Vec<_> = speeds.upshifts.iter().chain(&speeds.to_first).map(|speed| (speed.lower, speed.upper)).collect();
/// assert_eq!(ends, [(18_498, 18_499), (36_497, 36_498), (11_700, 11_700)]);
/// assert!(shift_speeds(&Vehicle { rule_set: 1, ..vehicle }).unwrap().to_first.is_none());
/// assert_eq!(shift_speeds(&Vehicle { ng: 9, ..vehicle }).unwrap_err().at, 5);
/// ```
pub fn shift_speeds(v: &Vehicle) -> Result<ShiftSpeeds, Refusal> {
    judge(v)?;
    let Speeds { ndv, lower, upper } = speeds(v);
    let engine = lower.into_iter().zip(upper).map(|(lower, upper)| Figure::over(lower, upper, ONE));
    let upshifts = engine.zip(ndv).map(|(engine, ndv)| engine.scaled(10, ndv)).collect();
    let to_first = Figure::of(100 * i128::from(three_per_cent(v)), v.ndv[1].into());
    Ok(ShiftSpeeds { upshifts, to_first: (v.rule_set == 2).then_some(to_first) })
}

impl Speeds {
    /// Whether the speed is above shift speed `i`; nothing where it is too close to call.
    pub(crate) fn is_above(&self, i: usize, speed: u32) -> Option<bool> {
        let engine = 10 * i128::from(speed) * self.ndv[i] * ONE;
        let (below, above) = (engine < self.lower[i], engine > self.upper[i]);
        (below || above).then_some(above)
    }

    /// How many of the first `few` shift speeds the speed is above; nothing where one of them is too close to call.
    fn above(&self, few: usize, speed: u32) -> Option<u8> {
        let mut above = 0;
        for i in 0..few {
            above += u8::from(self.is_above(i, speed)?);
        }
        Some(above)
    }
}

/// The gear before corrections of a second outside stop; rule set 2 has another in cruise and deceleration alone. Downshift i to i-1 is the upshift i-2 to
/// i-1, so the ng-2 downshift speeds are the first ng-2 upshift speeds.
pub(crate) fn own(v: &Vehicle, speeds: &Speeds, second: &Second) -> Option<u8> {
    let upshifts = speeds.ndv.len();
    match second.phase {
        Phase::Stop => Some(0),
        Phase::Acceleration => Some(1 + speeds.above(upshifts, second.speed)?),
        Phase::Cruise | Phase::Deceleration if v.rule_set == 2 => own_by_004(v, speeds, second.speed),
        Phase::Cruise | Phase::Deceleration => Some(2 + speeds.above(upshifts - 1, second.speed)?),
    }
}

/// 004, 4.5.5.2.1.3, "Gear choice for deceleration or cruise phases: gear 1, if v < v2->1; gear 2, if v < v3->2; gear 3, if v3->2 <= v < v4->3", and so on to
/// the last gear. v2->1 (4.5.5.2.1.2, equation 2.7) is "[0.03 (s - n) + n] / ndv2": with "no exponential in it ... it is compared exactly: gear 1 strictly
/// below, and never too close"; it may lie above v3->2, and "then gear 1 still goes first, and a second too close to any of the other speeds is still
/// refused" (02, M-101). The upshifts of cruise (2-7a, 2-8 and 2-9) are these same speeds again ([`crate::exact::cruise_upshift`]; docs/DECISIONS.md).
fn own_by_004(v: &Vehicle, speeds: &Speeds, speed: u32) -> Option<u8> {
    let mut gear = 2;
    for higher in 3..=v.ng as u8 {
        let downshift = usize::from(higher) - 3;
        if speeds.is_above(downshift, speed)? {
            gear = higher;
        }
    }
    Some(if is_below_2_to_1(v, speed) { 1 } else { gear })
}

/// "Speed in tenths x ndv in hundredths" of gear 2 against the line, exactly.
pub(crate) fn is_below_2_to_1(v: &Vehicle, speed: u32) -> bool {
    speed * v.ndv[1] < three_per_cent(v)
}

/// What gives each second of a vehicle its gear before corrections; nothing where the speed is too close to call, and 0 at a stop.
pub type Own<'a> = Box<dyn Fn(&Second) -> Option<u8> + 'a>;

/// 01's comparison with the ends, made anew at every second.
pub fn by_ends(v: &Vehicle) -> Own<'_> {
    let speeds = speeds(v);
    Box::new(move |second| own(v, &speeds, second))
}

/// "The last five seconds of a run of stop seconds are gear 1, earlier ones gear 0; a run under six is all gear 1."
fn stop_gears(seconds: &[Second], row: &mut [u8]) {
    for k in 0..seconds.len() {
        if seconds[k].is_stop() {
            let left = seconds[k..].iter().take_while(|second| second.is_stop()).count();
            row[k] = u8::from(left <= 5);
        }
    }
}

/// "A deceleration run directly after an acceleration run: the smaller of its own gear and that run's last gear."
fn correction_1(seconds: &[Second], row: &mut [u8]) {
    for k in 0..seconds.len() {
        if seconds[k].phase != Phase::Deceleration {
            continue;
        }
        let before_run = (0..k).rev().find(|&j| seconds[j].phase != Phase::Deceleration);
        if let Some(last) = before_run.filter(|&j| seconds[j].phase == Phase::Acceleration) {
            row[k] = row[k].min(row[last]);
        }
    }
}

/// "'No 1. gear': 1 becomes 2."
fn correction_2(seconds: &[Second], row: &mut [u8]) {
    for k in 0..seconds.len() {
        if !seconds[k].is_stop() && seconds[k].no_first_gear && row[k] == 1 {
            row[k] = 2;
        }
    }
}

/// "'No gear-shift': the preceding second's gear, unless that second is a stop; where this puts 1 on a 'no 1. gear' second, 2."
fn correction_3(seconds: &[Second], row: &mut [u8]) {
    for k in 1..seconds.len() {
        if !seconds[k].is_stop() && seconds[k].no_gear_shift && !seconds[k - 1].is_stop() {
            row[k] = if row[k - 1] == 1 && seconds[k].no_first_gear { 2 } else { row[k - 1] };
        }
    }
}

/// "Acceleration after acceleration: never below the preceding gear."
fn correction_4(seconds: &[Second], row: &mut [u8]) {
    for k in 1..seconds.len() {
        if seconds[k - 1].phase == Phase::Acceleration && seconds[k].phase == Phase::Acceleration {
            row[k] = row[k].max(row[k - 1]);
        }
    }
}

/// "At most one step up or down from the preceding second; a larger one is cut to one." Before a second outside stop no gear is 0.
fn correction_5(seconds: &[Second], row: &mut [u8]) {
    for k in 1..seconds.len() {
        if !seconds[k].is_stop() {
            row[k] = row[k].clamp(row[k - 1] - 1, row[k - 1] + 1);
        }
    }
}

/// The first second past the run of one gear that starts at second k; a run "holds no stop second and ends at one".
fn run_end(seconds: &[Second], row: &[u8], k: usize) -> usize {
    (k..seconds.len()).find(|&j| seconds[j].is_stop() || row[j] != row[k]).unwrap_or(seconds.len())
}

/// The gear that a run takes, if it takes one: "a run of 1 to 4 seconds of one gear, with the same other gear on both sides, neither neighbour a
/// stop, takes that gear; unless that is 1 and the run has a 'no 1. gear' second."
fn taken(seconds: &[Second], row: &[u8], first: usize, end: usize) -> Option<u8> {
    let between = first > 0 && !seconds[first - 1].is_stop() && end < seconds.len() && !seconds[end].is_stop();
    if !between || end - first > 4 || row[first - 1] != row[end] {
        return None;
    }
    let no_first_gear = seconds[first..end].iter().any(|second| second.no_first_gear);
    Some(row[end]).filter(|&gear| gear != 1 || !no_first_gear)
}

/// "Runs are judged in order of first second, as the row then is; a replaced run and the two beside it become one run, which counts as judged."
fn correction_6(seconds: &[Second], row: &mut [u8]) {
    let mut first = 0;
    while first < seconds.len() {
        if seconds[first].is_stop() {
            first += 1;
            continue;
        }
        let end = run_end(seconds, row, first);
        first = match taken(seconds, row, first, end) {
            Some(gear) => {
                row[first..end].fill(gear);
                run_end(seconds, row, end)
            }
            None => end,
        };
    }
}

/// "n + 0.03 (s - n)", the engine speed 3 per cent of the way from n to s, as "1,000 n + 30 (s - n)": in 0.001 per minute, which is what "speed in tenths x
/// ndv in hundredths" counts.
///
/// ```
/// use plain::gear::{three_per_cent, Vehicle};
/// let vehicle = Vehicle { p: 300, m: 200, s: 8000, n: 1200, ng: 3, ndv: [20_000, 12_000, 9_000, 0, 0, 0, 0, 0], rule_set: 1 };
/// assert_eq!(three_per_cent(&vehicle), 1_404_000);
/// ```
pub fn three_per_cent(v: &Vehicle) -> u32 {
    1000 * v.n + 30 * (v.s - v.n)
}

/// "Outside stop, the clutch is out exactly below 10.0 km/h" (01), and "also out when engine speed in the final gear is below n + 0.03 (s - n) ... At
/// equality it stays in. The 10 km/h rule remains" (02, M-100). At a stop it is out. The final gear of a second outside stop is 1 to ng.
pub(crate) fn clutch(v: &Vehicle, second: &Second, gear: u8) -> u8 {
    let slow_engine = || second.speed * v.ndv[usize::from(gear) - 1] < three_per_cent(v);
    u8::from(second.is_stop() || second.speed < 100 || slow_engine())
}

/// The gear and clutch of every second into the buffer from the start on; or the first refusal, and the buffer as it was lent.
///
/// ```
/// use plain::gear::{write_gears, Vehicle};
/// let vehicle = Vehicle { p: 300, m: 200, s: 8000, n: 1200, ng: 3, ndv: [20_000, 12_000, 9_000, 0, 0, 0, 0, 0], rule_set: 1 };
/// let stop = [b'W', b'T', b'R', 0, 1, 0, 1, 0, 0, 0, 0, 0];
/// let mut buffer = [7; 4];
/// write_gears(&stop, &vehicle, &mut buffer, 1).unwrap();
/// assert_eq!(buffer, [7, 1, 1, 7]);
/// assert_eq!(write_gears(&stop, &vehicle, &mut buffer, 3).unwrap_err().number, 8);
/// ```
pub fn write_gears(file: &[u8], vehicle: &Vehicle, buffer: &mut [u8], start: usize) -> Result<(), Refusal> {
    write_gears_by(by_ends, file, vehicle, buffer, start)
}

/// [`write_gears`], whichever way the gears before corrections are chosen: all else is the same (02, M-106).
pub(crate) fn write_gears_by(
    way: impl Fn(&Vehicle) -> Own<'_>,
    file: &[u8],
    vehicle: &Vehicle,
    buffer: &mut [u8],
    start: usize,
) -> Result<(), Refusal> {
    let seconds = trace::read(file)?;
    judge(vehicle)?;
    judge_marks(vehicle, &seconds)?;
    let room = buffer.len().checked_sub(start);
    check(room.is_some_and(|room| room >= 2 * seconds.len()), nowhere(8))?;
    let own = way(vehicle);
    let mut row = (1..).zip(&seconds).map(|(place, second)| own(second).ok_or(at(9, place))).collect::<Result<Vec<u8>, Refusal>>()?;
    stop_gears(&seconds, &mut row);
    for correction in [correction_1, correction_2, correction_3, correction_4, correction_5, correction_6] {
        correction(&seconds, &mut row);
    }
    for ((out, gear), second) in buffer[start..].chunks_mut(2).zip(row).zip(&seconds) {
        out.copy_from_slice(&[gear, clutch(vehicle, second, gear)]);
    }
    Ok(())
}

#[cfg(test)]
pub(crate) mod known_rows {
    //! 01's rows of correction 6, the clutch, and tables A13-2 and A13-3 of document 001 (24.9 and 34.9 per cent: docs/DECISIONS.md), whose figures are those
    //! of 004's tables Ap8-3 and Ap8-4; and the gears of cruise by 004's equations.

    use super::*;
    use crate::exact::{cruise_upshift, downshift};
    use crate::fraction::Fraction;

    /// Table A13-1, and table Ap8-2 of 004.
    pub(crate) const MACHINE: Vehicle =
        Vehicle { p: 720, m: 199, s: 11_800, n: 1150, ng: 6, ndv: [13_366, 9491, 7616, 6569, 5885, 5404, 0, 0], rule_set: 1 };

    fn second(phase: Phase, speed: u32) -> Second {
        Second { speed, phase, no_gear_shift: false, no_first_gear: false }
    }

    fn corrected(gears: &[u8]) -> Vec<u8> {
        let mut row = gears.to_vec();
        correction_6(&vec![second(Phase::Cruise, 500); gears.len()], &mut row);
        row
    }

    #[test]
    fn short_runs() {
        assert_eq!(corrected(&[2, 3, 3, 3, 2]), [2; 5]);
        assert_eq!(corrected(&[2, 3, 3, 3, 3, 3, 2]), [2, 3, 3, 3, 3, 3, 2]);
        assert_eq!(corrected(&[2, 3, 4, 3, 2]), [2, 3, 3, 3, 2]);
    }

    /// Tenths, nearest; `over` / `under` is a fraction of what the printed figure counts.
    fn in_tenths(over: i128, under: i128) -> i128 {
        (20 * over + under).div_euclid(2 * under)
    }

    #[test]
    fn annex_13() {
        let (unit, band) = (10_000 * ONE, i128::from(MACHINE.s - MACHINE.n));
        let shift = speeds(&MACHINE);
        let printed = shift_speeds(&MACHINE).unwrap().upshifts;
        assert!(printed.iter().map(|speed| in_tenths(speed.lower, 1000)).eq([285, 513, 639, 741, 827]));
        assert!(printed.iter().map(|speed| in_tenths(speed.upper, 1000)).eq([285, 513, 639, 741, 827]));
        for sides in [&shift.lower, &shift.upper] {
            let speed = |i: usize| in_tenths(100 * sides[i], shift.ndv[i] * unit);
            assert_eq!([0, 1, 2, 3, 4].map(speed), [285, 513, 639, 741, 827]);
            // the engine speed in gear i where the upshift speed of gear j is driven, and its share of the band in per mille
            let engine = |j: usize, i: usize| {
                let (over, under) = (sides[j] * i128::from(MACHINE.ndv[i]), shift.ndv[j] * unit);
                let per_minute = (2 * over + under).div_euclid(2 * under);
                (per_minute, in_tenths(100 * (over - i128::from(MACHINE.n) * under), band * under))
            };
            assert_eq!([engine(0, 0), engine(1, 1)], [(3804, 249), (4869, 349)]);
            assert_eq!([engine(0, 2), engine(1, 3), engine(2, 4), engine(3, 5)], [(2167, 96), (3370, 208), (3762, 245), (4005, 268)]);
        }
    }

    /// The gear before corrections of a second under rule set 2.
    fn by_set_2(v: &Vehicle, phase: Phase, speed: u32) -> Option<u8> {
        own(&Vehicle { rule_set: 2, ..*v }, &speeds(v), &second(phase, speed))
    }

    /// Table Ap8-4: 28.5, 51.3, 63.9, 74.1 and 82.7 km/h upwards as by rule set 1, and downwards 15.5, 28.5, 51.3, 63.9 and 74.1.
    #[test]
    fn appendix_8() {
        let printed = shift_speeds(&Vehicle { rule_set: 2, ..MACHINE }).unwrap();
        let to_first = printed.to_first.unwrap();
        assert_eq!((to_first.lower, to_first.upper), (15_483, 15_484));
        assert!(printed.upshifts.iter().map(|speed| in_tenths(speed.lower, 1000)).eq([285, 513, 639, 741, 827]));
        for phase in [Phase::Cruise, Phase::Deceleration] {
            let gears = |speeds: [u32; 10]| speeds.map(|speed| by_set_2(&MACHINE, phase, speed).unwrap());
            assert_eq!(gears([154, 155, 284, 285, 513, 514, 639, 640, 741, 742]), [1, 2, 2, 3, 3, 4, 4, 5, 5, 6]);
        }
        assert_eq!([154, 155, 284, 285].map(|speed| by_set_2(&MACHINE, Phase::Acceleration, speed).unwrap()), [1, 1, 1, 2]);
    }

    /// x is 1.5 here: 3 to 2 is 13.12 km/h and 2 to 1 is 14.78.
    pub(crate) const STRONG: Vehicle =
        Vehicle { p: 1500, m: 115, s: 12_000, n: 1000, ng: 5, ndv: [10_000, 9000, 8000, 7000, 6000, 0, 0, 0], rule_set: 2 };

    #[test]
    fn gear_1_goes_first() {
        for phase in [Phase::Cruise, Phase::Deceleration] {
            assert_eq!([131, 132, 147, 148].map(|speed| by_set_2(&STRONG, phase, speed)), [1, 1, 1, 3].map(Some));
            let by_set_1 = |speed| own(&Vehicle { rule_set: 1, ..STRONG }, &speeds(&STRONG), &second(phase, speed));
            assert_eq!([131, 132, 147, 148].map(by_set_1), [2, 3, 3, 3].map(Some));
        }
    }

    /// The first gear whose speed to the next gear the second is below, or the last gear.
    fn gear_below(to_next: &[Fraction], speed: u32) -> u8 {
        let at_or_above = |to_next: &&Fraction| to_next.between(0, 100 * i128::from(speed));
        1 + to_next.iter().take_while(at_or_above).count() as u8
    }

    /// Equations 2-7a, 2-8 and 2-9 shift a cruise second up where 2.7, 2-6 and 2-5 shift it down, and both give the gear that is worked out in whole numbers,
    /// with either end of e to the power -x.
    #[test]
    fn cruise_upshifts_change_no_gear() {
        let tall = Vehicle { ng: 8, ndv: [40_000, 9000, 8999, 5000, 2500, 2000, 1001, 1000], ..STRONG };
        let equal = Vehicle { p: 1, m: 1000, s: 11_000, n: 1000, ng: 3, ndv: [13_001, 10_000, 9999, 0, 0, 0, 0, 0], rule_set: 2 };
        for v in [MACHINE, STRONG, tall, equal, Vehicle { p: 828, m: 30, ..tall }] {
            let ends = exponential(v.p, v.m);
            for e in [ends.0, ends.1].map(|end| Fraction::new(end, ONE)) {
                let up: Vec<Fraction> = (1..v.ng as usize).map(|gear| cruise_upshift(&v, gear, e)).collect();
                let down: Vec<Fraction> = (2..=v.ng as usize).map(|gear| downshift(&v, gear, e)).collect();
                for speed in 0..=2000 {
                    let gear = by_set_2(&v, Phase::Cruise, speed).unwrap();
                    assert_eq!((gear_below(&up, speed), gear_below(&down, speed)), (gear, gear), "{v:?}, {speed}");
                }
            }
        }
    }

    /// The phases that a clutch rule is for.
    const MOVING: [Phase; 3] = [Phase::Acceleration, Phase::Cruise, Phase::Deceleration];

    /// Table A13-3, "2 -> cl": 15.5 km/h, 3.0 per cent, 1,470 per minute.
    #[test]
    fn annex_13_clutch() {
        let line = i128::from(three_per_cent(&MACHINE));
        assert_eq!(in_tenths(line, 10 * i128::from(MACHINE.ndv[1])), 155);
        assert_eq!(in_tenths(100 * (line - 1000 * i128::from(MACHINE.n)), 1000 * i128::from(MACHINE.s - MACHINE.n)), 30);
        assert_eq!(in_tenths(line, 10_000), 1470);
        for phase in MOVING {
            let out = |speed: u32, gear: u8| clutch(&MACHINE, &second(phase, speed), gear) == 1;
            assert!(out(154, 2) && !out(155, 2));
            assert!(out(192, 3) && !out(193, 3), "1,469.5 over 76.16 is 19.295");
            assert!(out(109, 1) && !out(110, 1), "1,469.5 over 133.66 is 10.994");
        }
    }

    /// 1,000 x 1,000 + 30 x 10,000 is 130 x 10,000: at 13.0 km/h the engine speed of gear 2 is the line itself, and the clutch stays in.
    #[test]
    fn clutch_at_equality() {
        let vehicle = Vehicle { s: 11_000, n: 1000, ndv: [13_001, 10_000, 9999, 5000, 4000, 3000, 0, 0], ..MACHINE };
        assert_eq!(three_per_cent(&vehicle), 130 * 10_000);
        for phase in MOVING {
            let clutch = |speed: u32, gear: u8| clutch(&vehicle, &second(phase, speed), gear);
            assert_eq!([129, 130, 131].map(|speed| clutch(speed, 2)), [1, 0, 0]);
            assert_eq!([130, 131].map(|speed| clutch(speed, 3)), [1, 0]);
        }
    }

    /// In gear 1 of this vehicle the engine is faster than the line from 1.5 km/h on.
    #[test]
    fn clutch_below_10_km_an_hour() {
        let vehicle = Vehicle { ndv: [100_000, 9491, 7616, 6569, 5885, 5404, 0, 0], ..MACHINE };
        for phase in MOVING {
            assert_eq!([15, 99, 100, 101].map(|speed| clutch(&vehicle, &second(phase, speed), 1)), [1, 1, 0, 0]);
        }
        assert_eq!([0, 100, 2000].map(|speed| clutch(&vehicle, &second(Phase::Stop, speed), 1)), [1, 1, 1]);
        assert_eq!(clutch(&vehicle, &second(Phase::Stop, 2000), 0), 1);
    }
}
