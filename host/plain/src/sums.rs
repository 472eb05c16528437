//! "The exact alternating sum of the terms x^k / k! from k = 0 to N, as a fraction" in the place of e to the power -x, and "the row that this longer sum would
//! give, under either rule set" (02, M-107), refusals 1 to 8.
//!
//! Nothing is rounded: every speed is below a shift speed, at it or above it, and none is too close to call.

use crate::exact::{downshift, upshift};
use crate::fraction::Fraction;
use crate::gear::{write_gears_by, Own, Vehicle};
use crate::trace::{Phase, Second};
use crate::Refusal;

/// The exact sum for P and m of an accepted sheet, with `last` for N, and "x = 1.9 x power in kW / (m + 75) = 19 P / (100 (m + 75))" (01). Each term is the
/// one before it times -x / k; the sum so far is brought to the term's denominator, so that the two are added as they are.
///
/// ```
/// use plain::fraction::Fraction;
/// use plain::sums::sum_to;
/// // x is 3/2: 1 - 3/2 + 9/8 is 5/8
/// assert!(sum_to(1500, 115, 2).times(Fraction::new(8, 1)).between(5, 5));
/// ```
pub fn sum_to(p: u32, m: u32, last: u32) -> Fraction {
    let (over, under) = (19 * i128::from(p), 100 * (i128::from(m) + 75));
    let (mut term, mut sum) = (Fraction::new(1, 1), Fraction::new(1, 1));
    for k in 1..=i128::from(last) {
        term = term.times(Fraction::new(-over, under * k));
        sum = sum.times(Fraction::new(under * k, under * k)).plus(term);
    }
    sum
}

/// The shift speeds of a vehicle in 0.001 km/h as fractions: the upshifts from gear 1 on, the downshifts from gear 3 on, and the downshift 2 to 1, which rule
/// set 2 alone has.
struct ExactSpeeds {
    upshifts: Vec<Fraction>,
    downshifts: Vec<Fraction>,
    to_first: Option<Fraction>,
}

/// The shift speeds with some fraction for e: "upshift i to i+1, i = 2 to ng-1", and 1 to 2; "downshift i to i-1, i = 4 to ng", and 3 to 2.
fn exact_speeds(v: &Vehicle, e: Fraction) -> ExactSpeeds {
    ExactSpeeds {
        upshifts: (1..v.ng as usize).map(|gear| upshift(v, gear, e)).collect(),
        downshifts: (3..=v.ng as usize).map(|gear| downshift(v, gear, e)).collect(),
        to_first: (v.rule_set == 2).then(|| downshift(v, 2, e)),
    }
}

/// How many of some shift speeds a speed is above; the former are in 0.001 km/h and the latter is in tenths.
fn above(some: &[Fraction], speed: u32) -> u8 {
    some.iter().filter(|each| each.is_below(100 * i128::from(speed))).count() as u8
}

impl ExactSpeeds {
    /// "Acceleration: one more than the number of upshift speeds the speed is above. Cruise, deceleration: two more than the number of downshift speeds it is
    /// above" (01); under rule set 2 "gear 1 strictly below" the downshift 2 to 1, and "gear 1 still goes first" (02, M-101).
    fn own(&self, second: &Second) -> u8 {
        let below_2_to_1 = self.to_first.is_some_and(|to_first| to_first.is_above(100 * i128::from(second.speed)));
        match second.phase {
            Phase::Stop => 0,
            Phase::Acceleration => 1 + above(&self.upshifts, second.speed),
            Phase::Cruise | Phase::Deceleration if below_2_to_1 => 1,
            Phase::Cruise | Phase::Deceleration => 2 + above(&self.downshifts, second.speed),
        }
    }
}

/// The fractions in place of 01's comparison with the ends.
fn by_fraction(v: &Vehicle, e: Fraction) -> Own<'_> {
    let speeds = exact_speeds(v, e);
    Box::new(move |second| Some(speeds.own(second)))
}

/// [`crate::gear::write_gears`] by the exact sum to `last`. It has no refusal 9; stops, corrections and clutch are the same.
///
/// ```
/// use plain::gear::Vehicle;
/// use plain::sums::write_gears;
/// let vehicle = Vehicle { p: 300, m: 200, s: 8000, n: 1200, ng: 3, ndv: [20_000, 12_000, 9_000, 0, 0, 0, 0, 0], rule_set: 1 };
/// // an acceleration at 18.5 km/h, which is above the upshift 1 to 2
/// let second = [b'W', b'T', b'R', 0, 1, 0, 1, 0, 185, 0, 1, 0];
/// let mut buffer = [7; 4];
/// write_gears(24, &second, &vehicle, &mut buffer, 1).unwrap();
/// assert_eq!(buffer, [7, 2, 0, 7]);
/// assert_eq!(write_gears(24, &second, &vehicle, &mut buffer, 3).unwrap_err().number, 8);
/// ```
pub fn write_gears(last: u32, file: &[u8], vehicle: &Vehicle, buffer: &mut [u8], start: usize) -> Result<(), Refusal> {
    write_gears_by(|v| by_fraction(v, sum_to(v.p, v.m, last)), file, vehicle, buffer, start)
}

#[cfg(test)]
mod known_sums {
    //! Sums and gears by hand: Annex 13's machine, x = 3/2, speeds at a shift speed, and one that is too close by the ends.

    use super::*;
    use crate::exact::series;
    use crate::gear::exponential;
    use crate::gear::known_rows::{MACHINE, STRONG};

    fn is(fraction: Fraction, over: i128, under: i128) -> bool {
        fraction.times(Fraction::new(under, 1)).between(over, over)
    }

    /// The gears before corrections of some speeds.
    fn gears<const N: usize>(v: &Vehicle, e: Fraction, phase: Phase, speeds: [u32; N]) -> [u8; N] {
        let own = by_fraction(v, e);
        speeds.map(|speed| own(&Second { speed, phase, no_gear_shift: false, no_first_gear: false }).unwrap())
    }

    /// x is 3/2, and the terms are 1, -3/2, 9/8, -9/16, 27/128, -81/1280.
    #[test]
    fn first_sums() {
        let sums = [(1, 1), (-1, 2), (5, 8), (1, 16), (35, 128), (269, 1280)];
        for (last, (over, under)) in (0..).zip(sums) {
            assert!(is(sum_to(1500, 115, last), over, under), "to {last}");
        }
        // x is 19/107,500
        assert!(is(sum_to(1, 1000, 1), 107_481, 107_500));
    }

    /// 2^32 times the sum is 2,606,931,522.90 for Annex 13's machine, which has x = 342/685, and 958,336,740.59 for x = 3/2. There the sum to 13 is below the
    /// lower end, and the sum to 12 above the upper one.
    #[test]
    fn beside_the_ends() {
        let units = |v: Vehicle, last| sum_to(v.p, v.m, last).times(Fraction::new(1 << 32, 1));
        assert!(units(MACHINE, 24).rounds_to(2_606_931_522, 2_606_931_523));
        assert_eq!(exponential(MACHINE.p, MACHINE.m), (2_606_931_512, 2_606_931_537));
        assert!(units(STRONG, 24).rounds_to(958_336_740, 958_336_741));
        assert_eq!(exponential(STRONG.p, STRONG.m), (958_336_730, 958_336_751));
        assert!(units(STRONG, 12).rounds_to(958_336_861, 958_336_862));
        assert!(units(STRONG, 13).rounds_to(958_336_727, 958_336_728));
        assert!(units(STRONG, 14).rounds_to(958_336_741, 958_336_742));
    }

    /// The same sum with 001's decimals and from the last term inward.
    #[test]
    fn sums_of_001() {
        for v in [MACHINE, STRONG, Vehicle { p: 1, m: 1000, ..MACHINE }, Vehicle { p: 3000, m: 1000, ..MACHINE }] {
            for last in 0..=64 {
                assert!(sum_to(v.p, v.m, last).minus(series(&v, last.into())).between(0, 0), "{v:?} to {last}");
            }
        }
    }

    /// "Downshift 3 to 2: the upshift 1 to 2. Downshift i to i-1, i = 4 to ng: the upshift i-2 to i-1."
    #[test]
    fn downshifts_are_upshifts() {
        let ExactSpeeds { upshifts, downshifts, .. } = exact_speeds(&MACHINE, sum_to(MACHINE.p, MACHINE.m, 24));
        assert_eq!((upshifts.len(), downshifts.len()), (5, 4));
        assert!(downshifts.iter().zip(upshifts).all(|(down, up)| down.minus(up).between(0, 0)));
    }

    /// Tables A13-3 and Ap8-4: 28.459, 51.3001, 63.930, 74.119 and 82.734 km/h, and 15.483.
    #[test]
    fn annex_13() {
        for (last, rule_set, lowest) in [24, 25, 64].into_iter().flat_map(|last| [(last, 1, 2), (last, 2, 1)]) {
            let (v, e) = (Vehicle { rule_set, ..MACHINE }, sum_to(MACHINE.p, MACHINE.m, last));
            let accelerates = gears(&v, e, Phase::Acceleration, [154, 284, 285, 513, 514, 639, 640, 741, 742, 827, 828, 2000]);
            assert_eq!(accelerates, [1, 1, 2, 2, 3, 3, 4, 4, 5, 5, 6, 6]);
            for phase in [Phase::Cruise, Phase::Deceleration] {
                let held = gears(&v, e, phase, [154, 155, 284, 285, 513, 514, 639, 640, 741, 742, 2000]);
                assert_eq!(held, [lowest, 2, 2, 3, 3, 4, 4, 5, 5, 6, 6]);
            }
        }
    }

    /// 3 to 2 is 13.12 km/h and 2 to 1 is 14.78.
    #[test]
    fn gear_1_goes_first() {
        let e = sum_to(STRONG.p, STRONG.m, 24);
        for phase in [Phase::Cruise, Phase::Deceleration] {
            assert_eq!(gears(&STRONG, e, phase, [131, 132, 147, 148]), [1, 1, 1, 3]);
            assert_eq!(gears(&Vehicle { rule_set: 1, ..STRONG }, e, phase, [131, 132, 147, 148]), [2, 3, 3, 3]);
        }
        assert_eq!(gears(&STRONG, e, Phase::Acceleration, [131, 132, 147, 148]), [1, 2, 2, 2]);
    }

    /// With 0 for e the upshift 1 to 2 is at (n - 0.1 (s - n)) / ndv1 and the others at n / ndv: on the one machine 4.9995, 10 and 11.11 km/h, on the other 5,
    /// 10.001 and 11.11. 2 to 1 is at 11.5 km/h. At equality a speed is not above an upshift, and not below 2 to 1.
    #[test]
    fn at_a_shift_speed() {
        let v = Vehicle { p: 1, m: 1000, s: 6000, n: 1000, ng: 4, ndv: [10_001, 10_000, 9000, 8000, 0, 0, 0, 0], rule_set: 2 };
        let [v, of_set_1] = [v, Vehicle { rule_set: 1, ndv: [10_000, 9999, 9000, 8000, 0, 0, 0, 0], ..v }];
        let nothing = Fraction::new(0, 1);
        assert_eq!(gears(&v, nothing, Phase::Acceleration, [49, 50, 100, 101]), [1, 2, 2, 3]);
        assert_eq!(gears(&of_set_1, nothing, Phase::Acceleration, [49, 50, 51, 100, 101]), [1, 1, 2, 2, 3]);
        for phase in [Phase::Cruise, Phase::Deceleration] {
            assert_eq!(gears(&v, nothing, phase, [100, 114, 115, 116]), [1, 1, 4, 4]);
            assert_eq!(gears(&of_set_1, nothing, phase, [50, 51, 100, 101]), [2, 3, 3, 4]);
        }
    }

    /// 123.7 km/h is at the lower end of the upshift 2 to 3, which is too close by the ends. The sums are above that end, and the upshift above the speed.
    #[test]
    fn too_close_by_the_ends() {
        let v = Vehicle { p: 1612, m: 428, s: 10_540, n: 300, ng: 4, ndv: [3833, 2833, 2733, 2633, 0, 0, 0, 0], rule_set: 1 };
        for e in [24, 25, 64].map(|last| sum_to(v.p, v.m, last)) {
            assert_eq!(gears(&v, e, Phase::Acceleration, [1236, 1237, 1238]), [2, 2, 3]);
            assert_eq!(gears(&v, e, Phase::Cruise, [1236, 1237, 1238]), [3, 3, 4]);
            assert_eq!(gears(&v, e, Phase::Deceleration, [1236, 1237, 1238]), [3, 3, 4]);
        }
    }
}
