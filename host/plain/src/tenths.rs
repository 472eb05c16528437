//! The shift speeds "once per vehicle" in whole tenths of a km/h, and gears chosen "from those whole numbers" (02, M-106), refusals 1 to 7, 20, 8 and 9.
//!
//! Each tenth is found by asking 01's comparison with the ends, so that nothing has to be argued about how a shift speed rounds.

use crate::gear::{is_below_2_to_1, judge, speeds, write_gears_by, Own, Speeds, Vehicle};
use crate::trace::{Phase, Second};
use crate::Refusal;

/// An upshift speed: "the least tenth of a km/h above" it, and the least that is not below it. The "mark where a tenth is too close" is that the latter is
/// less.
#[derive(Clone, Copy, Debug, PartialEq, Eq)]
pub struct Tenths {
    pub above: u32,
    pub not_below: u32,
}

/// As include/ylhovesko.h says of the places past the last upshift, "both are 65,535, which no speed reaches".
const OUT_OF_REACH: Tenths = Tenths { above: 65_535, not_below: 65_535 };

/// The shift speeds of a vehicle as include/ylhovesko.h has them: `count` upshifts from gear 1 on among "all seven", and the least tenth "at or above, for
/// rule set 2's 2 to 1 speed", which is 0 under rule set 1.
#[derive(Clone, Debug, PartialEq, Eq)]
pub struct ShiftTenths {
    pub count: usize,
    pub upshifts: [Tenths; 7],
    pub to_first: u32,
}

/// The least tenth of which something holds that holds of all tenths from there on. It is asked for by halves: the answer is `from` or `to` or between them.
fn least(holds: impl Fn(u32) -> bool) -> u32 {
    let (mut from, mut to) = (0, OUT_OF_REACH.above);
    while from < to {
        let middle = (from + to) / 2;
        if holds(middle) {
            to = middle;
        } else {
            from = middle + 1;
        }
    }
    from
}

/// The tenths of shift speed `i`. A speed that is not below it is above it or too close to call.
fn upshift(speeds: &Speeds, i: usize) -> Tenths {
    let above = least(|tenth| speeds.is_above(i, tenth) == Some(true));
    let not_below = least(|tenth| speeds.is_above(i, tenth) != Some(false));
    Tenths { above, not_below }
}

/// The tenths of an accepted sheet.
fn tenths(v: &Vehicle) -> ShiftTenths {
    let speeds = speeds(v);
    let count = speeds.ndv.len();
    let upshifts = std::array::from_fn(|i| if i < count { upshift(&speeds, i) } else { OUT_OF_REACH });
    let to_first = if v.rule_set == 2 { least(|tenth| !is_below_2_to_1(v, tenth)) } else { 0 };
    ShiftTenths { count, upshifts, to_first }
}

/// The shift speeds of a vehicle in whole tenths, or the first of the refusals 5 to 7.
///
/// ```
/// use plain::gear::Vehicle;
/// use plain::tenths::{shift_tenths, Tenths};
/// let vehicle = Vehicle { p: 300, m: 200, s: 8000, n: 1200, ng: 3, ndv: [20_000, 12_000, 9_000, 0, 0, 0, 0, 0], rule_set: 2 };
/// let tenths = shift_tenths(&vehicle).unwrap();
/// assert_eq!(tenths.upshifts[..2], [185, 365].map(|tenth| Tenths { above: tenth, not_below: tenth }), "18.498 and 36.497 km/h");
/// assert_eq!((tenths.count, tenths.upshifts[2].above, tenths.to_first), (2, 65_535, 117));
/// assert_eq!(shift_tenths(&Vehicle { rule_set: 1, ..vehicle }).unwrap().to_first, 0);
/// assert_eq!(shift_tenths(&Vehicle { ng: 9, ..vehicle }).unwrap_err().at, 5);
/// ```
pub fn shift_tenths(v: &Vehicle) -> Result<ShiftTenths, Refusal> {
    judge(v)?;
    Ok(tenths(v))
}

impl Tenths {
    /// "A speed is above the upshift .. where it is at or above above[i], below it where it is below not_below[i], and else too close to call."
    fn is_above(self, speed: u32) -> Option<bool> {
        let (below, above) = (speed < self.not_below, speed >= self.above);
        (below || above).then_some(above)
    }
}

/// How many of some upshifts the speed is above; nothing where one of them is too close to call.
fn above(some: &[Tenths], speed: u32) -> Option<u8> {
    some.iter().map(|each| each.is_above(speed).map(u8::from)).sum()
}

impl ShiftTenths {
    /// "In acceleration 1 + the number of the seven that the speed is above; in cruise, deceleration 1 below to_first, else 2 + the number of the first count - 1
    /// that it is above."
    fn own(&self, second: &Second) -> Option<u8> {
        match second.phase {
            Phase::Stop => Some(0),
            Phase::Acceleration => Some(1 + above(&self.upshifts, second.speed)?),
            Phase::Cruise | Phase::Deceleration => {
                let gear = 2 + above(&self.upshifts[..self.count - 1], second.speed)?;
                Some(if second.speed < self.to_first { 1 } else { gear })
            }
        }
    }
}

/// The whole numbers in place of 01's comparison, worked once.
fn by_tenths(v: &Vehicle) -> Own<'_> {
    let tenths = tenths(v);
    Box::new(move |second| tenths.own(second))
}

/// [`crate::gear::write_gears`] by tenths: "every trace must give the same row and the same refusals as the present comparison."
///
/// ```
/// use plain::gear::Vehicle;
/// use plain::tenths::write_gears;
/// let vehicle = Vehicle { p: 300, m: 200, s: 8000, n: 1200, ng: 3, ndv: [20_000, 12_000, 9_000, 0, 0, 0, 0, 0], rule_set: 1 };
/// // an acceleration at 18.5 km/h, which is above the upshift 1 to 2
/// let second = [b'W', b'T', b'R', 0, 1, 0, 1, 0, 185, 0, 1, 0];
/// let mut buffer = [7; 4];
/// write_gears(&second, &vehicle, &mut buffer, 1).unwrap();
/// assert_eq!(buffer, [7, 2, 0, 7]);
/// assert_eq!(write_gears(&second, &vehicle, &mut buffer, 3).unwrap_err().number, 8);
/// ```
pub fn write_gears(file: &[u8], vehicle: &Vehicle, buffer: &mut [u8], start: usize) -> Result<(), Refusal> {
    write_gears_by(by_tenths, file, vehicle, buffer, start)
}

#[cfg(test)]
mod known_tenths {
    //! Tables A13-3 and Ap8-4, the ends of what tenths reach, a tenth that is too close, and every tenth asked.

    use super::*;
    use crate::gear::by_ends;
    use crate::gear::known_rows::{MACHINE, STRONG};

    /// The highest and the lowest speeds.
    const FAST: Vehicle =
        Vehicle { p: 1, m: 1000, s: 20_000, n: 3000, ng: 8, ndv: [1007, 1006, 1005, 1004, 1003, 1002, 1001, 1000], rule_set: 2 };
    const SLOW: Vehicle = Vehicle { p: 900, m: 39, s: 1000, n: 300, ng: 3, ndv: [100_000, 99_999, 99_998, 0, 0, 0, 0, 0], rule_set: 2 };

    /// 123.7 km/h is at the lower end of the upshift 2 to 3.
    const CLOSE: Vehicle = Vehicle { p: 1612, m: 428, s: 10_540, n: 300, ng: 4, ndv: [3833, 2833, 2733, 2633, 0, 0, 0, 0], rule_set: 2 };

    fn clear(tenth: u32) -> Tenths {
        Tenths { above: tenth, not_below: tenth }
    }

    /// 28.459, 51.3001, 63.930, 74.119 and 82.734 km/h, and 15.483.
    #[test]
    fn annex_13() {
        for (rule_set, to_first) in [(1, 0), (2, 155)] {
            let upshifts = [285, 514, 640, 742, 828, 65_535, 65_535].map(clear);
            assert_eq!(tenths(&Vehicle { rule_set, ..MACHINE }), ShiftTenths { count: 5, upshifts, to_first });
        }
    }

    #[test]
    fn as_far_as_they_reach() {
        assert_eq!(tenths(&FAST).upshifts[6], clear(12_766));
        assert_eq!(tenths(&Vehicle { ndv: [1002, 1001, 1000, 0, 0, 0, 0, 0], ng: 3, ..FAST }).to_first, 3507);
        assert_eq!((tenths(&SLOW).upshifts[0], tenths(&SLOW).to_first), (clear(4), 4));
    }

    #[test]
    fn too_close() {
        assert_eq!(tenths(&CLOSE).upshifts[1], Tenths { above: 1238, not_below: 1237 });
    }

    /// What is found by halves is what is found by asking every tenth from 0 on.
    #[test]
    fn asked_at_every_tenth() {
        for v in [MACHINE, FAST, SLOW, CLOSE, STRONG].map(|v| Vehicle { rule_set: 2, ..v }) {
            let (speeds, found) = (speeds(&v), tenths(&v));
            for i in 0..found.count {
                let first = |holds: fn(Option<bool>) -> bool| (0..).find(|&tenth| holds(speeds.is_above(i, tenth))).unwrap();
                let Tenths { above, not_below } = found.upshifts[i];
                assert_eq!((above, not_below), (first(|is| is == Some(true)), first(|is| is != Some(false))), "{v:?}, {i}");
            }
            assert_eq!(found.to_first, (0..).find(|&tenth| !is_below_2_to_1(&v, tenth)).unwrap(), "{v:?}");
        }
    }

    /// By tenths every speed of a trace has the gear that it has by the ends, or is as close.
    #[test]
    fn same_gears() {
        for v in [MACHINE, FAST, SLOW, CLOSE, STRONG].into_iter().flat_map(|v| [1, 2].map(|rule_set| Vehicle { rule_set, ..v })) {
            let ways = [by_ends(&v), by_tenths(&v)];
            for phase in [Phase::Stop, Phase::Acceleration, Phase::Cruise, Phase::Deceleration] {
                for speed in 0..=2000 {
                    let second = Second { speed, phase, no_gear_shift: false, no_first_gear: false };
                    let [by_ends, by_tenths] = ways.each_ref().map(|own| own(&second));
                    assert_eq!(by_ends, by_tenths, "{v:?}, {second:?}");
                    assert_eq!(by_ends.is_none(), v.p == CLOSE.p && speed == 1237 && phase != Phase::Stop, "{v:?}, {second:?}");
                }
            }
        }
    }
}
