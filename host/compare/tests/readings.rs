//! Readings by their bits: every exponent, and both sides of every whole unit.

use compare::bags::plain_message;
use compare::readings::{ends_of_exponents, turns, Sweep, MEASURES, MOST};
use plain::bags::units;
use ylhovesko::bags::Reading;
use ylhovesko::LINKED;

/// Every exponent with both signs, and the significands at both ends and in the middle.
#[test]
fn every_exponent() {
    for (kind, _) in MEASURES {
        let mut sweep = Sweep::new(kind);
        ends_of_exponents().for_each(|bits| sweep.see(bits));
        let Sweep { usable, unusable, .. } = sweep.end();
        // every one of the exponents up to 142 and 128, of the next one 1 and 8, and minus zero
        assert_eq!((usable, unusable), [(1718, 4426), (1557, 4587)][kind as usize]);
    }
}

/// The floats from one whole unit to the next that are beside either, with their ends: the whole unit itself has it twice, and those after it have the two.
fn from_unit(units: u64, (first, whole): (u32, bool), next: u32) -> impl Iterator<Item = (u32, [u64; 2])> {
    let beside = (first..next).take(2).chain((first + 2..next).next_back());
    beside.map(move |bits| (bits, [units, units + u64::from(bits > first || !whole)]))
}

/// The floats at and on both sides of each whole unit, up to the limit and past it. Where the core is called through pipes it sees every 256th unit, and the
/// second implementation every one.
#[test]
fn around_every_unit() {
    let each_of = if LINKED { 1 } else { 256 };
    for (kind, each) in MEASURES {
        let plain = |bits| units(plain_message(Reading { kind, bits })).map(|units| [units.lower, units.upper]);
        let mut sweep = Sweep::new(kind);
        for (units, (turn, (next, _))) in (0..).zip(turns(each).zip(turns(each).skip(1))) {
            for (bits, ends) in from_unit(units, turn, next) {
                let usable = ends[1] <= MOST;
                assert_eq!(plain(bits), usable.then_some(ends.map(i128::from)), "{bits:08x}, kind {kind}");
                if units.is_multiple_of(each_of) || !usable {
                    sweep.see(bits);
                }
            }
        }
        let Sweep { usable, unusable, .. } = sweep.end();
        println!("kind {kind}: {usable} patterns usable, {unusable} not");
        assert!(usable > 25_000_000 / each_of && unusable > 0, "too few units are met");
    }
}
