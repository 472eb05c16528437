//! What the ends of e to the power -x have to do with the exponential (02, M-107): "for each accepted vehicle and each N from 24 on, the exact alternating sum of
//! the terms x^k / k! from k = 0 to N, as a fraction, lies between our two ends, which are at most 128 units apart. So a row we do print is the row that this
//! longer sum would give, under either rule set, for every such N."

use std::collections::BTreeMap;

use compare::gear::{accepted_vehicle, by_core, case, first_gear_case, read, vehicle_for_tenths, vehicle_text, Case};
use compare::random::Random;
use compare::sums::{between_ends, by_sum, powers_and_masses, speeds_hold, tenths_hold};
use compare::{cases, speeds, stored, tenths};
use plain::fraction::Fraction;
use plain::gear::exponential;
use plain::sums::sum_to;
use ylhovesko::gear::Vehicle;

const GEAR: &str = include_str!("../../vectors/gear.txt");
const M_100: &str = include_str!("../../vectors/M-100-gear.txt");
const M_101: &str = include_str!("../../vectors/M-101-gear.txt");
const M_109: &str = include_str!("../../vectors/M-109-gear.txt");
const DIRECTED: &str = include_str!("../../vectors/directed_gear.txt");
const SPEEDS: &str = include_str!("../../vectors/directed_speeds.txt");
const TENTHS: &str = include_str!("../../vectors/directed_tenths.txt");

/// Some N "from 24 on".
const LAST: [u32; 9] = [24, 25, 26, 27, 31, 40, 50, 63, 64];

/// Another N of a seed.
fn longer(seed: u64) -> u32 {
    Random::new(!seed).from(25, 64)
}

/// Every P and m of an accepted sheet with the greatest x, which is 3/2.
fn greatest() -> impl Iterator<Item = (u32, u32)> {
    (6..=20).map(|multiple| (150 * multiple, 19 * multiple - 75))
}

/// Those with the narrowest ends: x is 15/16.
fn narrowest() -> impl Iterator<Item = (u32, u32)> {
    (2..=8).map(|multiple| (375 * multiple, 76 * multiple - 75))
}

/// Those with the widest.
const WIDEST: [(u32, u32); 4] = [(1031, 59), (1054, 62), (2062, 193), (2108, 199)];

/// All these; the least x; the sum to 24 that is nearest to an upper end, as the nearest to a lower one is among the narrowest; other ends of the ranges; Annex
/// 13's machine.
fn directed() -> impl Iterator<Item = (u32, u32)> {
    let others = [(1, 1000), (375, 229), (1, 30), (828, 30), (3000, 1000), (720, 199)];
    greatest().chain(narrowest()).chain(WIDEST).chain(others)
}

/// How far apart the ends are, over all accepted sheets.
#[test]
fn ends_are_close() {
    let apart = |p: u32, m: u32| {
        let (lower, upper) = exponential(p, m);
        upper - lower
    };
    let mut seen = BTreeMap::new();
    powers_and_masses().for_each(|(p, m)| *seen.entry(apart(p, m)).or_insert(0) += 1);
    println!("accepted P and m by the units between their ends: {seen:?}");
    assert!(seen.keys().all(|units| (0..=128).contains(units)));
    assert!(seen.keys().copied().eq(18..=37), "{seen:?}");
    assert_eq!((seen.values().sum::<u32>(), seen[&18], seen[&37]), (2_613_264, 7, 4));
    assert!(narrowest().all(|(p, m)| apart(p, m) == 18) && WIDEST.into_iter().all(|(p, m)| apart(p, m) == 37));
}

fn assert_enclosed(p: u32, m: u32, last: u32) {
    assert!(between_ends(p, m, sum_to(p, m, last)), "P {p}, m {m}: the sum to {last} is not between the ends");
}

#[test]
fn directed_sums_lie_between_the_ends() {
    for (p, m) in directed() {
        (24..=64).for_each(|last| assert_enclosed(p, m, last));
    }
}

/// A quarter of YLHOVESKO_CASES.
#[test]
fn random_sums_lie_between_the_ends() {
    for seed in 0..cases("YLHOVESKO_CASES", 100_000) / 4 {
        let Vehicle { power, mass, .. } = accepted_vehicle(seed);
        [24, longer(seed)].into_iter().for_each(|last| assert_enclosed(power, mass, last));
    }
}

/// By hand every accepted P and m: minutes that the gate need not take again each time, as random vehicles hold the ends to the same there. Every later sum lies
/// between those to 24 and to 25, as the terms alternate and fall. 14 is the first N that would do. It is to be run where the ends or the exact sum change:
///
///     cargo test --manifest-path host/Cargo.toml --release --offline --locked -p compare --test sums -- --ignored
#[test]
#[ignore = "run by hand, as its doc comment says"]
fn every_sum_lies_between_the_ends() {
    let mut outside = 0;
    for (p, m) in powers_and_masses() {
        [14, 24, 25].into_iter().for_each(|last| assert_enclosed(p, m, last));
        outside += usize::from(!between_ends(p, m, sum_to(p, m, 13)));
    }
    assert_eq!(outside, 415, "by the sum to 13");
}

/// With 13 in place of 24 some sums are outside: all where x is 3/2, and some others.
#[test]
fn shorter_sums_can_lie_outside() {
    let outside = |p: u32, m: u32, last: u32| !between_ends(p, m, sum_to(p, m, last));
    assert!(greatest().all(|(p, m)| outside(p, m, 12) && outside(p, m, 13) && !outside(p, m, 14)));
    assert!(outside(835, 31, 13) && !outside(835, 31, 14));
    assert!(outside(828, 30, 12) && !outside(828, 30, 13));
}

/// The sum to 24 with each term the one before it times another factor, which is given for each k as numerator and denominator.
fn sum_by(factor: impl Fn(i128) -> (i128, i128)) -> Fraction {
    let (mut term, mut sum) = (Fraction::new(1, 1), Fraction::new(1, 1));
    for (over, under) in (1..=24).map(factor) {
        term = term.times(Fraction::new(over, under));
        sum = sum.times(Fraction::new(under, under)).plus(term);
    }
    sum
}

/// The ends tell the sum from others.
#[test]
fn other_sums_lie_outside() {
    for (p, m) in directed() {
        let (over, mass) = (19 * i128::from(p), i128::from(m));
        let others = [
            ("all terms added", sum_by(|k| (over, 100 * (mass + 75) * k))),
            ("without the factorial", sum_by(|_| (-over, 100 * (mass + 75)))),
            ("from k = 1", sum_to(p, m, 24).minus(Fraction::new(1, 1))),
            ("m without 75", sum_by(|k| (-over, 100 * mass * k))),
            ("one more to P", sum_by(|k| (-over - 19, 100 * (mass + 75) * k))),
            ("one more to m", sum_by(|k| (-over, 100 * (mass + 76) * k))),
        ];
        for (other, sum) in others {
            assert!(!between_ends(p, m, sum), "P {p}, m {m}: {other}");
        }
        assert!(between_ends(p, m, sum_by(|k| (-over, 100 * (mass + 75) * k))));
    }
}

/// By the exact sums to 24 and to another N the case has the core's refusal or row. Where a second is too close to call, it has one row by both. Gives the
/// core's refusal number.
fn same_row(case: &Case, another: u32) -> u32 {
    let core = by_core(case);
    let [by_24, by_another] = [24, another].map(|last| by_sum(case, last));
    assert!(by_24 == by_another, "{case}\nto 24 {by_24:?}\nto {another} {by_another:?}");
    match core.0[0] {
        9 => assert_eq!(by_24.0, [0; 4], "{case}"),
        _ => assert!(core == by_24, "{case}\ncore {core:?}\nto 24 and to {another} {by_24:?}"),
    }
    core.0[0]
}

/// How many stored cases are accepted, and how many have a second that is too close to call.
fn stored_rows(text: &str) -> (usize, usize) {
    let numbers: Vec<u32> = stored(text).map(|(line, text)| same_row(&read(line, text).0, longer(line))).collect();
    let count = |number: u32| numbers.iter().filter(|&&each| each == number).count();
    (count(0), count(9))
}

/// Every stored case of the gear sheet; those of gear_by_01.txt are those of gear.txt.
#[test]
fn stored_cases() {
    let seen = [GEAR, M_100, M_101, M_109, DIRECTED].map(stored_rows);
    println!("accepted and too close in gear.txt, M-100-gear.txt, M-101-gear.txt, M-109-gear.txt and directed_gear.txt: {seen:?}");
    assert_eq!(seen, [(193, 8), (188, 12), (36, 7), (159, 9), (663, 115)]);
}

/// Random cases, a tenth of YLHOVESKO_CASES; and as many on machines on which 2 to 1 lies above 3 to 2.
#[test]
fn random_cases() {
    let some = cases("YLHOVESKO_CASES", 100_000) / 10;
    let mut seen = BTreeMap::new();
    for seed in 0..some {
        for case in [case(seed), first_gear_case(seed)] {
            *seen.entry((case.vehicle.rule_set, same_row(&case, longer(seed)))).or_insert(0) += 1;
        }
    }
    println!("cases by rule set and refusal number: {seen:?}");
    if some >= 10_000 {
        let mut enough = [1, 2].into_iter().flat_map(|rule_set| [((rule_set, 0), 3000), ((rule_set, 9), 100)]);
        assert!(enough.all(|(place, least)| seen.get(&place).is_some_and(|&count| count >= least)), "a set is hardly met: {seen:?}");
    }
}

/// What the core prints of a vehicle, in 0.001 km/h and in tenths, holds its speeds by the exact sums to some N. Gives whether it is accepted.
fn printed_holds(vehicle: &Vehicle, some: &[u32]) -> bool {
    let (speeds, tenths) = (speeds::by_core(vehicle), tenths::by_core(vehicle));
    assert_eq!(speeds.told, tenths.told);
    let accepted = speeds.told[0] == 0;
    for &last in some.iter().filter(|_| accepted) {
        let line = || format!("{} by the sum to {last}", vehicle_text(vehicle));
        assert!(speeds_hold(vehicle, &speeds, last), "{}: {speeds:?}", line());
        assert!(tenths_hold(vehicle, &tenths, last), "{}: {tenths:?}", line());
    }
    accepted
}

#[test]
fn directed_vehicles() {
    let of_speeds = stored(SPEEDS).map(|(_, text)| speeds::read(text).0);
    let of_tenths = stored(TENTHS).map(|(_, text)| tenths::read(text).0);
    let accepted = of_speeds.chain(of_tenths).filter(|vehicle| printed_holds(vehicle, &LAST)).count();
    assert_eq!(accepted, 318);
}

/// The speeds and tenths of Annex 13's machine, each a little off.
#[test]
fn other_speeds_do_not_hold() {
    let ndv = [13_366, 9491, 7616, 6569, 5885, 5404, 0, 0];
    let machine = Vehicle { power: 720, mass: 199, rated: 11_800, idle: 1150, gears: 6, ndv, rule_set: 1 };
    assert!(printed_holds(&machine, &LAST));
    let (speeds, tenths) = (speeds::by_core(&machine), tenths::by_core(&machine));
    for (gear, last) in (0..5).flat_map(|gear| LAST.map(|last| (gear, last))) {
        for off in [-2, 2] {
            let mut speeds = speeds.clone();
            speeds.upshifts[gear] = (speeds.upshifts[gear].0 + off, speeds.upshifts[gear].1 + off);
            assert!(!speeds_hold(&machine, &speeds, last), "{speeds:?}");
        }
        let (above, not_below) = tenths.upshifts[gear];
        for off in [(above - 1, not_below), (above, not_below + 1)] {
            let mut tenths = tenths.clone();
            tenths.upshifts[gear] = off;
            assert!(!tenths_hold(&machine, &tenths, last), "{tenths:?}");
        }
    }
}

/// Random vehicles, a tenth of YLHOVESKO_CASES of each of two kinds, which are often searched for with a tenth that is too close.
#[test]
fn random_vehicles() {
    let some = cases("YLHOVESKO_CASES", 100_000) / 10;
    let vehicles = (0..some).flat_map(|seed| [accepted_vehicle(seed), vehicle_for_tenths(seed)].map(|vehicle| (seed, vehicle)));
    let accepted = vehicles.filter(|(seed, vehicle)| printed_holds(vehicle, &[24, longer(*seed)])).count() as u64;
    println!("of {} vehicles {accepted} are accepted", 2 * some);
    assert!(some < 10_000 || accepted >= some * 3 / 2, "too few are accepted: {accepted}");
}
