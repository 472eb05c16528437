//! The shift speeds of a vehicle in whole tenths: the proved core and the second implementation on random vehicles.

use std::collections::BTreeMap;

use compare::cases;
use compare::gear::{accepted_vehicle, plain_vehicle, vehicle_for_tenths, vehicle_text};
use compare::tenths::{by_core, by_plain, gear, hold_exact};
use plain::gear::by_ends;
use plain::trace::{Phase, Second};
use ylhovesko::gear::{shift_tenths, Vehicle};

/// Random vehicles, YLHOVESKO_CASES of them. A difference is shown as a line of vectors/directed_tenths.txt, with the vehicle's seed.
#[test]
fn random_vehicles() {
    let (mut seen, mut marks) = (BTreeMap::new(), BTreeMap::new());
    for seed in 0..cases("YLHOVESKO_CASES", 100_000) {
        let vehicle = vehicle_for_tenths(seed);
        let line = || format!("seed {seed}: {}", vehicle_text(&vehicle));
        let (core, plain) = (by_core(&vehicle), by_plain(&vehicle));
        assert!(core == plain, "{}\ncore  {core:?}\nplain {plain:?}", line());
        assert!(core.told[0] != 0 || hold_exact(&vehicle, &core), "{}\na tenth is not the exact speed's: {core:?}", line());
        *seen.entry(core.told[0]).or_insert(0) += 1;
        let marked = (1..).zip(&core.upshifts).filter(|(_, (above, not_below))| not_below < above);
        marked.for_each(|(gear, (_, tenth)): (u32, _)| *marks.entry((gear, *tenth > 2000)).or_insert(0) += 1);
    }
    println!("vehicles by refusal number: {seen:?}; marks by gear, and whether no trace holds the tenth: {marks:?}");
    if seen.values().sum::<u64>() >= 100_000 {
        assert!(seen[&0] >= 40_000, "too few are accepted: {seen:?}");
        assert!((5..=7).all(|number| seen.get(&number).is_some_and(|&count| count >= 100)), "a refusal is hardly met: {seen:?}");
        let mut places = (1..=7).flat_map(|gear| [(gear, false), (gear, true)]);
        assert!(places.all(|place| marks.get(&place).is_some_and(|&count| count >= 10)), "a gear is hardly marked: {marks:?}");
    }
}

/// The phases outside stop.
const MOVING: [Phase; 3] = [Phase::Acceleration, Phase::Cruise, Phase::Deceleration];

/// How many speeds of a trace are too close to call on a vehicle, all phases outside stop together. At every speed and in every phase the core's tenths,
/// counted as include/ylhovesko.h says, give the gear that the second implementation has by the ends, or neither gives one.
fn too_close(vehicle: Vehicle) -> usize {
    let (tenths, of_plain) = (shift_tenths(vehicle).unwrap(), plain_vehicle(&vehicle));
    let own = by_ends(&of_plain);
    let mut close = 0;
    for (phase, speed) in MOVING.into_iter().flat_map(|phase| (0..=2000).map(move |speed| (phase, speed))) {
        let by_ends = own(&Second { speed, phase, no_gear_shift: false, no_first_gear: false });
        let by_tenths = gear(&tenths, phase == Phase::Acceleration, speed);
        assert_eq!(by_tenths, by_ends, "{phase:?} at {speed}: {}", vehicle_text(&vehicle));
        close += usize::from(by_ends.is_none());
    }
    close
}

/// Every tenth of some random vehicles under both rule sets; gives how many of them have a speed that is too close.
fn every_tenth(vehicles: u64) -> usize {
    let close = |seed: &u64| {
        let [by_1, by_2] = [1, 2].map(|rule_set| too_close(Vehicle { rule_set, ..accepted_vehicle(*seed) }));
        assert_eq!(by_1, by_2, "seed {seed}: what is too close is the same under both sets");
        by_1 > 0
    };
    let marked = (0..vehicles).filter(close).count();
    println!("of {vehicles} vehicles {marked} have a speed that is too close");
    marked
}

/// In the gate a few vehicles. Some of them have to have a mark, which vehicles that are not searched for hardly ever have.
#[test]
fn every_tenth_of_50_vehicles() {
    assert!(every_tenth(50) >= 5);
}

/// By hand many vehicles: 4 seconds that the gate need not take again each time, as random traces and vehicles hold the core to the same there. It is to be
/// run where the tenths, the comparison with the ends or the header's rule change:
///
///     cargo test --manifest-path host/Cargo.toml --release --offline --locked -p compare --test tenths -- --ignored --nocapture
#[test]
#[ignore = "run by hand, as its doc comment says"]
fn every_tenth_of_10_000_vehicles() {
    assert!(every_tenth(10_000) >= 500);
}
