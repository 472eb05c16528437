//! The shift speeds of a vehicle: the proved core and the second implementation on random vehicles.

use std::collections::BTreeMap;

use compare::cases;
use compare::gear::{any_vehicle, vehicle_text};
use compare::speeds::{by_core, by_plain, hold_exact};

/// Random vehicles, YLHOVESKO_CASES of them. A difference is shown as a line of vectors/directed_speeds.txt, with the vehicle's seed. The exact speed
/// lies between the ends, which are one unit apart, or two around a whole number of them; those of 2 to 1 are one apart, or none at a whole number.
#[test]
fn random_vehicles() {
    let (mut seen, mut apart, mut to_first) = (BTreeMap::new(), BTreeMap::new(), BTreeMap::new());
    for seed in 0..cases("YLHOVESKO_CASES", 100_000) {
        let vehicle = any_vehicle(seed);
        let line = || format!("seed {seed}: {}", vehicle_text(&vehicle));
        let (core, plain) = (by_core(&vehicle), by_plain(&vehicle));
        assert!(core == plain, "{}\ncore  {core:?}\nplain {plain:?}", line());
        assert!(core.told[0] != 0 || hold_exact(&vehicle, &core), "{}\nan exact speed is not between its ends: {core:?}", line());
        *seen.entry(core.told[0]).or_insert(0) += 1;
        core.upshifts.iter().for_each(|(lower, upper)| *apart.entry(upper - lower).or_insert(0) += 1);
        core.to_first.iter().for_each(|(lower, upper)| *to_first.entry(upper - lower).or_insert(0) += 1);
    }
    println!("vehicles by refusal number: {seen:?}; speeds by the units between their ends: {apart:?}; 2 to 1: {to_first:?}");
    if seen.values().sum::<u64>() >= 100_000 {
        assert!(seen[&0] >= 40_000, "too few are accepted: {seen:?}");
        assert!((5..=7).all(|number| seen.get(&number).is_some_and(|&count| count >= 100)), "a refusal is hardly met: {seen:?}");
        assert!(
            apart.keys().eq(&[1, 2]) && apart[&2] >= 1000,
            "ends that are too far apart, or hardly any around a whole number: {apart:?}"
        );
        assert!(
            to_first.keys().eq(&[0, 1]) && to_first[&0] >= 200,
            "2 to 1 is hardly a whole number, or its ends are too far apart: {to_first:?}"
        );
    }
}
