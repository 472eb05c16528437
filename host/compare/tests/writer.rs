//! The writer of traces: the proved core and the second implementation on the stored cases, and on random ones, and what is read of what they wrote.

use std::collections::BTreeMap;

use compare::gear::accepted_vehicle;
use compare::trace::house_file;
use compare::writer::{by_core, by_plain, case, length, read, Case};
use compare::{cases, gear, stored};
use plain::trace::{Phase, Second};
use ylhovesko::gear::{judge_trace, Vehicle};

const M_109: &str = include_str!("../../vectors/M-109-write.txt");

/// The cases that came with the request: the number, the place and every byte of the buffer.
#[test]
fn stored_cases() {
    for (line, text) in stored(M_109) {
        let (case, answer) = read(line, text, 2);
        assert_eq!(by_plain(&case), answer, "plain, line {line}");
        assert_eq!(by_core(&case), answer, "core, line {line}");
    }
    assert_eq!(stored(M_109).count(), 300);
}

/// In 16 bits they would be 0, 1 and 2,000 seconds. So many numbers are not stored.
#[test]
fn counts_past_16_bits() {
    for count in [65_536, 65_537, 67_536] {
        let case = Case { numbers: vec![0; 2 * count], buffer: vec![7; length(2 * count)] };
        for (told, written) in [by_plain(&case), by_core(&case)] {
            assert!(told == [2, 0, 0, 0] && written == case.buffer, "{count} seconds");
        }
    }
}

/// The seconds as the second implementation reads them.
fn same_seconds(file: &[u8], numbers: &[u16]) -> bool {
    const PHASES: [Phase; 4] = [Phase::Stop, Phase::Acceleration, Phase::Cruise, Phase::Deceleration];
    let seconds = numbers.chunks(2).map(|second| Second {
        speed: second[0].into(),
        phase: PHASES[usize::from(second[1])],
        no_gear_shift: false,
        no_first_gear: false,
    });
    plain::trace::read(file).unwrap().into_iter().eq(seconds)
}

/// The file of version 1 with these seconds and no mark.
fn of_version_1(numbers: &[u16]) -> Vec<u8> {
    house_file(&numbers.chunks(2).flat_map(|second| [second[0] as u8, (second[0] >> 8) as u8, second[1] as u8, 0]).collect::<Vec<u8>>())
}

/// What was written is accepted, and both read the seconds that were given: on a vehicle, under either rule set, it has the gears of the file of version 1.
fn assert_read(file: &[u8], numbers: &[u16], vehicle: Vehicle) {
    assert!(judge_trace(file).is_ok() && same_seconds(file, numbers));
    for rule_set in [1, 2] {
        let of = |trace: Vec<u8>| gear::Case { trace, vehicle: Vehicle { rule_set, ..vehicle }, buffer: vec![7; numbers.len()], start: 0 };
        let (case, same) = (of(file.to_vec()), of(of_version_1(numbers)));
        assert_eq!(gear::by_core(&case), gear::by_core(&same), "{case}");
    }
}

/// Random lists, YLHOVESKO_CASES of them. A difference is shown as a line of vectors/directed_write.txt, with the case's seed.
#[test]
fn random_lists() {
    let mut seen = BTreeMap::new();
    for seed in 0..cases("YLHOVESKO_CASES", 100_000) {
        let case = case(seed);
        let (core, plain) = (by_core(&case), by_plain(&case));
        assert!(core == plain, "seed {seed}: {case}\ncore  {core:?}\nplain {plain:?}");
        if core.0[0] == 0 {
            assert_read(&core.1[..length(case.numbers.len())], &case.numbers, accepted_vehicle(seed));
        }
        *seen.entry((core.0[0], case.numbers.len() % 2)).or_insert(0) += 1;
    }
    println!("lists by refusal number, and whether there is a number too many: {seen:?}");
    if seen.values().sum::<u64>() >= 100_000 {
        let enough = [((0, 0), 30_000), ((2, 0), 3000), ((2, 1), 3000), ((4, 0), 10_000), ((8, 0), 3000)];
        assert!(enough.iter().all(|(kind, least)| seen.get(kind).is_some_and(|count| count >= least)), "a kind is hardly met: {seen:?}");
    }
}
