//! The gear sheet: the proved core and the second implementation on the stored cases, and on random ones.

use std::collections::BTreeMap;

use compare::gear::{by_core, by_plain, by_tenths, case, case_of_before, first_gear_case, pair, plain_vehicle, read, Answer, Case};
use compare::trace::{first_marked, version};
use compare::{cases, pairs, stored};
use plain::gear::{exponential, speeds, three_per_cent};
use ylhovesko::gear::Vehicle;

const GEAR: &str = include_str!("../../vectors/gear.txt");
const BY_01: &str = include_str!("../../vectors/gear_by_01.txt");

/// Every line: the number, the place and every byte of the buffer. The cases that came with requests are in tests/versions.rs.
#[test]
fn stored_cases() {
    for (line, text) in stored(GEAR) {
        let (case, answer) = read(line, text);
        assert_eq!(by_plain(&case), answer, "plain, line {line}");
        assert_eq!(by_tenths(&case), answer, "plain by tenths, line {line}");
        assert_eq!(by_core(&case), answer, "core, line {line}");
    }
    assert_eq!(stored(GEAR).count(), 500);
}

/// How many clutch bytes of the row went from in to out. No other byte may have changed.
fn taken_out(case: &Case, by_01: &Answer, now: &Answer) -> usize {
    let row = if by_01.0[0] == 0 { (case.trace.len() - 8) / 2 } else { 0 };
    let is_clutch = |at: usize| (case.start..case.start + row).contains(&at) && (at - case.start) % 2 == 1;
    assert_eq!((by_01.0, by_01.1.len()), (now.0, now.1.len()), "{case}");
    let changed: Vec<usize> = (0..now.1.len()).filter(|&at| by_01.1[at] != now.1[at]).collect();
    assert!(changed.iter().all(|&at| is_clutch(at) && (by_01.1[at], now.1[at]) == (0, 1)), "{case}");
    changed.len()
}

/// vectors/gear_by_01.txt has the clutch by 01's rule alone. The same cases have the same refusals, places and gears now, and a clutch that was out is out.
#[test]
fn m_100_takes_clutches_out_and_nothing_else() {
    let mut out = Vec::new();
    for ((line, by_01), (same_line, now)) in stored(BY_01).zip(stored(GEAR)) {
        let ((case, by_01), (same, now)) = (read(line, by_01), read(line, now));
        assert!(line == same_line && case == same, "line {line}");
        out.push(taken_out(&case, &by_01, &now));
    }
    // the cases, those with a clutch that went out, and how many did
    assert_eq!((out.len(), out.iter().filter(|&&bytes| bytes > 0).count(), out.iter().sum()), (500, 37, 203));
}

/// How far above n + 0.03 (s - n) the engine is in each second outside stop from 10.0 km/h on, in 0.001 per minute; 2 stands for more, and -2 for less.
fn above_three_per_cent(case: &Case, (told, written): &Answer) -> Vec<i32> {
    if told[0] != 0 {
        return Vec::new();
    }
    let line = three_per_cent(&plain_vehicle(&case.vehicle)) as i32;
    let seconds = case.trace[8..].chunks(4).zip(written[case.start..].chunks(2));
    let moving = seconds.filter(|(second, _)| second[2] & 3 != 0);
    let speeds = moving.map(|(second, row)| (speed(second), usize::from(row[0])));
    let engine = speeds.filter(|&(speed, _)| speed >= 100).map(|(speed, gear)| speed * case.vehicle.ndv[gear - 1] as i32);
    engine.map(|engine| (engine - line).clamp(-2, 2)).collect()
}

fn speed(second: &[u8]) -> i32 {
    i32::from(u16::from_le_bytes([second[0], second[1]]))
}

/// Where the speed of a second stands to the downshift 2 to 1.
fn to_2_to_1(v: &Vehicle, second: &[u8]) -> &'static str {
    let tenth = v.ndv[1] as i32;
    let away = speed(second) * tenth - three_per_cent(&plain_vehicle(v)) as i32;
    match away {
        0 => "at",
        1.. if away <= tenth => "up to a tenth above",
        1.. => "above",
        _ if away >= -tenth => "up to a tenth below",
        _ => "below",
    }
}

/// Whether the speed of a second is above 3 to 2, and not too close to it.
fn above_3_to_2(v: &Vehicle, second: &[u8]) -> bool {
    let shift = speeds(&plain_vehicle(v));
    (10 * i128::from(speed(second)) * shift.ndv[0]) << 32 > shift.upper[0]
}

/// The seconds that 2 to 1 is for, cruise and deceleration under rule set 2, of an accepted case; of a case that is refused for such a second, that one.
fn held_against_2_to_1<'a>(case: &'a Case, (told, _): &Answer) -> Vec<&'a [u8]> {
    let (first, count) = match told[0] {
        0 => (0, usize::MAX),
        9 => (told[1] as usize - 1, 1),
        _ => return Vec::new(),
    };
    let seconds = case.trace[8..].chunks(4).skip(first).take(count);
    seconds.filter(|second| case.vehicle.rule_set == 2 && second[2] & 3 >= 2).collect()
}

/// What both say of a random case, the second implementation by the ends and by tenths. A difference is shown as a line of vectors/M-101-gear.txt, with the
/// case's seed.
fn same_answer(seed: u64, case: &Case) -> Answer {
    let core = by_core(case);
    for (way, plain) in [("plain", by_plain(case)), ("plain by tenths", by_tenths(case))] {
        assert!(core == plain, "seed {seed}: {case}\ncore {core:?}\n{way} {plain:?}");
    }
    core
}

/// Random cases, YLHOVESKO_CASES of them.
#[test]
fn random_cases() {
    let (mut seen, mut above, mut beside) = (BTreeMap::new(), BTreeMap::new(), BTreeMap::new());
    for seed in 0..cases("YLHOVESKO_CASES", 100_000) {
        let case = case(seed);
        let answer = same_answer(seed, &case);
        *seen.entry(answer.0[0]).or_insert(0) += 1;
        above_three_per_cent(&case, &answer).into_iter().for_each(|step| *above.entry(step).or_insert(0) += 1);
        let held = held_against_2_to_1(&case, &answer).into_iter().filter(|_| answer.0[0] == 0);
        held.for_each(|second| *beside.entry(to_2_to_1(&case.vehicle, second)).or_insert(0) += 1);
    }
    println!("cases by refusal number: {seen:?}; seconds above n + 0.03 (s - n), in 0.001 per minute: {above:?}; to 2 to 1: {beside:?}");
    if seen.values().sum::<u64>() >= 100_000 {
        assert!(seen[&0] >= 40_000, "too few are accepted: {seen:?}");
        assert!(
            (1..=9).chain([20]).all(|number| seen.get(&number).is_some_and(|&count| count >= 100)),
            "a refusal is hardly met: {seen:?}"
        );
        let enough = [(-2, 100_000), (-1, 200), (0, 1000), (1, 200), (2, 100_000)];
        assert!(enough.iter().all(|(step, least)| above.get(step).is_some_and(|count| count >= least)), "a side is hardly met: {above:?}");
        let enough = [("up to a tenth below", 7500), ("at", 500), ("up to a tenth above", 7500)];
        assert!(
            enough.iter().all(|(side, least)| beside.get(side).is_some_and(|count| count >= least)),
            "a side is hardly met: {beside:?}"
        );
    }
}

/// Random cases on machines on which 2 to 1 lies above 3 to 2, a fifth of YLHOVESKO_CASES. Some seconds are above the latter and have gear 1 all the same; some
/// are too close to it, and refuse their trace although they are below 2 to 1.
#[test]
fn random_cases_of_first_gear() {
    let mut seen = BTreeMap::new();
    let some = cases("YLHOVESKO_CASES", 100_000) / 5;
    for seed in 0..some {
        let case = first_gear_case(seed);
        let answer = same_answer(seed, &case);
        for second in held_against_2_to_1(&case, &answer) {
            let place = (to_2_to_1(&case.vehicle, second), above_3_to_2(&case.vehicle, second), answer.0[0]);
            *seen.entry(place).or_insert(0) += 1;
        }
    }
    println!("seconds by their place to 2 to 1, whether they are above 3 to 2, and refusal number: {seen:?}");
    if some >= 20_000 {
        let below = ["up to a tenth below", "below"].into_iter();
        let mut enough = below.flat_map(|side| [((side, true, 0), 1000), ((side, false, 9), 20)]);
        assert!(enough.all(|(place, least)| seen.get(&place).is_some_and(|&count| count >= least)), "a place is hardly met: {seen:?}");
    }
}

/// FNV-1a, of 64 bits, over the four numbers and then the buffer of each answer.
fn digest(answers: impl Iterator<Item = Answer>) -> u64 {
    let bytes = answers.flat_map(|(told, written)| told.into_iter().flat_map(u32::to_le_bytes).chain(written));
    bytes.fold(0xcbf2_9ce4_8422_2325, |digest, byte| (digest ^ u64::from(byte)).wrapping_mul(0x0100_0000_01b3))
}

/// The digest of the answers to the first 20,000 random cases before there were rule sets: worked out once, by the core of commit fb6e039. The second
/// implementation of that commit has the same.
const BEFORE_M_101: u64 = 0x98bb_d1f6_045e_b082;

/// Rule set 1 with version 1 is the rule as it stood: the same cases have the same refusals, gears and clutches. Those whose head was damaged to say version 2
/// were refused with 1, and are so counted here.
#[test]
fn set_1_answers_as_before() {
    let has_version_2 = |case: &Case| version(&case.trace) == Some(2);
    for answer in [by_core, by_plain, by_tenths] {
        let before = |case: Case| if has_version_2(&case) { ([1, 0, 0, 0], case.buffer) } else { answer(&case) };
        assert_eq!(digest((0..20_000).map(case_of_before).map(before)), BEFORE_M_101);
    }
    assert_eq!((0..20_000).map(case_of_before).filter(has_version_2).count(), 45);
}

/// What is refused, and where, is the same under both sets, but for a mark in version 1, which set 2 refuses where set 1 has none of 1 to 7; rows differ.
#[test]
fn both_sets_refuse_alike() {
    let (mut differ, mut marked) = (0, 0);
    let some = cases("YLHOVESKO_CASES", 20_000).min(20_000);
    for case in (0..some).map(case) {
        let [by_1, by_2] = [1, 2].map(|rule_set| by_core(&Case { vehicle: Vehicle { rule_set, ..case.vehicle }, ..case.clone() }));
        let mark = first_marked(&case.trace).filter(|_| version(&case.trace) == Some(1) && [0, 8, 9].contains(&by_1.0[0]));
        assert_eq!(by_2.0, mark.map_or(by_1.0, |second| [20, second, 0, 0]), "{case}");
        differ += u64::from(mark.is_none() && by_1.1 != by_2.1);
        marked += u64::from(mark.is_some());
    }
    println!("of {some} cases {differ} have another row under the other set, and {marked} are refused with 20 under set 2");
    assert!(some < 20_000 || differ >= 2000 && marked >= 2000, "rows hardly differ, or hardly one is marked: {differ}, {marked}");
}

/// Random pairs: the refusal, and that the chosen trace is the lent one itself.
#[test]
fn random_pairs() {
    for seed in 0..cases("YLHOVESKO_PAIR_CASES", 10_000) {
        let pair = pair(seed);
        assert_eq!(pairs::by_core(&pair), pairs::by_plain(&pair), "seed {seed}");
    }
}

/// Over all accepted pairs of P and m. An engine speed is 10 x 2^32 times a whole number, so it is at a side only where 5,753 e (s - n) is a multiple
/// of 10 x 2^32, and e (s - n) with it. No upper side can be reached exactly, and a lower one with four pairs alone.
#[test]
fn sides_that_an_engine_speed_can_reach() {
    let unit = 10_i128 << 32;
    // the least s - n that makes the multiple; s - n is 500 to 19,700
    let least = |e: i128| unit / ((1 << e.trailing_zeros().min(33)) * if e % 5 == 0 { 5 } else { 1 });
    let (mut pairs, mut lower, mut upper) = (0, Vec::new(), Vec::new());
    for m in 30..=1000 {
        for p in (1..=3000).take_while(|p| 19 * p <= 150 * (m + 75)) {
            let ends = exponential(p, m);
            pairs += 1;
            [(ends.0, &mut lower), (ends.1, &mut upper)]
                .into_iter()
                .filter(|(e, _)| least(*e) <= 19_700)
                .for_each(|(_, list)| list.push((p, m)));
        }
    }
    assert_eq!((pairs, lower, upper), (2_613_264, vec![(1612, 428), (2843, 453), (2514, 860), (2547, 997)], vec![]));
}
