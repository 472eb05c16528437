//! The lot sheet: the proved core and the second implementation on the stored cases and on random ones; what 02 says of every list; and lots of accepted tests,
//! whose exact mean lies between the ends.

use std::collections::BTreeMap;

use compare::bags::{plain_sheet, reading_of};
use compare::lot::{all_add_up, by_core, by_plain, case, read, Answer, Case, OfGas, OF_NONE};
use compare::random::Random;
use compare::{bags, cases, directed, readings, stored, BEFORE_M_108};
use plain::bags::GASES;
use plain::exact::exact;
use plain::fraction::Fraction;
use ylhovesko::bags::{result, Ends, Gases, Reading, Sheet};
use ylhovesko::lot::Record;

/// Every line of a file that knows so many gases: the number, the index and every figure.
fn both_answer(text: &str, gases: usize, lines: usize) {
    for (line, text) in stored(text) {
        let (case, answer) = read(text, gases);
        assert!(text.starts_with(&format!("{} ", case.text(gases))), "line {line} is written otherwise: {case}");
        assert_eq!(by_plain(&case), answer, "plain, line {line}");
        assert_eq!(by_core(&case), answer, "core, line {line}");
        assert!(answer.0[0] != 0 || all_add_up(&case, &answer.1), "line {line}");
    }
    assert_eq!(stored(text).count(), lines);
}

/// The cases that came with the request, from before there was a fifth gas: their records do not have it, and the others have the answers of before.
#[test]
fn stored_cases_of_m_105() {
    both_answer(include_str!("../../vectors/M-105-lots.txt"), BEFORE_M_108, 300);
}

/// The directed cases from before there was a fifth gas, as they were stored then.
#[test]
fn directed_cases_of_before() {
    both_answer(include_str!("../../vectors/directed_lot_before_M-108.txt"), BEFORE_M_108, 315);
}

/// The cases that came with the request.
#[test]
fn stored_cases_of_m_108() {
    both_answer(include_str!("../../vectors/M-108-lots.txt"), GASES, 300);
}

/// What both say of a case, which is shown as a line of vectors/directed_lot.txt where they differ, or where a gas is not what 02 says of every list.
fn same_answer(case: &Case) -> Answer {
    let (core, plain) = (by_core(case), by_plain(case));
    assert!(core == plain, "{case}\ncore  {core:?}\nplain {plain:?}");
    assert!(core.0[0] != 0 || all_add_up(case, &core.1), "{case}\na gas does not add up: {core:?}");
    core
}

/// Of how many records of a list that is not empty the fifth gas is counted.
fn having_it(records: usize, gases: &[OfGas]) -> &'static str {
    match gases[GASES - 1].counts.iter().sum::<usize>() {
        0 => "none has the fifth gas",
        having if having < records => "some have the fifth gas",
        _ => "all have the fifth gas",
    }
}

/// Random cases, YLHOVESKO_CASES of them.
#[test]
fn random_cases() {
    let (mut seen, mut having) = (BTreeMap::new(), BTreeMap::new());
    for case in (0..cases("YLHOVESKO_CASES", 100_000)).map(case) {
        let (told, gases) = same_answer(&case);
        *seen.entry(told[0]).or_insert(0) += 1;
        if told[0] == 0 && !case.records.is_empty() {
            *having.entry(having_it(case.records.len(), &gases)).or_insert(0) += 1;
        }
    }
    println!("cases by refusal number: {seen:?}; lists that are accepted: {having:?}");
    if seen.values().sum::<u64>() >= 100_000 {
        assert!([0, 18, 21].iter().all(|number| seen[number] >= 10_000), "an answer is hardly met: {seen:?}");
        assert!(having.len() == 3 && having.values().all(|&lists| lists >= 5000), "a kind of list is hardly met: {having:?}");
    }
}

/// "For it the lot sheet, refusal 21 too, reads only records that have it": a list is answered as the list of those that have it alone, but for the index, which
/// counts all. Random cases, a fifth of YLHOVESKO_CASES.
#[test]
fn as_of_those_that_have_it() {
    for case in (0..cases("YLHOVESKO_CASES", 100_000) / 5).map(case).filter(|case| by_core(case).0[0] == 0) {
        let having: Vec<usize> = (0..case.records.len()).filter(|&index| case.records[index].has_nmhc != 0).collect();
        let alone = Case { records: having.iter().map(|&index| case.records[index]).collect() };
        let [all, of_those] = [&case, &alone].map(|case| by_core(case).1[GASES - 1]);
        assert_eq!(all, OfGas { worst: of_those.worst.map(|worst| having[worst]), ..of_those }, "{case}");
        assert!(!having.is_empty() || all == OF_NONE, "{case}");
    }
}

/// What a record has of the fifth gas is nothing to the others: without it a list is answered as it was before there was one. Random cases, a fifth of
/// YLHOVESKO_CASES.
#[test]
fn others_as_before() {
    for case in (0..cases("YLHOVESKO_CASES", 100_000) / 5).map(case) {
        let without = |record: &Record| Record { has_nmhc: 0, ..*record };
        let before = Case { records: case.records.iter().map(without).collect() };
        let ((told, gases), (told_before, gases_before)) = (by_core(&case), by_core(&before));
        assert!(gases_before.last().is_none_or(|fifth| *fifth == OF_NONE), "{case}");
        if told[0] == 0 {
            assert_eq!((told_before, &gases_before[..BEFORE_M_108]), (told, &gases[..BEFORE_M_108]), "{case}");
        } else {
            assert!(told == told_before || told[0] == 21 && (told_before[0] == 0 || told_before[1] > told[1]), "{case}");
        }
    }
}

/// The records in another order.
fn shuffled(random: &mut Random, case: &Case) -> Case {
    let mut records = case.records.clone();
    for last in (1..records.len()).rev() {
        records.swap(last, random.from(0, last as u32) as usize);
    }
    Case { records }
}

/// The order of a list changes neither counts nor sums nor mean, nor the greatest upper end, nor the number that it is refused by. Random cases, a fifth of
/// YLHOVESKO_CASES.
#[test]
fn in_any_order() {
    for seed in 0..cases("YLHOVESKO_CASES", 100_000) / 5 {
        let case = case(seed);
        let other = shuffled(&mut Random::new(seed), &case);
        let ((told, gases), (told_of_other, of_other)) = (by_core(&case), by_core(&other));
        assert_eq!((told[0], gases.len()), (told_of_other[0], of_other.len()), "seed {seed}: {case}");
        for (gas, (one, two)) in gases.iter().zip(&of_other).enumerate() {
            assert_eq!((one.counts, one.sum, one.mean), (two.counts, two.sum, two.mean), "seed {seed}: {case}");
            let greatest = |case: &Case, worst: Option<usize>| worst.map(|index| case.records[index].weighted.each()[gas].upper);
            assert_eq!(greatest(&case, one.worst), greatest(&other, two.worst), "seed {seed}: {case}");
        }
    }
}

/// Lists that would be short enough by the low 8 or 16 bits of their lengths, with nothing at fault and with everything.
#[test]
fn far_too_many() {
    for count in [512, 65_535, 65_536, 65_537, 65_792] {
        for (lower, upper) in [(1, 2), (2, 1)] {
            for has_nmhc in [0, 1] {
                let record = Record { weighted: Gases::of([Ends { lower, upper }; GASES]), verdicts: Gases::of([1; GASES]), has_nmhc };
                assert_eq!(same_answer(&Case { records: vec![record; count] }), ([18, 0, 0, 0], Vec::new()), "{count} records");
            }
        }
    }
}

/// A test that the core accepts: what a lot reads of it, and its exact weighted figures, of as many gases as it has.
struct Accepted {
    record: Record,
    weighted: Vec<Fraction>,
}

fn accepted(sheet: Sheet) -> Option<Accepted> {
    let result = result(sheet).ok()?;
    Some(Accepted { record: Record::of(&result), weighted: exact(&plain_sheet(&sheet)).weighted })
}

/// In so many parts of a microgram/km exact figures are added up, each rounded down and up: a sum of fractions with nothing in common would soon fit no number.
const PARTS: i128 = 1 << 40;

/// The ends of a sum of exact figures in parts, each from the ends that its record has.
fn exact_sum<'a>(each: impl Iterator<Item = (&'a Fraction, Ends)>) -> [i128; 2] {
    each.fold([0; 2], |[lower, upper], (exact, ends)| {
        let [least, most] = [ends.lower, ends.upper].map(|end| PARTS * i128::from(end));
        let parts = exact.times(Fraction::new(PARTS, 1)).rounded(least, most);
        [lower + parts.lower, upper + parts.upper]
    })
}

/// "The exact mean lies between the ends", of each gas over the tests that have it; and where each figure is known to the end, between no nearer two.
fn holds_exact_mean(tests: &[Accepted]) {
    let case = Case { records: tests.iter().map(|test| test.record).collect() };
    let (told, gases) = same_answer(&case);
    assert_eq!(told, [0; 4], "{case}");
    for (place, OfGas { sum, mean, .. }) in gases.iter().enumerate() {
        let having = || tests.iter().filter_map(|test| Some((test.weighted.get(place)?, test.record.weighted.each()[place])));
        let Some([least, most]) = *mean else {
            assert_eq!(having().count(), 0, "{case}\ngas {place} has no mean");
            continue;
        };
        let parts = PARTS * having().count() as i128;
        let [lower, upper] = exact_sum(having());
        assert!(least * parts <= lower && upper <= most * parts, "{case}\ngas {place}: {least} to {most}, exact {lower} to {upper}");
        let known = sum[0] == sum[1];
        assert!(!known || Fraction::new(lower, parts).rounds_to(least, most), "{case}\ngas {place}: {least} to {most}, exact {lower}");
    }
}

/// Lots of as many tests as are drawn, often few and now and then as many as a lot may have, until none is left. Gives how many there were.
fn in_lots(mut tests: impl Iterator<Item = Accepted>) -> usize {
    let mut random = Random::new(105);
    let lots = std::iter::from_fn(|| {
        let most = random.one_of(&[1, 2, 3, 8, 256]);
        let lot: Vec<Accepted> = tests.by_ref().take(random.from(1, most) as usize).collect();
        (!lot.is_empty()).then_some(lot)
    });
    lots.inspect(|lot| holds_exact_mean(lot)).count()
}

/// Lots of the directed tests, and of random ones, a fifth of YLHOVESKO_CASES.
#[test]
fn lots_of_accepted_tests() {
    let directed = directed::bags::cases().into_iter().map(|directed| directed.sheet);
    let random = (0..cases("YLHOVESKO_CASES", 100_000) / 5).map(bags::case);
    println!("lots: {}", in_lots(directed.chain(random).filter_map(accepted)));
}

/// A test with nothing to round. Its weighted HC, CO and CO2 are as many micrograms/km as every bag has units, or as many below zero as the air has; the fifth
/// gas is HC less what is behind the cutter, which now and then is not fitted.
fn known_test(seed: u64) -> Sheet {
    let mut random = Random::new(seed);
    let (mut sheet, in_air) = (readings::sheet(), random.once_in(2));
    for gas in readings::WEIGHED {
        let not_fitted = gas == GASES as u32 && random.once_in(3);
        let reading = if not_fitted { Reading::NOT_FITTED } else { Reading::ppm(random.from(0, 9) as f32 / 256.0) };
        sheet.parts.iter_mut().for_each(|part| *reading_of(if in_air { &mut part.air } else { &mut part.bag }, gas) = reading);
    }
    sheet
}

/// Lots of tests with nothing to round: the mean's ends are the exact mean rounded down and up, above zero and below it.
#[test]
fn lots_with_nothing_to_round() {
    let tests = (0..5000).map(|seed| accepted(known_test(seed)).expect("the test is accepted"));
    let known = |test: &Accepted| assert!(test.record.weighted.each().iter().all(|ends| ends.lower == ends.upper), "{:?}", test.record);
    println!("lots: {}", in_lots(tests.inspect(known)));
}
