//! The emission sheet: the proved core and the second implementation on the stored cases, and on random ones.

use std::collections::BTreeMap;

use compare::bags::{answer_text, by_core, by_plain, case, place, read, sheet_text, Line};
use compare::{cases, directed, stored, Told, BEFORE_M_108};
use plain::bags::GASES;
use plain::preset::{DIESEL, PETROL};
use ylhovesko::bags::{diesel, petrol, Sheet};

/// Every line of a file of stored cases that knows so many gases: the number, the place and every figure, each as it is written there.
fn both_answer(text: &str, gases: usize, lines: usize) {
    for (line, text) in stored(text) {
        let (sheet, answer) = read(text, gases);
        assert_eq!(format!("{} {}", sheet_text(&sheet, gases), answer_text(&answer, gases)), text, "line {line} is written otherwise");
        assert_eq!(by_plain(&sheet), (answer.clone(), true), "plain, line {line}");
        assert_eq!(by_core(&sheet), answer, "core, line {line}");
    }
    assert_eq!(stored(text).count(), lines);
}

/// From before there was a fifth gas: the cutter is not fitted, and the other gases have the answers of before.
#[test]
fn stored_cases() {
    both_answer(include_str!("../../vectors/bags.txt"), BEFORE_M_108, 500);
}

/// The cases that came with the request, from before there was a fifth gas too.
#[test]
fn stored_cases_of_m_104() {
    both_answer(include_str!("../../vectors/M-104-bags.txt"), BEFORE_M_108, 300);
}

/// The directed cases from before there was a fifth gas, as they were stored then.
#[test]
fn directed_cases_of_before() {
    both_answer(include_str!("../../vectors/directed_bags_before_M-108.txt"), BEFORE_M_108, 681);
}

/// The cases that came with the request.
#[test]
fn stored_cases_of_m_108() {
    both_answer(include_str!("../../vectors/M-108-bags.txt"), GASES, 300);
}

/// The presets, with any density of the test fuel.
#[test]
fn presets() {
    for density in [0, 750, u32::MAX] {
        let told = [petrol(density), diesel(density)];
        for (core, plain) in told.into_iter().zip([PETROL, DIESEL]) {
            assert_eq!((core.density.each(), core.fuel.density), (plain.density, density));
            assert_eq!([core.triple.d, core.triple.wc, core.triple.wh], plain.triple);
            assert_eq!((core.fuel.k, [core.fuel.hc, core.fuel.co, core.fuel.co2]), (plain.k, plain.f));
        }
    }
}

/// What a random case is counted as: a refusal by its number, 11 and 12 of the fifth gas also by their place; a result by its gases.
fn kind([number, part, within, _]: Told, figures: &[Option<i128>]) -> &'static str {
    match (number, part, within) {
        (0, ..) if figures[place::weighted(5)].is_none() => "without the fifth gas",
        (0, ..) => "with the fifth gas",
        (10, ..) => "10",
        (11, 0, 13) => "11 of field 13",
        (11, ..) => "11",
        (12, _, 5) => "12 of gas 5",
        (12, ..) => "12",
        (13, ..) => "13",
        (14, ..) => "14",
        (19, ..) => "19",
        other => panic!("no refusal of a bag sheet: {other:?}"),
    }
}

/// Random cases, YLHOVESKO_CASES of them. A difference is shown as a line of vectors/M-108-bags.txt, with the case's seed. The core's ends are the second
/// implementation's, and the exact figure lies between those.
#[test]
fn random_cases() {
    let mut seen = BTreeMap::new();
    let mut verdicts = [[0; 3]; GASES];
    for seed in 0..cases("YLHOVESKO_CASES", 100_000) {
        let sheet = case(seed);
        let core = by_core(&sheet);
        let (plain, holds) = by_plain(&sheet);
        assert!(core == plain, "seed {seed}: {}\ncore  {core:?}\nplain {plain:?}", Line(&sheet));
        assert!(holds, "seed {seed}: {}\nan exact figure is not between its ends: {plain:?}", Line(&sheet));
        *seen.entry(kind(core.0, &core.1)).or_insert(0) += 1;
        for (gas, counts) in (1..).zip(&mut verdicts).filter(|_| core.0[0] == 0) {
            core.1[place::verdict(gas)].into_iter().for_each(|verdict| counts[verdict as usize] += 1);
        }
    }
    println!("cases by their answers: {seen:?}; verdicts: {verdicts:?}");
    if seen.values().sum::<u64>() >= 100_000 {
        assert!(seen["with the fifth gas"] >= 30_000 && seen["without the fifth gas"] >= 5000, "too few are accepted: {seen:?}");
        assert!(seen.len() == 10 && seen.values().all(|&count| count >= 100), "a refusal is hardly met: {seen:?}");
        assert!(verdicts.as_flattened().iter().all(|&count| count >= 1000), "a verdict is hardly met: {verdicts:?}");
    }
}

/// The sheet as it was before there was a fifth gas: no cutter, and nothing of its fields that is out of range.
fn as_before(sheet: &Sheet) -> Sheet {
    read(&format!("{} refused 0 0 0 0", sheet_text(sheet, BEFORE_M_108)), BEFORE_M_108).0
}

/// What a sheet has of the fifth gas is nothing to the others, to G or to the fuel: without a cutter it has their figures, and is refused by what they have. The
/// directed cases, and YLHOVESKO_CASES random ones.
#[test]
fn others_as_before() {
    let directed = directed::bags::cases().into_iter().map(|directed| directed.sheet);
    for sheet in directed.chain((0..cases("YLHOVESKO_CASES", 100_000)).map(case)) {
        let (now, before) = (by_core(&sheet), by_core(&as_before(&sheet)));
        match now.0 {
            [0, ..] => assert_eq!(answer_text(&now, BEFORE_M_108), answer_text(&before, BEFORE_M_108), "{}", Line(&sheet)),
            [19, ..] => assert_eq!(before.0, [0; 4], "{}", Line(&sheet)),
            told => assert!(told == before.0 || before.0[0] == 0 || told < before.0, "{}\nnow    {now:?}\nbefore {before:?}", Line(&sheet)),
        }
        let of_fifth = matches!(now.0, [11, 0, 12 | 13, 0] | [11, 1..=3, 9, 0] | [12, 1..=3, 5, _] | [0 | 19, ..]);
        assert!(of_fifth || now == before, "{}\nnow    {now:?}\nbefore {before:?}", Line(&sheet));
    }
}
