//! A reading as two ends (02, M-104): what that changes in an answer, and how far apart it leaves the weighted results.

use std::collections::BTreeMap;

use compare::bags::{by_core, by_plain, case, plain_message, plain_sheet, read, Answer, ENDS, WEIGHTED};
use compare::{cases, directed, stored, BEFORE_M_108};
use plain::bags::{test, units, Part, PartResult, GASES};
use ylhovesko::bags::{Bag, Reading, Sheet};

const BAGS: &str = include_str!("../../vectors/bags.txt");
const BY_01: &str = include_str!("../../vectors/bags_by_01.txt");

/// The unit that a usable reading had before, "nearest, halves up", as a reading in ppm, which has every whole number of units. The product loses nothing.
fn nearest(reading: Reading) -> Reading {
    if units(plain_message(reading)).is_none() {
        return reading;
    }
    let each = [256.0, 2_560_000.0][reading.kind as usize];
    let units = (f64::from(f32::from_bits(reading.bits)) * each + 0.5).floor();
    Reading::ppm((units / 256.0) as f32)
}

/// The sheet with its readings as they were rounded before. A whole number of units is both ends, so its answer is what the sheet had before.
fn in_whole_units(mut sheet: Sheet) -> Sheet {
    for part in &mut sheet.parts {
        part.bag = Bag::of(part.bag.each().map(nearest));
        part.air = Bag::of(part.air.each().map(nearest));
    }
    sheet
}

/// The pairs of ends of a result, and its verdicts; those of the fifth gas where the test has it.
fn ends_and_verdicts(figures: &[Option<i128>]) -> (Vec<[i128; 2]>, Vec<i128>) {
    let (weighted, rest) = figures.split_at(WEIGHTED * GASES);
    let pairs = weighted.chunks(WEIGHTED).chain(rest.chunks(ENDS));
    let ends = pairs.filter_map(|pair| Some([pair[0]?, pair[1]?]));
    (ends.collect(), weighted.chunks(WEIGHTED).filter_map(|gas| gas[ENDS]).collect())
}

/// How the answer of now stands to the one of before. Nothing but this may have changed: every pair of ends holds the one of before, and a verdict can only have
/// become undecided; or 13 is given where it was not, or for an earlier part.
fn change(before: &Answer, now: &Answer) -> &'static str {
    let ([number, part, ..], told) = (before.0, now.0);
    if before.0 != told {
        assert!(told[0] == 13 && (matches!(number, 0 | 14 | 19) || (number == 13 && told[1] < part)), "{before:?} {now:?}");
        return if number == 0 { "13, and taken before" } else { "13 in place of another refusal" };
    }
    if before == now {
        return if number == 0 { "the same result" } else { "the same refusal" };
    }
    let ((old, old_verdicts), (new, verdicts)) = (ends_and_verdicts(&before.1), ends_and_verdicts(&now.1));
    assert!(old.len() == new.len() && old.iter().zip(&new).all(|(old, new)| new[0] <= old[0] && old[1] <= new[1]), "{before:?} {now:?}");
    assert!(old_verdicts.iter().zip(&verdicts).all(|(old, new)| old == new || *new == 2), "{before:?} {now:?}");
    if old_verdicts == verdicts {
        "wider ends"
    } else {
        "wider ends, a verdict undecided"
    }
}

/// vectors/bags_by_01.txt has readings to the nearest unit. A sheet that has them so from the first has that answer from both.
#[test]
fn m_104_widens_ends_and_nothing_else() {
    let mut changes = BTreeMap::new();
    for ((line, by_01), (same_line, now)) in stored(BY_01).zip(stored(BAGS)) {
        let ((sheet, by_01), (same, now)) = (read(by_01, BEFORE_M_108), read(now, BEFORE_M_108));
        assert!(line == same_line && sheet == same, "line {line}");
        *changes.entry(change(&by_01, &now)).or_insert(0) += 1;
        let whole = in_whole_units(sheet);
        assert_eq!(by_plain(&whole), (by_01.clone(), true), "plain, line {line}");
        assert_eq!(by_core(&whole), by_01, "core, line {line}");
    }
    assert_eq!(changes, BTreeMap::from([("the same refusal", 192), ("wider ends", 308)]));
}

/// Random cases, YLHOVESKO_CASES of them.
#[test]
fn random_cases_widen() {
    let mut changes = BTreeMap::new();
    let some = cases("YLHOVESKO_CASES", 100_000);
    for sheet in (0..some).map(case) {
        *changes.entry(change(&by_core(&in_whole_units(sheet)), &by_core(&sheet))).or_insert(0) += 1;
    }
    println!("{changes:?}");
    assert!(some < 100_000 || changes.len() == 6 && changes.values().all(|&count| count >= 40), "a change is hardly met: {changes:?}");
}

/// How far apart the weighted ends of HC, CO and CO2 are, and those of NOx, where demand 3 speaks of the test: 1,000 m or more and at most 200 cubic metres in every
/// part; for NOx also 256 ppm or less either way.
fn widths(sheet: &Sheet) -> [Option<i128>; 2] {
    let plain = plain_sheet(sheet);
    let Ok(result) = test(&plain) else { return [None; 2] };
    let width = |gas: usize| result.weighted[gas].upper - result.weighted[gas].lower;
    let ordinary = |(part, given): (&PartResult, &Part)| given.distance >= 1000 && part.volume.upper <= 200_000_000;
    let every = result.parts.iter().zip(&plain.parts).all(ordinary);
    let close = |part: &PartResult| part.concentration[2].lower >= -(1 << 20) && part.concentration[2].upper <= 1 << 20;
    let others = [0, 1, 3].map(width).into_iter().max();
    [others.filter(|_| every), Some(width(2)).filter(|_| every && result.parts.iter().all(close))]
}

/// "300 becomes 10,000 and 2,000 becomes 30,000": over the directed tests, of which one is as wide as any that was found, and YLHOVESKO_CASES random ones.
#[test]
fn weighted_ends_are_close() {
    let mut widest = [(0, 0); 2];
    let directed = directed::bags::cases().into_iter().map(|directed| directed.sheet);
    for sheet in directed.chain((0..cases("YLHOVESKO_CASES", 100_000)).map(case)) {
        for ((tests, widest), width) in widest.iter_mut().zip(widths(&sheet)) {
            *tests += u32::from(width.is_some());
            *widest = width.unwrap_or(0).max(*widest);
        }
    }
    println!("ordinary tests and the widest of them, HC, CO and CO2, then NOx: {widest:?}");
    let [(_, others), (_, nox)] = widest;
    assert!((8854..=10_000).contains(&others) && (25_530..=30_000).contains(&nox), "{widest:?}");
}
