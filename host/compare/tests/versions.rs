//! The versions of a trace (02, M-109): what has changed since there was one, the stored cases that came with the request, and random ones.

use std::collections::BTreeMap;

use compare::gear::{by_core, by_plain, by_tenths, case, first_gear_case, read, Answer, Case};
use compare::trace::{as_version_1, first_marked, in_version, unmarked, version};
use compare::{cases, pairs, stored};
use ylhovesko::gear::Vehicle;

const M_100: &str = include_str!("../../vectors/M-100-gear.txt");
const M_101: &str = include_str!("../../vectors/M-101-gear.txt");
const DIRECTED: &str = include_str!("../../vectors/directed_gear_before_M-109.txt");
const M_109: &str = include_str!("../../vectors/M-109-gear.txt");
const M_109_PAIR: &str = include_str!("../../vectors/M-109-pair.txt");

/// What both say of a case.
fn both(case: &Case) -> Answer {
    let core = by_core(case);
    assert!([by_plain(case), by_tenths(case)].iter().all(|plain| *plain == core), "{case}");
    core
}

/// What the request makes of a case from before it.
#[derive(Clone, Copy, PartialEq, Eq, PartialOrd, Ord, Debug)]
enum Since {
    Answered,
    /// It has version 2, and was refused with 1.
    Read,
    /// It has a mark in version 1 under rule set 2, and was taken, or refused with 8 or 9.
    Refused,
}

fn since(case: &Case, before: &Answer) -> Since {
    match (version(&case.trace), case.vehicle.rule_set, before.0[0]) {
        (Some(2), ..) => Since::Read,
        (Some(1), 2, 0 | 8 | 9) if first_marked(&case.trace).is_some() => Since::Refused,
        _ => Since::Answered,
    }
}

/// A case that is refused with 20 now. With its marks, under set 1, and without them, under set 2, it is refused as it was or taken.
fn assert_refused(case: &Case, before: &Answer) {
    assert_eq!(both(case), ([20, first_marked(&case.trace).unwrap(), 0, 0], case.buffer.clone()), "{case}");
    let by_set_1 = Case { vehicle: Vehicle { rule_set: 1, ..case.vehicle }, ..case.clone() };
    let without_marks = Case { trace: unmarked(case.trace.clone()), ..case.clone() };
    assert!([by_set_1, without_marks].iter().all(|other| both(other).0 == before.0), "{case}");
}

/// How many stored cases from before are answered as they were, how many are read by version 2 now, and how many are refused with 20. A case with version 2 is
/// answered as one of version 1 is whose marks are faults.
fn changes(text: &str) -> [usize; 3] {
    let mut seen = Vec::new();
    for (line, text) in stored(text) {
        let (case, before) = read(line, text);
        let since = since(&case, &before);
        match since {
            Since::Answered => assert_eq!(both(&case), before, "line {line}"),
            Since::Read => {
                assert_eq!(before, ([1, 0, 0, 0], case.buffer.clone()), "line {line}");
                assert_eq!(both(&case), both(&Case { trace: as_version_1(case.trace.clone()), ..case }), "line {line}");
            }
            Since::Refused => assert_refused(&case, &before),
        }
        seen.push(since);
    }
    [Since::Answered, Since::Read, Since::Refused].map(|kind| seen.iter().filter(|since| **since == kind).count())
}

/// The cases that came with the requests before, and the directed ones as they were stored. Those of gear.txt have version 1 and rule set 1, and tests/gear.rs
/// holds both to what they were.
#[test]
fn stored_cases_from_before() {
    assert_eq!(changes(M_100), [298, 2, 0]);
    assert_eq!(changes(M_101), [154, 3, 143]);
    assert_eq!(changes(DIRECTED), [747, 4, 24]);
}

#[test]
fn stored_cases() {
    for (line, text) in stored(M_109) {
        let (case, answer) = read(line, text);
        assert_eq!(both(&case), answer, "line {line}");
    }
    assert_eq!(stored(M_109).count(), 300);
}

#[test]
fn stored_pairs() {
    for (line, text) in stored(M_109_PAIR) {
        let (pair, switch, told, chosen) = pairs::read_with_switch(text);
        for (said, handed_back) in [pairs::by_core(&pair), pairs::by_plain(&pair)] {
            assert_eq!((said, handed_back[switch]), (told, chosen), "line {line}");
        }
    }
    assert_eq!(stored(M_109_PAIR).count(), 300);
}

/// The other files that have to be answered as this one: of version 2 the one of version 1 whose marks are faults, and of an unmarked one of version 1 the one
/// of version 2.
fn alike(case: &Case) -> Option<Case> {
    let trace = match version(&case.trace) {
        Some(1) if first_marked(&case.trace).is_none() => in_version(2, case.trace.clone()),
        Some(2) => as_version_1(case.trace.clone()),
        _ => return None,
    };
    Some(Case { trace, ..case.clone() })
}

/// The version and the rule set of a case, and whether it has a mark.
fn kind(case: &Case) -> (Option<u16>, u32, bool) {
    (version(&case.trace), case.vehicle.rule_set, first_marked(&case.trace).is_some())
}

/// Random cases, a fifth of YLHOVESKO_CASES of each kind. That both implementations say the same of them is tested in tests/gear.rs.
#[test]
fn random_cases() {
    let mut seen = BTreeMap::new();
    let some = cases("YLHOVESKO_CASES", 100_000) / 5;
    for case in (0..some).flat_map(|seed| [case(seed), first_gear_case(seed)]) {
        let (answer, kind) = (by_core(&case), kind(&case));
        if let Some(other) = alike(&case) {
            assert_eq!(by_core(&other), answer, "{case}");
        }
        assert!(answer.0[0] != 20 || kind == (Some(1), 2, true), "{case}");
        if let (Some(1 | 2), 1 | 2, _) = kind {
            *seen.entry((kind, answer.0[0])).or_insert(0) += 1;
        }
    }
    println!("cases by version, rule set, whether there is a mark, and refusal number: {seen:?}");
    if some >= 20_000 {
        let taken = [1, 2].into_iter().flat_map(|version| [1, 2].map(|rule_set| ((Some(version), rule_set, false), 0)));
        let marked = [((Some(1), 1, true), 0), ((Some(1), 2, true), 20), ((Some(2), 1, true), 4), ((Some(2), 2, true), 4)];
        let mut enough = taken.chain(marked);
        assert!(enough.all(|kind| seen.get(&kind).is_some_and(|&count| count >= 500)), "a kind is hardly met: {seen:?}");
    }
}
