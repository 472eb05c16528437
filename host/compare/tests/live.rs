//! The live engine (02, M-110): the stored cases that came with the request, and every trace of the gear sheet second by second.

use std::collections::BTreeMap;

use compare::gear::{case, first_gear_case, Case};
use compare::live::{by_core, by_plain, gone_on_from, of_gear, read, Answer, Call};
use compare::random::Random;
use compare::trace::{house_file, in_version};
use compare::{cases, core_told, gear, live, stored, Told};

const M_110: &str = include_str!("../../vectors/M-110-live.txt");

/// The stored cases of the gear sheet.
const GEAR: [&str; 5] = [
    include_str!("../../vectors/gear.txt"),
    include_str!("../../vectors/M-100-gear.txt"),
    include_str!("../../vectors/M-101-gear.txt"),
    include_str!("../../vectors/M-109-gear.txt"),
    include_str!("../../vectors/directed_gear.txt"),
];

/// What both say of a case.
fn both(case: &live::Case) -> Answer {
    let (core, plain) = (by_core(case), by_plain(case));
    assert!(core == plain, "{case}\ncore  {core}\nplain {plain}");
    core
}

#[test]
fn stored_cases() {
    for (line, text) in stored(M_110) {
        let (case, answer) = read(text);
        assert_eq!(by_plain(&case), answer, "plain, line {line}");
        assert_eq!(by_core(&case), answer, "core, line {line}");
        assert_eq!(format!("{case} {answer}"), text, "line {line}");
    }
    assert_eq!(stored(M_110).count(), 300);
}

/// The row of the present engine, with the room that it needs; or its refusal.
fn row(case: &live::Case, seconds: &[[u8; 4]]) -> Result<Vec<u8>, Told> {
    let trace = in_version(case.version as u16, house_file(seconds.as_flattened()));
    let mut row = vec![0; 2 * seconds.len()];
    ylhovesko::gear::gears(&trace, case.vehicle, &mut row, 0).map(|()| row).map_err(|refusal| core_told(Err(refusal)))
}

/// The number that the present engine has for a trace of one second, or 0.
fn own_fault(case: &live::Case, second: [u8; 4]) -> u32 {
    row(case, &[second]).map_or_else(|told| told[0], |_| 0)
}

/// Which call is refused, from 0 on, and with what, by the present engine: a vehicle by itself, and each second as a trace of its own. The start is no call.
fn by_the_present_engine(case: &live::Case) -> Option<(Option<usize>, Told)> {
    if !(1..=2).contains(&case.version) {
        return Some((None, [1, 0, 0, 0]));
    }
    if let Err(refusal) = ylhovesko::gear::shift_speeds(case.vehicle) {
        return Some((None, core_told(Err(refusal))));
    }
    let faults = case.seconds.iter().take(2000).map(|second| own_fault(case, *second));
    let first = faults.enumerate().find(|(_, number)| *number != 0);
    match (first, case.seconds.len()) {
        (Some((at, number)), _) => Some((Some(at), [number, at as u32 + 1, 0, 0])),
        (None, 0) => Some((Some(0), [2, 0, 0, 0])),
        (None, 2001..) => Some((Some(2000), [2, 0, 0, 0])),
        (None, _) => None,
    }
}

/// How many seconds each call gives: one from the sixth second on, and the rest at the end; nothing from a refused call on.
fn expected_counts(count: usize, refused: Option<usize>) -> Vec<usize> {
    let mut counts: Vec<usize> = (1..=count).map(|second| usize::from(second > 5)).chain([count.min(5)]).collect();
    if let Some(refused) = refused {
        counts[refused..].fill(0);
    }
    counts
}

/// How many seconds each call has given.
fn counts(answer: &Answer) -> Vec<usize> {
    answer.calls.iter().map(|call| call.as_ref().map_or(0, |(_, given)| given.len() / 2)).collect()
}

/// Seconds that may stand behind others: of each kind a few, with the case's own that are no fault.
fn behind(case: &live::Case, random: &mut Random) -> Vec<Vec<[u8; 4]>> {
    let mut some: Vec<[u8; 4]> = vec![[0, 0, 0, 0], [100, 0, 1, 0], [200, 0, 2, 0], [144, 1, 3, 0]];
    some.extend((0..8).filter(|_| !case.seconds.is_empty()).map(|_| random.one_of(&case.seconds)));
    some.retain(|second| own_fault(case, *second) == 0);
    let mut any = |count: usize| -> Vec<[u8; 4]> { (0..count).map(|_| random.one_of(&some)).collect() };
    let same = any(1).repeat(6);
    vec![vec![], vec![[0; 4]; 7], same, any(1), any(4), any(12)]
}

/// What was given before a refused second "equals the start of the row of every accepted trace that begins with the seconds received before the refused one": of
/// some such traces, whose number is given.
fn assert_starts(case: &live::Case, before: usize, given: &[u8], seed: u64) -> usize {
    let mut seen = 0;
    for more in behind(case, &mut Random::new(seed)) {
        let mut seconds = case.seconds[..before].to_vec();
        seconds.extend(more);
        seconds.truncate(2000);
        if !seconds.is_empty() {
            let row = row(case, &seconds).unwrap_or_else(|told| panic!("{case}: {told:?}"));
            assert!(row.starts_with(given), "{case}");
            seen += 1;
        }
    }
    seen
}

/// How many seconds of a case are at fault by themselves.
fn faulty(case: &live::Case) -> usize {
    case.seconds.iter().filter(|second| own_fault(case, **second) != 0).count()
}

/// What is seen in a case of the gear sheet that goes second by second: the numbers by the live engine and by the present one, and the traces of which the start
/// was given.
type Seen = (u32, u32, usize);

/// A trace that the present engine takes: all of its row, each second at the call of the fifth after it.
fn assert_taken(case: &live::Case, answer: &Answer, row: &[u8]) {
    assert!(answer.refusal().is_none() && answer.given() == row, "{case}");
    assert_eq!(counts(answer), expected_counts(case.seconds.len(), None), "{case}");
}

/// One that it refuses, which the live engine does too: with what, at which call, and what it has given by then. The number of rows that begin with that.
fn assert_refused(case: &live::Case, answer: &Answer, by_row: Told, seed: u64) -> usize {
    let (call, told) = by_the_present_engine(case).unwrap_or_else(|| panic!("{case}"));
    assert_eq!(answer.refusal(), Some(told), "{case}");
    let Some(call) = call else {
        assert!(answer.begin == told && answer.given().is_empty(), "{case}");
        return 0;
    };
    assert_eq!(counts(answer), expected_counts(case.seconds.len(), Some(call)), "{case}");
    if faulty(case) == 1 && case.seconds.len() <= 2000 {
        assert_eq!(told, by_row, "{case}");
    }
    assert_starts(case, call, &answer.given(), seed)
}

/// All that 02 says of a trace, where its file is whole.
fn second_by_second(case: &Case, seed: u64) -> Option<Seen> {
    let case = of_gear(case)?;
    let answer = both(&case);
    let row = row(&case, &case.seconds);
    let starts = match &row {
        Ok(row) => {
            assert_taken(&case, &answer, row);
            0
        }
        Err(by_row) => assert_refused(&case, &answer, *by_row, seed),
    };
    if answer.begin == [0; 4] {
        assert_goes_on(&case, &answer, seed);
    }
    let number = |told: Option<Told>| told.map_or(0, |told| told[0]);
    Some((number(answer.refusal()), number(row.err()), starts))
}

/// An older state gives the same again, whatever the engine did since.
fn assert_goes_on(case: &live::Case, answer: &Answer, seed: u64) {
    let mut random = Random::new(seed ^ 0x110);
    let kept = random.below(case.seconds.len() as u64 + 1) as usize;
    let others: Vec<[u8; 4]> = (0..7).filter(|_| !case.seconds.is_empty()).map(|_| random.one_of(&case.seconds)).collect();
    let again: Vec<Option<Call>> = gone_on_from::<ylhovesko::live::Live>(case, kept, &others);
    // a state that was kept after a refusal answers it
    let first = answer.calls[..kept].iter().flatten().find(|(told, _)| told[0] != 0);
    match first {
        Some(refusal) => assert!(again[0].as_ref() == Some(refusal) && again[1..].iter().all(Option::is_none), "{case}"),
        None => assert_eq!(again, answer.calls[kept..], "{case}"),
    }
}

/// How many cases there are of each pair of numbers, by the live engine and by the present one, and how many traces had their start given.
#[derive(Default)]
struct Sum {
    numbers: BTreeMap<(u32, u32), u64>,
    starts: usize,
}

impl Sum {
    fn see(&mut self, seen: Option<Seen>) {
        if let Some((by_live, by_row, starts)) = seen {
            *self.numbers.entry((by_live, by_row)).or_insert(0) += 1;
            self.starts += starts;
        }
    }

    fn count(&self, kind: impl Fn(u32, u32) -> bool) -> u64 {
        self.numbers.iter().filter(|((by_live, by_row), _)| kind(*by_live, *by_row)).map(|(_, count)| count).sum()
    }
}

#[test]
fn stored_cases_of_the_gear_sheet() {
    let mut sum = Sum::default();
    for text in GEAR {
        stored(text).for_each(|(line, text)| sum.see(second_by_second(&gear::read(line, text).0, line)));
    }
    println!("cases by number, live and present: {:?}; starts of rows: {}", sum.numbers, sum.starts);
    assert!(sum.count(|by_live, _| by_live == 0) >= 1000, "{:?}", sum.numbers);
}

/// Random cases, YLHOVESKO_CASES of them, and a fifth as many with 2 to 1 above 3 to 2.
#[test]
fn random_cases() {
    let mut sum = Sum::default();
    let some = cases("YLHOVESKO_CASES", 100_000);
    (0..some).for_each(|seed| sum.see(second_by_second(&case(seed), seed)));
    (0..some / 5).for_each(|seed| sum.see(second_by_second(&first_gear_case(seed), seed)));
    println!("cases by number, live and present: {:?}; starts of rows: {}", sum.numbers, sum.starts);
    if some >= 100_000 {
        assert!(sum.count(|by_live, _| by_live == 0) >= 40_000, "too few are accepted: {:?}", sum.numbers);
        for number in [1, 4, 5, 6, 7, 20, 9] {
            assert!(sum.count(|by_live, _| by_live == number) >= 100, "{number} is hardly met: {:?}", sum.numbers);
        }
        assert!(sum.count(|by_live, by_row| by_live != by_row) >= 100, "hardly one is named otherwise: {:?}", sum.numbers);
    }
}

/// Traces that go on past second 2,000, each the seconds of a random case again and again; one for every 100 of YLHOVESKO_CASES.
#[test]
fn more_than_2000_seconds() {
    let mut sum = Sum::default();
    let some = cases("YLHOVESKO_CASES", 100_000) / 100;
    for seed in 0..some {
        let case = case(seed);
        let Some(short) = of_gear(&case).filter(|short| !short.seconds.is_empty()) else { continue };
        let count = 2001 + seed as usize % 4;
        let seconds: Vec<[u8; 4]> = short.seconds.iter().copied().cycle().take(count).collect();
        let trace = in_version(short.version as u16, house_file(seconds.as_flattened()));
        sum.see(second_by_second(&Case { trace, ..case }, seed));
    }
    println!("cases by number, live and present: {:?}; starts of rows: {}", sum.numbers, sum.starts);
    assert!(some < 1000 || sum.count(|by_live, _| by_live == 2) >= 500, "{:?}", sum.numbers);
}
