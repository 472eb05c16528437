//! Drafts (02, M-112): the proved core and the second implementation on the stored cases and on random ones, and what holds of every answer.

use std::collections::BTreeMap;

use compare::draft::{draft_of, missing, seconds, MISSING, VERSION};
use compare::gear::accepted_vehicle;
use compare::trace::in_version;
use compare::{cases, mend, stored, turn};
use ylhovesko::draft::Mended;
use ylhovesko::gear::{gears, judge_pair, judge_trace};
use ylhovesko::live::Live;
use ylhovesko::Refusal;

const M_112_MEND: &str = include_str!("../../vectors/M-112-mend.txt");
const M_112_TURN: &str = include_str!("../../vectors/M-112-turn.txt");

/// The cases that came with the request: the number, the place, the counts, and all that was lent.
#[test]
fn stored_cases_of_mending() {
    for (line, text) in stored(M_112_MEND) {
        let (case, answer) = mend::read(line, text);
        assert_eq!(mend::by_plain(&case), answer, "plain, line {line}");
        assert_eq!(mend::by_core(&case), answer, "core, line {line}");
    }
    assert_eq!(stored(M_112_MEND).count(), 300);
}

#[test]
fn stored_cases_of_turning() {
    for (line, text) in stored(M_112_TURN) {
        let (case, answer) = turn::read(line, text);
        assert_eq!(turn::by_plain(&case), answer, "plain, line {line}");
        assert_eq!(turn::by_core(&case), answer, "core, line {line}");
    }
    assert_eq!(stored(M_112_TURN).count(), 300);
}

/// Whether a list rises, from 1 on.
fn rises(list: &[u16]) -> bool {
    list.first() != Some(&0) && list.windows(2).all(|two| two[0] < two[1])
}

/// "The count and list of seconds changed and the seconds left open, both rising": no second is in both, and together they are all whose phase was missing.
fn assert_lists(draft: &[u8], mended: &Mended) {
    let mut both = [&mended.changed[..], &mended.open].concat();
    both.sort_unstable();
    assert!(rises(&mended.changed) && rises(&mended.open) && both == missing(draft), "{mended:?}");
    assert_eq!(missing(&mended.bytes), mended.open);
}

/// "Every other second comes out unaltered", and one that was changed has its speed, its marks and a phase.
fn assert_seconds(draft: &[u8], mended: &Mended) {
    assert_eq!(mended.bytes[..8], draft[..8]);
    for ((place, before), after) in (1..).zip(seconds(draft)).zip(seconds(&mended.bytes)) {
        let [low, high, flags, fourth] = *before;
        match mended.changed.contains(&place) {
            false => assert_eq!(before, after),
            true => assert!((0..4).any(|phase| *after == [low, high, flags ^ MISSING | phase, fourth]), "second {place}"),
        }
    }
}

/// A refusal with its number and place alone.
fn told(refusal: Refusal) -> [u32; 2] {
    assert_eq!([refusal.within, refusal.side], [0; 2]);
    [refusal.number, refusal.at]
}

/// "The core itself refuses version 3": every other function that reads a trace does.
fn assert_no_trace(draft: &[u8], seed: u64) {
    let mut row = vec![7; draft.len()];
    let vehicle = accepted_vehicle(seed);
    let trace = in_version(1, draft_of(&[[0; 4]]));
    assert_eq!(gears(draft, vehicle, &mut row, 0).map_err(told), Err([1, 0]));
    assert!(row.iter().all(|byte| *byte == 7));
    for refused in [judge_trace(draft), judge_pair(draft, &trace), judge_pair(&trace, draft)] {
        assert_eq!(refused.map_err(told), Err([1, 0]));
    }
    assert_eq!(Live::begin(VERSION.into(), vehicle).map(|_| ()).map_err(told), Err([1, 0]));
}

/// "Running it on its own result changes nothing"; the result is turned where nothing is open, and then it is accepted, as the same seconds and marks.
fn assert_result(mended: &Mended) {
    let Mended { bytes, open, .. } = mended;
    assert_eq!(ylhovesko::draft::mend(bytes), Ok(Mended { changed: Vec::new(), ..mended.clone() }));
    let turned = ylhovesko::draft::turn(bytes).map_err(told);
    match open.first() {
        Some(first) => assert_eq!(turned, Err([4, (*first).into()])),
        None => {
            assert_eq!(turned.as_ref(), Ok(&in_version(1, bytes.clone())));
            assert_eq!(judge_trace(&turned.unwrap()), Ok(()));
        }
    }
}

/// What both say of a case of mending, and all that holds of it.
fn mended(case: &mend::Case, seed: u64) -> mend::Answer {
    let (core, plain) = (mend::by_core(case), mend::by_plain(case));
    assert!(core == plain, "seed {seed}: {case}\ncore  {core:?}\nplain {plain:?}");
    let answer = core.mended(case);
    match &answer {
        None => assert_eq!((core.counts, &core.lent), ([0; 2], &case.lent)),
        Some(mended) => {
            assert_eq!(core, mend::Answer::written(case, mended));
            assert_lists(&case.draft, mended);
            assert_seconds(&case.draft, mended);
            assert_result(mended);
            assert_no_trace(&case.draft, seed);
        }
    }
    // with room for every answer
    let whole = ylhovesko::draft::mend(&case.draft).map_err(told);
    match core.told {
        [0, ..] => assert_eq!(whole.ok(), answer),
        [8, ..] => assert!(whole.is_ok()),
        [number, at, ..] => assert_eq!(whole, Err([number, at])),
    }
    core
}

/// Random drafts, YLHOVESKO_CASES of them. A difference is shown as a line of vectors/directed_mend.txt, with the case's seed.
#[test]
fn random_mending() {
    let mut seen = BTreeMap::new();
    for seed in 0..cases("YLHOVESKO_CASES", 100_000) {
        let case = mend::case(seed);
        let answer = mended(&case, seed);
        *seen.entry((answer.told[0], answer.counts.map(|count| count > 0))).or_insert(0) += 1;
    }
    println!("drafts by refusal number, and whether a second was changed and one is open: {seen:?}");
    if seen.values().sum::<u64>() >= 100_000 {
        let taken = [[false, false], [true, false], [false, true], [true, true]].map(|lists| ((0, lists), 3000));
        let refused = [(1, 2000), (2, 500), (3, 1000), (4, 5000), (8, 5000)].map(|(number, least)| ((number, [false; 2]), least));
        let mut enough = taken.iter().chain(&refused);
        assert!(enough.all(|(kind, least)| seen.get(kind).is_some_and(|count| count >= least)), "a kind is hardly met: {seen:?}");
    }
}

/// Random drafts with few phases missing or none, YLHOVESKO_CASES of them. What is turned is accepted, and has the seconds and marks of the draft.
#[test]
fn random_turning() {
    let mut seen = BTreeMap::new();
    for seed in 0..cases("YLHOVESKO_CASES", 100_000) {
        let case = turn::case(seed);
        let (core, plain) = (turn::by_core(&case), turn::by_plain(&case));
        assert!(core == plain, "seed {seed}: {case}\ncore  {core:?}\nplain {plain:?}");
        let (trace, behind) = core.1.split_at(case.draft.len().min(core.1.len()));
        if core.0[0] == 0 {
            assert_eq!((trace, behind), (&in_version(1, case.draft.clone())[..], &case.buffer[trace.len()..]), "seed {seed}");
            assert_eq!((judge_trace(trace), missing(trace)), (Ok(()), Vec::new()), "seed {seed}");
        } else {
            assert_eq!(core.1, case.buffer, "seed {seed}");
        }
        let open = core.0[0] == 4 && ylhovesko::draft::mend(&case.draft).is_ok();
        *seen.entry((core.0[0], open)).or_insert(0) += 1;
    }
    println!("drafts by refusal number, and whether it is for an open second: {seen:?}");
    if seen.values().sum::<u64>() >= 100_000 {
        let enough = [
            ((0, false), 20_000),
            ((1, false), 2000),
            ((2, false), 500),
            ((3, false), 1000),
            ((4, false), 5000),
            ((4, true), 5000),
            ((8, false), 1000),
        ];
        assert!(enough.iter().all(|(kind, least)| seen.get(kind).is_some_and(|count| count >= least)), "a kind is hardly met: {seen:?}");
    }
}

/// Two phases and two speeds, with the phase and without it, and a mark.
const KINDS: [[u8; 4]; 6] = [[0, 0, 0, 0], [1, 0, 0, 0], [0, 0, 1, 0], [1, 0, 1, 0], [0, 0, MISSING, 0], [1, 0, MISSING | 4, 0]];

/// Every draft of up to seven seconds of these kinds; of up to five where the core is called through pipes.
#[test]
fn every_short_draft() {
    let longest = if ylhovesko::LINKED { 7 } else { 5 };
    for (length, number) in (1..=longest).flat_map(|length| (0..6_u32.pow(length)).map(move |number| (length, number))) {
        let kinds: Vec<[u8; 4]> = (0..length).map(|place| KINDS[(number / 6_u32.pow(place) % 6) as usize]).collect();
        let draft = draft_of(&kinds);
        let (core, plain) = (ylhovesko::draft::mend(&draft).unwrap(), plain::draft::mended(&draft).unwrap());
        assert_eq!((core.bytes, core.changed, core.open), (plain.draft, plain.changed, plain.open), "{draft:?}");
    }
}

/// In 16 bits each of these rooms would be none.
#[test]
fn rooms_past_16_bits() {
    let (draft, room) = (draft_of(&[[0; 4], [0, 0, MISSING, 0], [0; 4], [0, 0, MISSING, 0]]), 65_536);
    let lent = mend::Lent { buffer: vec![7; room], changed: vec![7; room], open: vec![7; room] };
    let answer = mended(&mend::Case { draft, lent }, 0);
    assert_eq!((answer.told, answer.counts), ([0; 4], [1, 1]));
}
