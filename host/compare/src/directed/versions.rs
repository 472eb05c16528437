//! Directed cases of the trace's versions and of marks under rule set 2 (02, M-109).

use std::collections::BTreeSet;

use ylhovesko::gear::Vehicle;

use super::gear::{faultless, faults, lent, long, row, trace, usual, Cases, EIGHT, TALL};
use crate::gear::Case;
use crate::trace::{in_version, unmarked, with_flags};

pub(super) const GROUPS: [fn(&mut Cases); 10] = [
    heads,
    flags,
    flags_by_set_2,
    marked_seconds,
    long_traces,
    first_of_two,
    beside_every_fault,
    in_version_2_beside_every_fault,
    same_seconds,
    clutches,
];

/// A case in another version and under a rule set.
fn put(version: u16, rule_set: u32, case: Case) -> Case {
    let Case { trace, vehicle, buffer, start } = case;
    Case { trace: in_version(version, trace), vehicle: Vehicle { rule_set, ..vehicle }, buffer, start }
}

/// "Version (16 bits, little-endian)": 1 and 2 in both of its bytes, what is next to them, and what has one bit more.
fn heads(cases: &mut Cases) {
    const BYTES: [u16; 6] = [0, 1, 2, 3, 4, 255];
    let pairs = BYTES.into_iter().flat_map(|high| BYTES.map(|low| 256 * high + low));
    let one_bit_more = (2..16).flat_map(|bit| [1, 2].map(|version| version | 1 << bit));
    let versions: BTreeSet<u16> = pairs.chain(one_bit_more).collect();
    for version in versions {
        for rule_set in [1, 2] {
            let words = format!("rule set {rule_set}, version {version}");
            let case = put(version, rule_set, usual());
            match version {
                1 | 2 => cases.gears(&words, case, "1 1 2 3 3 3 2 1"),
                _ => cases.refused(1, 0, &words, case),
            }
        }
    }
    for byte in 0..4 {
        let mut case = put(2, 1, usual());
        case.trace[byte] ^= 1;
        cases.refused(1, 0, &format!("version 2, byte {byte} is another"), case);
    }
    for length in 0..8 {
        let mut case = put(2, 1, usual());
        case.trace.truncate(length);
        cases.refused(1, 0, &format!("version 2, a file of {length} bytes"), case);
    }
}

/// A second of each phase, with the flags of one of them changed.
fn with_flags_at(at: usize, flags: u8) -> Case {
    let mut case = lent(trace("a1 c2 d2"), EIGHT);
    case.trace[6 + 4 * at] = flags;
    case
}

/// The gears of those seconds without marks, by the second that is changed and its phase. A deceleration after an acceleration in gear 1 has gear 1 (correction
/// 1), and so has a cruise between two accelerations (correction 6).
const BY_PHASE: [[&str; 4]; 3] =
    [["1 2 2", "1 2 2", "2 2 2", "2 2 2"], ["1 1 2", "1 1 1", "1 2 2", "1 1 1"], ["1 2 1", "1 1 1", "1 2 2", "1 2 2"]];

/// "Bits 0-1 phase .. bit 2 'no gear-shift', bit 3 'no 1. gear', others zero" in version 1, "only the phase" in version 2: every byte there is.
fn flags(cases: &mut Cases) {
    for (at, flags) in (1..=3).flat_map(|at| (0..=255).map(move |flags| (at, flags))) {
        let case = with_flags_at(at, flags);
        let (words, place) = (format!("flags {flags} at second {at}"), at as u32);
        match flags {
            0..16 => cases.taken(&format!("version 1, {words}"), case.clone()),
            _ => cases.refused(4, place, &format!("version 1, {words}"), case.clone()),
        }
        let case = put(2, 1, case);
        match flags {
            0..4 => cases.gears(&format!("version 2, {words} gives"), case, BY_PHASE[at - 1][usize::from(flags)]),
            _ => cases.refused(4, place, &format!("version 2, {words}"), case),
        }
    }
}

/// "4 for a set mark in version 2; 20 for a marked version 1 trace under set 2."
fn flags_by_set_2(cases: &mut Cases) {
    for (at, flags) in (1..=3).flat_map(|at| (0..20).map(move |flags| (at, flags))) {
        let (words, place) = (format!("flags {flags} at second {at}"), at as u32);
        for (version, number) in [(1, 20), (2, 4)] {
            let case = put(version, 2, with_flags_at(at, flags));
            let words = format!("rule set 2, version {version}, {words}");
            match flags {
                0..4 => cases.gears(&format!("{words} gives"), case, BY_PHASE[at - 1][usize::from(flags)]),
                4..16 => cases.refused(number, place, &words, case),
                _ => cases.refused(4, place, &words, case),
            }
        }
    }
}

/// Either mark, or both, on a second of each phase at each place, "on stop seconds" too; and what the same trace has under set 1, under no set, and in version 2.
fn marked_seconds(cases: &mut Cases) {
    for (phase, marks) in ["s", "s@23", "a1", "c2", "d2"].into_iter().flat_map(|phase| ["=", "^", "=^"].map(|marks| (phase, marks))) {
        for at in 1..=4 {
            let mut seconds = ["s", "a1", "c2", "d2"].map(String::from);
            seconds[at - 1] = format!("{phase}{marks}");
            let seconds = seconds.join(" ");
            let of = |rule_set: u32| lent(trace(&seconds), Vehicle { rule_set, ..EIGHT });
            cases.refused(20, at as u32, &format!("rule set 2, {seconds}"), of(2));
            cases.taken(&format!("rule set 1, {seconds}"), of(1));
            [0, 3, 258].into_iter().for_each(|rule_set| cases.refused(5, 14, &format!("rule set {rule_set}, {seconds}"), of(rule_set)));
            [1, 2].into_iter().for_each(|rule_set| {
                cases.refused(4, at as u32, &format!("rule set {rule_set}, version 2, {seconds}"), put(2, rule_set, of(1)));
            });
        }
    }
    let mut case = lent(trace("s a1 c2^"), Vehicle { rule_set: 2, ..EIGHT });
    (case.buffer, case.start) = (vec![0; 20], 5);
    cases.refused(20, 3, "rule set 2, room before and behind", case);
}

/// A case with either mark, or both, at a second.
fn marked(mut case: Case, mark: u8, at: usize) -> Case {
    case.trace[6 + 4 * at] |= mark;
    case
}

/// 2,000 seconds without marks and with one.
fn long_traces(cases: &mut Cases) {
    let none = unmarked(long(2000));
    for (version, rule_set) in [(1, 1), (1, 2), (2, 1), (2, 2)] {
        let words = format!("rule set {rule_set}, version {version}, 2,000 seconds without marks");
        cases.taken(&words, put(version, rule_set, lent(none.clone(), TALL)));
    }
    for (at, mark) in [(1, 4), (1000, 8), (1999, 12), (2000, 4), (2000, 8)] {
        let of = |version: u16, rule_set: u32| put(version, rule_set, marked(lent(none.clone(), TALL), mark, at));
        let words = format!("{mark} among the flags at second {at} of 2,000");
        cases.refused(20, at as u32, &format!("rule set 2, {words}"), of(1, 2));
        cases.refused(4, at as u32, &format!("version 2, {words}"), of(2, 1));
    }
    let all = with_flags(long(2000), |flags| flags | 12);
    cases.refused(20, 1, "rule set 2, every second of 2,000 has both marks", put(1, 2, lent(all.clone(), TALL)));
    cases.taken("rule set 1, every second of 2,000 has both marks", put(1, 1, lent(all, TALL)));
}

/// "With its first marked second."
fn first_of_two(cases: &mut Cases) {
    for (seconds, at) in [
        ("s a1= c2= d2", 2),
        ("s a1^ c2= d2", 2),
        ("s a1= c2^ d2", 2),
        ("s a1 c2^ d2=", 3),
        ("s a1 c2= d2^", 3),
        ("s= a1 c2 d2^", 1),
        ("s^ a1 c2 d2=", 1),
        ("s a1 c2 s^ s= s=^", 4),
        ("s a1=^ c2 d2 s=", 2),
        ("s@23= s=^ s^ s a1=", 1),
    ] {
        let of = |rule_set: u32| lent(trace(seconds), Vehicle { rule_set, ..EIGHT });
        cases.refused(20, at, &format!("rule set 2, {seconds}"), of(2));
        cases.refused(4, at, &format!("version 2, {seconds}"), put(2, 2, of(2)));
        cases.taken(&format!("rule set 1, {seconds}"), of(1));
    }
}

/// "Directly after 7": 1 to 7 go before 20, and 20 before 8 and 9. Under set 1 a mark is no fault.
fn beside_every_fault(cases: &mut Cases) {
    for (at, mark) in [(1, 8), (3, 4), (4, 12)] {
        for (number, place, damage) in faults().into_iter().filter(|(number, ..)| *number != 20) {
            let mut case = put(1, 2, faultless());
            damage(&mut case);
            let case = marked(case, mark, at);
            let words = format!("rule set {}, {}, and a mark at second {at}", case.vehicle.rule_set, row(number, place));
            match number {
                1..=7 => cases.refused(number, place, &words, case.clone()),
                _ => cases.refused(20, at as u32, &words, case.clone()),
            }
            if number >= 8 {
                let words = format!("rule set 1, and a mark at second {at}");
                cases.refused(number, place, &words, put(1, 1, case));
            }
        }
    }
}

/// In version 2 every fault is what it is in version 1, and a mark is 4: after 1 to 3, before 5, at the first second that is at fault.
fn in_version_2_beside_every_fault(cases: &mut Cases) {
    for (number, place, damage) in faults() {
        let damaged = |rule_set: u32, mark: u8| {
            let mut case = marked(put(2, rule_set, faultless()), mark, 3);
            damage(&mut case);
            case
        };
        let own = if number == 20 { (4, place) } else { (number, place) };
        for rule_set in [1, 2] {
            cases.refused(own.0, own.1, &format!("version 2, rule set {rule_set}"), damaged(rule_set, 0));
            // a second that is too close to call takes the place of the marked one
            if own != (9, 3) {
                let first = own.min((4, 3));
                let words = format!("version 2, rule set {rule_set}, {}, and a mark at second 3", row(own.0, own.1));
                cases.refused(first.0, first.1, &words, damaged(rule_set, 4));
            }
        }
    }
}

/// Seconds with marks; the first marked one; their gears with the marks, which set 1 has in version 1 alone; without them under set 1; and under set 2.
type Rows = (&'static str, u32, &'static str, &'static str, &'static str);

/// "Corrections 2 and 3 then have nothing to act on", nor has the exception of correction 6.
const SAME_SECONDS: [Rows; 17] = [
    ("a1^ a2^ c2^", 1, "2 2 2", "1 2 2", "1 2 2"),
    ("a1^ a1", 1, "2 2", "1 1", "1 1"),
    ("a1 a1^ a1", 2, "1 2 2", "1 1 1", "1 1 1"),
    ("c3 c5= c6=", 2, "3 3 3", "3 4 5", "3 4 5"),
    ("a1 c2=^ c4=", 2, "1 2 2", "1 2 3", "1 2 3"),
    ("a1 c3= a2=", 2, "1 1 1", "1 2 2", "1 2 2"),
    ("s c2= s= c2=", 2, "1 2 1 2", "1 2 1 2", "1 2 1 2"),
    ("s= a1 c2 d2", 1, "1 1 2 2", "1 1 2 2", "1 1 2 2"),
    ("s^ s s s s s s a1", 1, "0 0 1 1 1 1 1 1", "0 0 1 1 1 1 1 1", "0 0 1 1 1 1 1 1"),
    ("a1 c2 c2^ c2 a1", 3, "1 2 2 2 1", "1 1 1 1 1", "1 1 1 1 1"),
    ("c4 a8= a6 a6 a6", 2, "4 4 5 6 6", "4 5 6 7 8", "4 5 6 7 8"),
    ("c1 c2= c3=", 2, "2 2 2", "2 2 3", "1 2 3"),
    ("c1^ c1", 1, "2 2", "2 2", "1 1"),
    ("d1^ d1^", 1, "2 2", "2 2", "1 1"),
    ("c1 c2^ c1", 2, "2 2 2", "2 2 2", "1 1 1"),
    ("s c1= c1=", 2, "1 2 2", "1 2 2", "1 1 1"),
    ("a2 d1^ d1", 2, "2 2 2", "2 2 2", "2 1 1"),
];

pub(super) fn same_seconds(cases: &mut Cases) {
    for (seconds, at, by_marks, by_set_1, by_set_2) in SAME_SECONDS {
        let marked = |version: u16, rule_set: u32| put(version, rule_set, lent(trace(seconds), EIGHT));
        cases.gears(&format!("rule set 1, version 1: {seconds} gives"), marked(1, 1), by_marks);
        cases.refused(20, at, &format!("rule set 2, version 1: {seconds}"), marked(1, 2));
        for rule_set in [1, 2] {
            cases.refused(4, at, &format!("rule set {rule_set}, version 2: {seconds}"), marked(2, rule_set));
        }
        for (version, rule_set, gears) in [(1, 1, by_set_1), (2, 1, by_set_1), (1, 2, by_set_2), (2, 2, by_set_2)] {
            let case = put(version, rule_set, lent(unmarked(trace(seconds)), EIGHT));
            cases.gears(&format!("rule set {rule_set}, version {version}: {seconds} without marks gives"), case, gears);
        }
    }
}

/// In [`TALL`] 12.7 km/h has the clutch in in gear 1 and out in gear 2.
fn clutches(cases: &mut Cases) {
    for (seconds, by_set_1, by_set_2) in [
        ("a@127 a@130", "1/in 1/in", "1/in 1/in"),
        ("c@140 c@127", "2/in 2/out", "2/in 1/in"),
        ("c@127 c@140 d@127", "2/out 2/in 2/out", "1/in 1/in 1/in"),
        ("s@23 d@129 s", "1/out 2/out 1/out", "1/out 1/in 1/out"),
    ] {
        for (rule_set, row) in [(1, by_set_1), (2, by_set_2)] {
            let words = format!("version 2, rule set {rule_set}: {seconds}");
            cases.case_with_clutch(&words, put(2, rule_set, lent(trace(seconds), TALL)), row);
        }
    }
}
