//! Directed cases of the live engine (02, M-110): what it refuses, when, and what it has given by then. Its rows are in live_rows.rs.

use ylhovesko::gear::Vehicle;

use super::gear::{clutch, faultless, faults, of_vehicle, row, second, BESIDE, EIGHT};
use super::{gear, live_rows};
use crate::live::{by_plain, Answer, Call, Case};
use crate::Told;

/// A case, what is to be seen in it, and what 02 says of the start, of every second and of the end.
pub struct Directed {
    pub words: String,
    pub case: Case,
    pub answer: Answer,
}

#[derive(Default)]
pub(super) struct Cases(Vec<Directed>);

/// What stands before the last `*`, so many times.
pub(super) fn times(text: &str) -> impl Iterator<Item = &str> {
    let each = |word| match str::rsplit_once(word, '*') {
        Some((word, count)) => std::iter::repeat_n(word, count.parse().unwrap()),
        None => std::iter::repeat_n(word, 1),
    };
    text.split(' ').filter(|word| !word.is_empty()).flat_map(each)
}

/// Seconds in short, as [`second`] has them; x for a wrong fourth byte, *5 for five of them.
pub(super) fn seconds(text: &str) -> Vec<[u8; 4]> {
    let bytes = |short: &str| {
        let [low, high, flags, _] = second(short.trim_end_matches('x'));
        [low, high, flags, u8::from(short.ends_with('x'))]
    };
    times(text).map(bytes).collect()
}

/// A version, a vehicle and seconds in short.
pub(super) fn named(version: u32, vehicle: Vehicle, text: &str) -> Case {
    Case { version, vehicle, seconds: seconds(text) }
}

/// In this vehicle 123.7 km/h is too close in acceleration.
pub(super) fn close(rule_set: u32) -> Vehicle {
    Vehicle { rule_set, ..BESIDE[6].vehicle(8) }
}

/// The bytes of gears worked out by hand. The clutch follows from the gear.
fn bytes(case: &Case, gears: &str) -> Vec<u8> {
    let gears = times(gears).map(|gear| gear.parse().unwrap());
    gears.zip(&case.seconds).flat_map(|(gear, second)| [gear, clutch(&case.vehicle, second, gear)]).collect()
}

/// "A second is given at the call of the fifth after it" (readings): of so many calls with seconds.
fn delayed(given: &[u8], calls: usize) -> Vec<Option<Call>> {
    (1..=calls)
        .map(|call| if call > 5 { given[2 * (call - 6)..2 * (call - 5)].to_vec() } else { Vec::new() })
        .map(|given| Some(([0; 4], given)))
        .collect()
}

impl Cases {
    pub(super) fn push(&mut self, words: String, case: Case, begin: Told, calls: Vec<Option<Call>>) {
        self.0.push(Directed { words, case, answer: Answer { begin, calls } });
    }

    /// A start that is refused.
    fn not_begun(&mut self, number: u32, at: u32, words: &str, case: Case) {
        let calls = vec![None; case.seconds.len() + 1];
        self.push(format!("{} at the start: {words}", row(number, at)), case, [number, at, 0, 0], calls);
    }

    /// A case whose bytes are worked out by hand: all are given, "at the call of the fifth after it, or at the end".
    pub(super) fn all(&mut self, words: String, case: Case, bytes: &[u8]) {
        let count = case.seconds.len();
        assert_eq!(bytes.len(), 2 * count, "{words}");
        let mut calls = delayed(bytes, count);
        calls.push(Some(([0; 4], bytes[2 * count.saturating_sub(5)..].to_vec())));
        self.push(words, case, [0; 4], calls);
    }

    /// The same of gears.
    pub(super) fn gears(&mut self, words: &str, case: Case, gears: &str) {
        let bytes = bytes(&case, gears);
        self.all(format!("{words}: {gears}"), case, &bytes);
    }

    /// A second that is refused, the number of which is the call's; the gears that were given before it are worked out by hand.
    pub(super) fn refused_at(&mut self, call: usize, [number, at]: [u32; 2], words: &str, case: Case, gears: &str) {
        let given = bytes(&case, gears);
        assert_eq!(given.len(), 2 * (call - 1).saturating_sub(5), "{words}");
        let mut calls = delayed(&given, call - 1);
        calls.push(Some(([number, at, 0, 0], Vec::new())));
        calls.resize(case.seconds.len() + 1, None);
        let given = if gears.is_empty() { String::new() } else { format!(", after {gears}") };
        self.push(format!("{} at call {call}{given}: {words}", row(number, at)), case, [0; 4], calls);
    }

    /// A second that is refused with its own number.
    pub(super) fn refused(&mut self, number: u32, at: u32, words: &str, case: Case, gears: &str) {
        self.refused_at(at as usize, [number, at], words, case, gears);
    }
}

/// "1 for a named version not 1 or 2": what is next to them, what has their low bits, and the ends.
fn versions(cases: &mut Cases) {
    const LOW: [u32; 2] = [1, 2];
    let with_low_bits = (2..32).flat_map(|bit| LOW.map(|version| version | 1 << bit));
    let others = [0, 3, 4, 255, 256, 65_535, 65_536, 1 << 31, u32::MAX - 1, u32::MAX];
    for version in others.into_iter().chain(with_low_bits) {
        cases.not_begun(1, 0, &format!("version {version}"), named(version, EIGHT, "s a1"));
    }
    for (version, rule_set) in [(1, 1), (1, 2), (2, 1), (2, 2)] {
        let case = named(version, Vehicle { rule_set, ..EIGHT }, "s a1 a2 a3 c4 d3 d@99 s@23");
        cases.gears(&format!("version {version}, rule set {rule_set}"), case, "1 1 2 3 3 3 2 1");
    }
    for version in [0, 3] {
        cases.not_begun(1, 0, &format!("version {version}, no second"), named(version, EIGHT, ""));
        cases.not_begun(1, 0, &format!("version {version}, a wrong fourth byte"), named(version, EIGHT, "ax"));
    }
}

/// "Then 5 to 7, before the first second": all that the vehicle alone decides, and every fault of it behind that of the version.
fn vehicles(cases: &mut Cases) {
    for (version, gear::Directed { words, case, told, .. }) in [1, 2].into_iter().cycle().zip(of_vehicle()) {
        let case = named(version, case.vehicle, "s");
        match told {
            [0, ..] => cases.gears(&format!("{words} gives"), case, "1"),
            [number, at, ..] => cases.not_begun(number, at, &words, case),
        }
    }
    for (number, at, put) in faults().into_iter().filter(|(number, ..)| (5..=7).contains(number)) {
        let mut faulty = faultless();
        put(&mut faulty);
        for version in [0, 3, 257] {
            let words = format!("version {version}, and {}", row(number, at));
            cases.not_begun(1, 0, &words, named(version, faulty.vehicle, "s"));
        }
        let words = format!("{}, no second", row(number, at));
        cases.not_begun(number, at, &words, named(2, faulty.vehicle, ""));
        let words = "before a wrong fourth byte, a mark under set 2 and a speed that is too close";
        cases.not_begun(number, at, words, named(1, faulty.vehicle, "a@1237=x a@1237= a@1237"));
    }
}

/// "4, 20 and 9 in that order on one second", at any second; what was given before.
fn one_second(cases: &mut Cases) {
    // before the fault: so many seconds, and the gears that are given
    for (before, gears) in [("", ""), ("s", ""), ("s*4", ""), ("s*5", ""), ("s*6", "0"), ("s*5 a@100*2", "1 1"), ("s a@100*6", "1 1")] {
        let at = times(before).count() as u32 + 1;
        let mut of = |number: u32, version: u32, rule_set: u32, fault: &str| {
            let case = named(version, close(rule_set), &format!("{before} {fault} s a@100"));
            cases.refused(number, at, &format!("version {version}, rule set {rule_set}, {before} {fault}"), case, gears);
        };
        for rule_set in [1, 2] {
            for version in [1, 2] {
                of(4, version, rule_set, "sx");
                of(4, version, rule_set, "a@2001");
                of(4, version, rule_set, "a@1237x");
                of(9, version, rule_set, "a@1237");
            }
            of(4, 1, rule_set, "a@1237=x");
            of(4, 1, rule_set, "s^x");
            of(4, 1, rule_set, "s@2001=");
            of(4, 2, rule_set, "a@1237=");
            of(4, 2, rule_set, "s^");
            of(4, 2, rule_set, "c@200=^");
        }
        of(9, 1, 1, "a@1237=");
        of(9, 1, 1, "a@1237=^");
        for fault in ["a@1237=", "a@1237^", "s=", "s^", "s@23=^", "c@200=", "d@200^"] {
            of(20, 1, 2, fault);
        }
    }
}

/// "Flags: .. others zero", speeds above 2,000 and fourth bytes, each bit; and what is taken.
fn bytes_of_a_second(cases: &mut Cases) {
    let put = |version: u32, second: [u8; 4]| Case { version, vehicle: EIGHT, seconds: vec![[0; 4], second, [0; 4]] };
    for version in [1, 2] {
        for bit in 0..8 {
            let words = format!("version {version}, {} as the fourth byte", 1 << bit);
            cases.refused(4, 2, &words, put(version, [0, 0, 0, 1 << bit]), "");
        }
        for bit in 2..8 {
            let (case, words) = (put(version, [0, 0, 1 << bit, 0]), format!("version {version}, {} among the flags", 1 << bit));
            match (version, bit) {
                (1, 2 | 3) => cases.gears(&words, case, "1 1 1"),
                _ => cases.refused(4, 2, &words, case, ""),
            }
        }
        for speed in [2001_u16, 2002, 2048, 4096, 32_768, 65_535] {
            let [low, high] = speed.to_le_bytes();
            cases.refused(4, 2, &format!("version {version}, speed {speed}"), put(version, [low, high, 0, 0]), "");
        }
        for speed in [0, 1, 255, 256, 1999, 2000_u16] {
            let [low, high] = speed.to_le_bytes();
            cases.gears(&format!("version {version}, speed {speed} at a stop"), put(version, [low, high, 0, 0]), "1 1 1");
        }
    }
}

/// "2 on second 2,001", "whatever it holds" (readings); second 2,000 is still judged.
fn many_seconds(cases: &mut Cases) {
    let stops = |rule_set: u32, more: &str| named(1, close(rule_set), &format!("s*1999 {more}"));
    cases.gears("2,000 seconds", stops(1, "s"), "0*1995 1*5");
    cases.gears("2,000 seconds, the last one no stop", stops(2, "a@100"), "0*1994 1*6");
    for (number, fault) in [(4, "sx"), (20, "s="), (9, "a@1237")] {
        cases.refused(number, 2000, &format!("{fault} is second 2,000, and more behind it"), stops(2, &format!("{fault} s s")), "0*1994");
    }
    for (words, fault) in [
        ("a stop", "s"),
        ("a wrong fourth byte", "sx"),
        ("speed 2001", "a@2001"),
        ("a mark under set 2", "s="),
        ("a speed that is too close", "a@1237"),
        ("all of these", "a@1237=x"),
    ] {
        let case = stops(2, &format!("s {fault}"));
        cases.refused_at(2001, [2, 0], &format!("second 2,001 is {words}"), case, "0*1995");
    }
    let case = named(2, EIGHT, "c2*2000 s*2");
    cases.refused_at(2001, [2, 0], "2,002 seconds, stops behind 2,000 of cruise", case, "2*1995");
}

/// "2 .. at an end with no second received"; and the end after each count of seconds.
fn ends(cases: &mut Cases) {
    for (version, rule_set) in [(1, 1), (1, 2), (2, 1), (2, 2)] {
        let words = format!("no second, version {version}, rule set {rule_set}");
        cases.refused_at(1, [2, 0], &words, named(version, Vehicle { rule_set, ..EIGHT }, ""), "");
    }
    const SECONDS: [&str; 12] = ["a1", "a2", "a3", "a4", "a5", "a6", "a7", "a8", "c8", "c8", "d8", "d8"];
    const GEARS: [&str; 12] = ["1", "2", "3", "4", "5", "6", "7", "8", "8", "8", "8", "8"];
    for count in 1..=12 {
        let case = named(2, EIGHT, &SECONDS[..count].join(" "));
        cases.gears(&format!("an end after {count}"), case, &GEARS[..count].join(" "));
    }
    for count in 0..=12 {
        let case = named(1, EIGHT, &format!("{} ax {}", SECONDS[..count].join(" "), SECONDS[count..].join(" ")));
        let given = GEARS[..count.saturating_sub(5)].join(" ");
        cases.refused(4, count as u32 + 1, &format!("a wrong fourth byte behind {count}"), case, &given);
    }
}

/// "Then the earliest faulty second is named", where the present engine names the one with the lowest number.
fn earliest(cases: &mut Cases) {
    // the seconds, the live engine's refusal, the present one's, and what was given
    let rows = [
        ("s*2 a@1237 s ax", [9, 3], [4, 5], ""),
        ("s a@1237 s=", [9, 2], [20, 3], ""),
        ("s a@100= sx", [20, 2], [4, 3], ""),
        ("s= a@1237 sx", [20, 1], [4, 3], ""),
        ("a@1237 s= sx", [9, 1], [4, 3], ""),
        ("sx s= a@1237", [4, 1], [4, 1], ""),
        ("sx sx", [4, 1], [4, 1], ""),
        ("s= s^", [20, 1], [20, 1], ""),
        ("a@1237 a@1237", [9, 1], [9, 1], ""),
        ("s sx s= sx", [4, 2], [4, 2], ""),
        ("s*8 a@1237 s*3 sx", [9, 9], [4, 13], "0*3"),
        ("s*8 s^ s*3 sx", [20, 9], [4, 13], "0*3"),
        ("a@100 c@300*7 a@1237 s=", [9, 9], [20, 10], "1 2*2"),
    ];
    for (seconds, first, lowest, gears) in rows {
        let case = named(1, close(2), seconds);
        let [number, at] = lowest;
        let by_row = present(&case);
        assert_eq!(by_row, lowest, "{seconds}");
        let words = format!("{seconds}, of which the present engine says {}", row(number, at));
        cases.refused_at(first[1] as usize, first, &words, case, gears);
    }
    let mut many = named(1, close(1), "s*7 a@1237 s*1993");
    many.seconds[20][3] = 1;
    cases.refused(9, 8, "2,001 seconds, of which the present engine says 2", many, "0*2");
}

/// The number and place that the second implementation's present engine has for a trace of the same seconds.
fn present(case: &Case) -> [u32; 2] {
    let trace = crate::trace::in_version(case.version as u16, crate::trace::house_file(case.seconds.as_flattened()));
    let [number, at, ..] = crate::gear::by_plain(&gear::lent(trace, case.vehicle)).0;
    [number, at]
}

/// All of them, in the order of the file.
pub fn cases() -> Vec<Directed> {
    let mut cases = Cases::default();
    let groups: [fn(&mut Cases); 7] = [versions, vehicles, one_second, bytes_of_a_second, many_seconds, ends, earliest];
    groups.iter().chain(&live_rows::GROUPS).for_each(|group| group(&mut cases));
    cases.0
}

/// The text of vectors/directed_live.txt. Stops where the second implementation does not say what is expected.
pub fn text() -> String {
    let mut text = super::head(include_str!("../../../vectors/M-110-live.txt"));
    for Directed { words, case, answer } in cases() {
        assert_eq!(by_plain(&case), answer, "{words}");
        text += &format!("# {words}\n{case} {answer}\n");
    }
    text
}
