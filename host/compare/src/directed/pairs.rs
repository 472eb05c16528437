//! Directed pairs of traces.

use super::gear::row;
use crate::pairs::{answer_text, by_plain, Pair};
use crate::trace::{house_file, in_version, with_flags, MARKS};
use crate::Told;

/// A pair, what is to be seen in it, and what 01 says of it.
pub struct Directed {
    pub words: String,
    pub pair: Pair,
    pub told: Told,
}

/// A trace of so many seconds of cruise; the normal and the reduced one differ in speed.
fn trace(count: usize, speed: u8) -> Vec<u8> {
    house_file(&[speed, 0, 2, 0].repeat(count))
}

fn pair(normal: usize, reduced: usize) -> Pair {
    Pair { normal: trace(normal, 200), reduced: trace(reduced, 100) }
}

/// A number and a place, and what puts the fault into a trace of three seconds.
type Fault = (u32, u32, fn(&mut Vec<u8>));

/// The first in 01's order first.
const FAULTS: [Fault; 7] = [
    (1, 0, |file| file[0] = b'V'),
    (2, 0, |file| file[6] = 0),
    (3, 0, |file| file.truncate(19)),
    (4, 1, |file| file[9] = 8),
    (4, 2, |file| file[14] = 16),
    (4, 3, |file| file[16..18].copy_from_slice(&[0xd1, 7])),
    (4, 3, |file| file[19] = 1),
];

#[derive(Default)]
struct Cases(Vec<Directed>);

impl Cases {
    fn put(&mut self, words: String, pair: Pair, told: Told) {
        self.0.push(Directed { words, pair, told });
    }
}

/// The versions of the normal and of the reduced trace: "the two traces of a pair may differ in version" (readings).
const VERSIONS: [(u16, u16); 4] = [(1, 1), (1, 2), (2, 1), (2, 2)];

fn in_versions((normal, reduced): (u16, u16), pair: Pair) -> Pair {
    Pair { normal: in_version(normal, pair.normal), reduced: in_version(reduced, pair.reduced) }
}

/// What is taken, and refusal 15.
fn counts(cases: &mut Cases) {
    for versions in VERSIONS {
        let words = format!("versions {} and {}", versions.0, versions.1);
        for count in [1, 3, 257, 2000] {
            cases.put(format!("taken: {words}, counts {count} and {count}"), in_versions(versions, pair(count, count)), [0; 4]);
        }
        let alike = Pair { normal: trace(3, 200), reduced: trace(3, 200) };
        cases.put(format!("taken: {words}, the same seconds"), in_versions(versions, alike), [0; 4]);
        for (normal, reduced) in [(1, 2), (2, 1), (1, 257), (257, 1), (256, 512)] {
            let words = format!("15: {words}, counts {normal} and {reduced}");
            cases.put(words, in_versions(versions, pair(normal, reduced)), [15, 0, 0, 0]);
        }
    }
}

/// Refusals 1 to 4 of each trace by its own version, beside one of the same count and of another.
fn one_damaged(cases: &mut Cases) {
    for (versions, (number, at, damage)) in VERSIONS.into_iter().flat_map(|versions| FAULTS.map(|fault| (versions, fault))) {
        for other in [3, 2] {
            let words = format!("versions {} and {}, beside {other} seconds", versions.0, versions.1);
            let mut normal = in_versions(versions, pair(3, other));
            damage(&mut normal.normal);
            cases.put(format!("{} of the normal trace, {words}", row(number, at)), normal, [number, at, 0, 0]);
            let mut reduced = in_versions(versions, pair(other, 3));
            damage(&mut reduced.reduced);
            cases.put(format!("{} of the reduced trace, {words}", row(number, at)), reduced, [number, at, 0, 0]);
        }
    }
    let [full, empty] = [trace(3, 200), Vec::new()];
    for (normal, reduced) in [(&empty, &full), (&full, &empty), (&empty, &empty)] {
        let words = format!("1: files of {} and {} bytes", normal.len(), reduced.len());
        cases.put(words, Pair { normal: normal.clone(), reduced: reduced.clone() }, [1, 0, 0, 0]);
    }
}

/// "1 to 4 of the normal, then of the reduced."
fn both_damaged(cases: &mut Cases) {
    for (number, at, damage) in FAULTS {
        for (other, place, damage_other) in FAULTS {
            let mut both = pair(3, 3);
            damage(&mut both.normal);
            damage_other(&mut both.reduced);
            let words = format!("{} of the normal trace before {} of the reduced", row(number, at), row(other, place));
            cases.put(words, both, [number, at, 0, 0]);
        }
    }
}

/// A mark at a second of a trace of each version, beside one of each version: version 2 refuses it, and version 1 takes it whichever version the other has.
fn marks(cases: &mut Cases) {
    for (at, mark) in (1..=3).flat_map(|at| [4, 8, 12].map(|mark| (at, mark))) {
        for versions in VERSIONS {
            let words = format!("{mark} among the flags at second {at}, versions {} and {}", versions.0, versions.1);
            let told = |version: u16| if version == 2 { [4, at, 0, 0] } else { [0; 4] };
            let number = |version: u16| if version == 2 { row(4, at) } else { "taken".into() };
            let flags = 6 + 4 * at as usize;
            let mut normal = in_versions(versions, pair(3, 3));
            normal.normal[flags] |= mark;
            cases.put(format!("{}: normal trace, {words}", number(versions.0)), normal, told(versions.0));
            let mut reduced = in_versions(versions, pair(3, 3));
            reduced.reduced[flags] |= mark;
            cases.put(format!("{}: reduced trace, {words}", number(versions.1)), reduced, told(versions.1));
        }
    }
}

/// Both marks at every second of both traces.
fn every_mark(cases: &mut Cases) {
    let all = |pair: Pair| {
        let [normal, reduced] = [pair.normal, pair.reduced].map(|trace| with_flags(trace, |flags| flags | MARKS));
        Pair { normal, reduced }
    };
    cases.put("taken: every mark, versions 1 and 1".into(), all(pair(3, 3)), [0; 4]);
    for versions in &VERSIONS[1..] {
        let words = format!("4 at 1: every mark, versions {} and {}", versions.0, versions.1);
        cases.put(words, in_versions(*versions, all(pair(3, 3))), [4, 1, 0, 0]);
    }
    let mut both = in_versions((1, 2), all(pair(3, 3)));
    both.normal[19] = 1;
    cases.put("4 at 3 of the normal trace before 4 at 1 of the reduced, which has marks".into(), both, [4, 3, 0, 0]);
    let short = |versions| in_versions(versions, Pair { normal: trace(2, 200), ..all(pair(3, 3)) });
    cases.put("15: marks in the reduced trace, which has version 1".into(), short((2, 1)), [15, 0, 0, 0]);
    cases.put("4 at 1: marks in the reduced trace, which has version 2, before 15".into(), short((1, 2)), [4, 1, 0, 0]);
}

/// Every other version of either trace is 1.
fn other_versions(cases: &mut Cases) {
    let others = [0, 3, 4, 255, 256, 257, 258, 512, 513, 514, 65_535].into_iter();
    for (version, other) in others.flat_map(|version| [(version, 1), (version, 2)]) {
        for versions in [(version, other), (other, version)] {
            let words = format!("1: versions {} and {}", versions.0, versions.1);
            cases.put(words, in_versions(versions, pair(3, 3)), [1, 0, 0, 0]);
        }
    }
    for byte in 0..4 {
        let mut normal = in_versions((2, 1), pair(3, 3));
        normal.normal[byte] ^= 1;
        cases.put(format!("1: byte {byte} of the normal trace, of version 2, is another"), normal, [1, 0, 0, 0]);
        let mut reduced = in_versions((1, 2), pair(3, 3));
        reduced.reduced[byte] ^= 1;
        cases.put(format!("1: byte {byte} of the reduced trace, of version 2, is another"), reduced, [1, 0, 0, 0]);
    }
    let mut later = in_versions((1, 3), pair(3, 3));
    later.normal[10] = 16;
    cases.put("4 at 1 of the normal trace before version 3 of the reduced".into(), later, [4, 1, 0, 0]);
}

/// All of them, in the order of the file.
pub fn cases() -> Vec<Directed> {
    let mut cases = Cases::default();
    let groups = [counts, one_damaged, both_damaged, marks, every_mark, other_versions];
    groups.iter().for_each(|group| group(&mut cases));
    cases.0
}

/// The text of vectors/directed_pairs.txt. Stops where the second implementation does not say what is expected.
pub fn text() -> String {
    let mut text =
        String::from("# normal(hex) reduced(hex) number place; then, with the switch off and on, 0 neither, 1 the normal, 2 the reduced\n");
    for Directed { words, pair, told } in cases() {
        let chosen = if told[0] == 0 { [1, 2] } else { [0, 0] };
        let answer = by_plain(&pair);
        assert_eq!(answer, (told, chosen), "{words}");
        text += &format!("# {words}\n{pair} {}\n", answer_text(&answer));
    }
    text
}
