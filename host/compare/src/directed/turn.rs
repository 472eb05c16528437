//! Directed cases of turning a draft into a trace of version 1 (02, M-112).

use super::drafts::{draft, is_sound, refused, with_byte, with_speed, KNOWN, USUAL};
use super::gear::row;
use crate::random::Random;
use crate::trace::in_version;
use crate::turn::{answer_text, by_plain, Case};

/// A case, what is to be seen in it, and what 02 says of it: the refusal, or the trace.
pub struct Directed {
    pub words: String,
    pub case: Case,
    pub expected: Result<Vec<u8>, [u32; 2]>,
}

#[derive(Default)]
struct Cases(Vec<Directed>);

/// A draft and so many bytes of room; the noise comes with its line.
fn lent(draft: Vec<u8>, room: usize) -> Case {
    Case { draft, buffer: vec![0; room] }
}

/// A draft with exactly the room that its trace takes.
fn exact(draft: Vec<u8>) -> Case {
    let room = draft.len();
    lent(draft, room)
}

impl Cases {
    fn refused(&mut self, number: u32, at: u32, words: &str, case: Case) {
        self.0.push(Directed { words: format!("{}: {words}", row(number, at)), case, expected: Err([number, at]) });
    }

    /// "Version 1, the same seconds and marks": all but the version is what it was.
    fn turned(&mut self, words: &str, case: Case) {
        let trace = in_version(1, case.draft.clone());
        self.0.push(Directed { words: format!("turned: {words}"), case, expected: Ok(trace) });
    }
}

/// Every phase with every mark, at speeds of which the two bytes differ.
fn seconds(cases: &mut Cases) {
    for phase in ["s", "a", "c", "d"] {
        for marks in ["", "=", "^", "=^"] {
            for speed in [0, 23, 255, 256, 257, 2000] {
                let text = format!("{phase}{speed}{marks}");
                cases.turned(&text, exact(draft(&text)));
            }
        }
    }
    for text in [KNOWN, "s0 s0", "s20= a5^ c300=^ d2000", "d1 c2 a3 s4", "c300*5", "s0 s0= s0^ s0=^ s0"] {
        cases.turned(text, exact(draft(text)));
        cases.turned(&format!("{text}, three bytes of room more"), lent(draft(text), draft(text).len() + 3));
    }
    for count in [255, 256, 257, 512, 1999, 2000] {
        cases.turned(&format!("{count} seconds"), exact(draft(&format!("a5=*{count}"))));
    }
}

/// Every byte as the flags of one of three seconds: with "phase missing" it is open, whatever else the flags have.
fn flags(cases: &mut Cases) {
    for (at, flags) in (1..=3).flat_map(|at| (0..=255).map(move |flags| (at, flags))) {
        let (words, case) = (format!("flags {flags} at second {at}"), exact(with_byte(draft("c300*3"), at, 2, flags)));
        match flags {
            0..16 => cases.turned(&words, case),
            _ if is_sound(flags) => cases.refused(4, at as u32, &format!("open, {words}"), case),
            _ => cases.refused(4, at as u32, &words, case),
        }
    }
}

/// "Also 4 with the first open second", whether it would be mended or not.
fn open(cases: &mut Cases) {
    for (text, at) in [
        ("?0", 1),
        ("?0=^", 1),
        ("s0 ?0 s0", 2),
        ("s0 ?0= s0", 2),
        ("?0 s0 s0", 1),
        ("s0 s0 ?0", 3),
        ("s0 ?0 ?0 s0", 2),
        ("s0 s0 ?0 s0 ?0 s0", 3),
        ("?0 s0 ?0", 1),
        ("a5 ?5^ d5 ?5 s0", 2),
        ("?5*5", 1),
        (USUAL, 5),
    ] {
        cases.refused(4, at, &format!("open: {text}"), exact(draft(text)));
    }
    for at in [1, 257, 2000] {
        let words = format!("second {at} of 2,000 is open");
        cases.refused(4, at, &words, exact(with_byte(draft("s0*2000"), at as usize, 2, 16)));
    }
    cases.refused(4, 1, "all of 2,000 are open", exact(draft("?0*2000")));
    cases.refused(4, 2, "all but the ends of 2,000 are open", exact(draft("s0 ?0*1998 s0")));
}

/// "The earlier of the first faulty and the first open second" (readings).
fn earlier(cases: &mut Cases) {
    let faults: [(&str, usize, u8); 5] =
        [("a speed", 1, 8), ("a phase beside the missing one", 2, 19), ("bit 5", 2, 32), ("bit 6", 2, 64), ("a fourth byte", 3, 255)];
    for (words, byte, value) in faults {
        for (faulty, open) in [(1, 2), (2, 1), (1, 9), (9, 1), (4, 6), (6, 4), (8, 9), (9, 8)] {
            let draft = with_byte(with_byte(draft(KNOWN), open, 2, 16), faulty, byte, value);
            cases.refused(4, faulty.min(open) as u32, &format!("{words} at second {faulty}, second {open} is open"), exact(draft));
        }
        let both = with_byte(with_byte(draft(KNOWN), 5, 2, 24), 5, byte, value);
        cases.refused(4, 5, &format!("{words} at an open second"), exact(both));
    }
    let two = with_speed(with_byte(draft("s0*2000"), 1999, 2, 16), 2000, 2001);
    cases.refused(4, 1999, "second 1,999 is open, 2,000 has a speed of 2,001", exact(two));
    let two = with_speed(with_byte(draft("s0*2000"), 2000, 2, 16), 1999, 2001);
    cases.refused(4, 1999, "second 2,000 is open, 1,999 has a speed of 2,001", exact(two));
}

/// "8 for any output too small": as many bytes as the draft has.
fn room(cases: &mut Cases) {
    for count in [1, 2, 3, 63, 64, 250] {
        let (text, exact) = (format!("c5*{count}"), 8 + 4 * count);
        for room in [exact, exact + 1, exact + 2, exact + 100, 8008] {
            cases.turned(&format!("{count} seconds in {room} bytes"), lent(draft(&text), room));
        }
        for room in [0, 1, 7, 8, 4 * count, exact - 4, exact - 3, exact - 2, exact - 1] {
            cases.refused(8, 0, &format!("{count} seconds in {room} bytes"), lent(draft(&text), room));
        }
    }
    cases.turned("2,000 seconds in 8,009 bytes", lent(draft("c5*2000"), 8009));
    for room in [0, 4008, 8007] {
        cases.refused(8, 0, &format!("2,000 seconds in {room} bytes"), lent(draft("c5*2000"), room));
    }
}

/// 1 to 4, an open second too, before 8.
fn damaged(cases: &mut Cases) {
    for (number, at, words, draft) in refused(KNOWN) {
        cases.refused(number, at, &words, exact(draft));
    }
    for (number, at, words, draft) in refused(KNOWN).into_iter().filter(|(.., draft)| draft.len() <= 52).step_by(5) {
        let length = draft.len();
        cases.refused(number, at, &format!("{words}, no room"), lent(draft.clone(), 0));
        cases.refused(number, at, &format!("{words}, one byte too few"), lent(draft, length.saturating_sub(1)));
    }
    for (text, at) in [("?0", 1), ("s0 ?0 s0", 2), (USUAL, 5)] {
        let length = draft(text).len();
        for room in [0, 8, length - 1] {
            cases.refused(4, at, &format!("open, {room} of {length} bytes: {text}"), lent(draft(text), room));
        }
    }
}

/// All of them, in the order of the file; each buffer's noise has the number of its line there.
pub fn cases() -> Vec<Directed> {
    let mut cases = Cases::default();
    [seconds, flags, open, earlier, room, damaged].iter().for_each(|group| group(&mut cases));
    for (line, directed) in (3..).step_by(2).zip(&mut cases.0) {
        directed.case.buffer = Random::new(line).bytes(directed.case.buffer.len());
    }
    cases.0
}

/// The text of vectors/directed_turn.txt. Stops where the second implementation does not say what is expected.
pub fn text() -> String {
    let mut text = super::head(include_str!("../../../vectors/M-112-turn.txt"));
    for Directed { words, case, expected } in cases() {
        let answer = by_plain(&case);
        let mut buffer = case.buffer.clone();
        let told = expected.map_or_else(
            |[number, at]| [number, at, 0, 0],
            |trace| {
                buffer[..trace.len()].copy_from_slice(&trace);
                [0; 4]
            },
        );
        assert_eq!(answer, (told, buffer), "{words}");
        text += &format!("# {words}\n{case} {}\n", answer_text(&case, &answer));
    }
    text
}
