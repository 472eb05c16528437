//! Directed cases of mending (02, M-112).

use ylhovesko::draft::Mended;

use super::drafts::{draft, is_sound, refused, with_byte, with_speed, USUAL};
use super::gear::row;
use crate::draft::{missing, seconds};
use crate::mend::{answer_text, by_plain, Answer, Case, Lent};
use crate::random::Random;

/// A case, what is to be seen in it, and what 02 says of it: the refusal, or all that is written.
pub struct Directed {
    pub words: String,
    pub case: Case,
    pub expected: Result<Mended, [u32; 2]>,
}

#[derive(Default)]
struct Cases(Vec<Directed>);

/// A draft with so much room; the noise comes with its line.
fn lent(draft: Vec<u8>, [buffer, changed, open]: [usize; 3]) -> Case {
    Case { draft, lent: Lent { buffer: vec![0; buffer], changed: vec![0; changed], open: vec![0; open] } }
}

/// What is answered where a draft is mended to another one: the seconds that are missing in the one alone were changed, and those in the other are open.
fn mended_to(before: &[u8], after: Vec<u8>) -> Mended {
    let open = missing(&after);
    let changed = missing(before).into_iter().filter(|second| !open.contains(second)).collect();
    Mended { bytes: after, changed, open }
}

impl Cases {
    fn refused(&mut self, number: u32, at: u32, words: &str, case: Case) {
        self.0.push(Directed { words: format!("{}: {words}", row(number, at)), case, expected: Err([number, at]) });
    }

    /// A draft and what it is mended to, both worked out by hand, with so much room more than its answer takes.
    fn written(&mut self, words: String, before: Vec<u8>, after: Vec<u8>, more: [usize; 3]) {
        let mended = mended_to(&before, after);
        let exact = [mended.bytes.len(), mended.changed.len(), mended.open.len()];
        let case = lent(before, std::array::from_fn(|at| exact[at] + more[at]));
        self.0.push(Directed { words, case, expected: Ok(mended) });
    }

    /// The same with exactly the room that it takes.
    fn mends(&mut self, words: &str, before: &str, after: &str) {
        self.written(format!("{words}: {before} gives {after}"), draft(before), draft(after), [0; 3]);
    }

    /// A draft that comes out as it is.
    fn stays(&mut self, words: &str, text: &str) {
        self.written(format!("{words}: {text} stays"), draft(text), draft(text), [0; 3]);
    }
}

/// Document 001, part 1, seconds 585 to 600: "as crawled, second 588 reads 2.0, so 589 stays open; with 0.0 it is mended; 592 is mended either way" (readings).
fn document_001(cases: &mut Cases) {
    let before = |speed: u16| format!("d93 d55 d20 s{speed} ?0 s0 s0 ?0 s0 s0 ?0 s0 s0 s0 ?0 s0");
    cases.mends("589 stays", &before(20), "d93 d55 d20 s20 ?0 s0 s0 s0 s0 s0 s0 s0 s0 s0 s0 s0");
    cases.mends("589 is mended", &before(0), "d93 d55 d20 s0 s0 s0 s0 s0 s0 s0 s0 s0 s0 s0 s0 s0");
    cases.stays("the start of part 1", "?0 ?0 ?0 ?0 s0 s0 s0");
    cases.stays("seconds 67 to 74", "d56 ?20 ?0 ?0 ?0 ?0 ?0 a0");
}

const PHASES: [&str; 4] = ["s", "a", "c", "d"];

/// "With the same phase": every pair of phases beside gaps of one to ten seconds, and beside standing still.
fn phases(cases: &mut Cases) {
    for (left, right) in PHASES.iter().flat_map(|left| PHASES.map(|right| (left, right))) {
        for (speed, length) in [(300, 1), (300, 2), (300, 3), (300, 10), (0, 1), (0, 2)] {
            let before = format!("{left}{speed} ?{speed}*{length} {right}{speed}");
            match left == &right {
                true => cases.mends("one phase", &before, &format!("{left}{speed}*{}", length + 2)),
                false => cases.stays("two phases", &before),
            }
        }
    }
    for phase in PHASES {
        for speed in [0, 1, 23, 255, 256, 257, 511, 512, 1999, 2000] {
            cases.mends("one speed", &format!("{phase}{speed} ?{speed} {phase}{speed}"), &format!("{phase}{speed}*3"));
        }
    }
}

/// "Every speed in the gap and those two is equal": one of them differs, in any place.
fn speeds(cases: &mut Cases) {
    for (phase, speed) in [("c", 1000), ("s", 0), ("a", 2000)] {
        for length in [1, 2, 3, 5] {
            let whole = draft(&format!("{phase}{speed} ?{speed}*{length} {phase}{speed}"));
            for (at, other) in (1..=length + 2).flat_map(|at| [speed ^ 1, speed ^ 256, speed ^ 512, 2000 - speed].map(|other| (at, other)))
            {
                if other != speed && other <= 2000 {
                    let words = format!("a gap of {length} at {speed}, second {at} at {other}: it stays");
                    cases.written(words, with_speed(whole.clone(), at, other), with_speed(whole.clone(), at, other), [0; 3]);
                }
            }
        }
    }
    for text in
        ["c9 ?10 c9", "c10 ?9 ?11 c10", "c10 ?10 ?10 c11", "c11 ?10 ?10 c10", "c10 ?11 ?11 c12", "c10 ?11 ?12 c13", "c10 ?11 ?11 c10"]
    {
        cases.stays("speeds beside one another", text);
    }
    for text in
        ["c0 ?0 ?256 c0", "c1 ?257 c1", "c256 ?511 c256", "c10 ?20 c30", "c10 ?12 ?8 c10", "c10 ?10 ?9 ?10 c10", "c9 ?10 ?10 ?10 c11"]
    {
        cases.stays("speeds that differ", text);
    }
}

/// "Where known seconds stand on both sides": at an end of the draft there is none.
fn ends(cases: &mut Cases) {
    for length in [1, 2, 3, 10] {
        for phase in PHASES {
            cases.stays("at the start", &format!("?300*{length} {phase}300"));
            cases.stays("at the end", &format!("{phase}300 ?300*{length}"));
            cases.stays("at both ends", &format!("?300*{length} {phase}300 ?300*{length}"));
        }
        cases.stays("a whole draft", &format!("?300*{length}"));
        cases.stays("a whole draft at 0", &format!("?0*{length}"));
        let inside = format!("?300*{length} c300 ?300*{length} c300 ?300*{length}");
        cases.mends("at both ends and inside", &inside, &format!("?300*{length} c300*{} ?300*{length}", length + 2));
    }
    cases.stays("one second", "s0");
    cases.stays("two seconds", "s0 ?0");
    cases.stays("two seconds", "?0 s0");
}

/// "Any other gap stays": each gap by itself, whatever becomes of the ones beside it.
fn several(cases: &mut Cases) {
    cases.mends("both", "c5 ?5 c5 ?5 c5", "c5*5");
    cases.mends("the first", "c5 ?5 c5 ?5 d5", "c5*3 ?5 d5");
    cases.mends("the second", "d5 ?5 c5 ?5 c5", "d5 ?5 c5*3");
    cases.mends("the first, by its speeds", "c5 ?5 c5 ?6 c5", "c5*3 ?6 c5");
    cases.mends("the second, by its speeds", "c5 ?6 c5 ?5 c5", "c5 ?6 c5*3");
    cases.stays("neither, of one phase around both", "c5 ?5 d5 ?5 c5");
    cases.stays("neither, of the phases crosswise", "c5 ?5 d5 ?5 c5 ?5 d5");
    cases.stays("neither: a second of another speed between", "c5 ?5 c6 ?5 c5");
    cases.mends("all of three, each its own phase", "s0 ?0 s0 a5 ?5 ?5 a5 d9 ?9 d9", "s0*3 a5*4 d9*3");
    cases.mends("the middle one", "?5 c5 ?5 ?5 c5 ?6 c5 ?5", "?5 c5*4 ?6 c5 ?5");
    cases.mends("long and short", "c5 ?5*9 c5 ?5 d5 ?5*9 d5", "c5*11 ?5 d5*11");
    cases.mends("the same phase at two speeds", "c5 ?5 c5 c7 ?7 c7 ?7 c5", "c5*3 c7*3 ?7 c5");
    cases.mends("other phases between", "s0 a5 ?5 a5 c5 ?5 d5 ?5 d5 s0", "s0 a5*3 c5 ?5 d5*3 s0");
    cases.stays("nothing is missing", "s0 a5 a10= c10 c10^ d5 s0=^");
}

/// "The same seconds and marks": those of a second that is filled stay, and those beside it play no part.
fn marks(cases: &mut Cases) {
    const MARKS: [&str; 4] = ["", "=", "^", "=^"];
    for (left, right) in MARKS.iter().flat_map(|left| MARKS.map(|right| (left, right))) {
        for inside in MARKS {
            let before = format!("a50{left} ?50{inside} a50{right}");
            cases.mends("marks", &before, &before.replace('?', "a"));
            cases.stays("marks, two phases", &format!("a50{left} ?50{inside} d50{right}"));
        }
    }
    for inside in MARKS {
        let before = format!("s0=^ ?0{inside} ?0 ?0{inside} s0");
        cases.mends("marks in a gap of three", &before, &before.replace('?', "s"));
        cases.stays("a mark at the end", &format!("s0 ?0{inside}"));
        cases.stays("a mark alone", &format!("?0{inside}"));
    }
    cases.mends("each its own", "d7 ?7= ?7^ ?7=^ ?7 d7", "d7 d7= d7^ d7=^ d7 d7");
}

/// Every byte as the flags of one of three seconds in cruise: refused, of a known phase, or missing.
fn flags(cases: &mut Cases) {
    for (at, flags) in (1..=3).flat_map(|at| (0..=255).map(move |flags| (at, flags))) {
        let before = with_byte(draft("c300*3"), at, 2, flags);
        let words = format!("flags {flags} at second {at}");
        if !is_sound(flags) {
            cases.refused(4, at as u32, &words, lent(before, [20, 1, 1]));
        } else if flags & 16 != 0 && at == 2 {
            cases.written(format!("{words} are filled"), before.clone(), with_byte(before, at, 2, flags ^ 16 | 2), [0; 3]);
        } else {
            cases.written(format!("{words} stay"), before.clone(), before, [0; 3]);
        }
    }
}

/// Entries of more than 8 bits, and up to 2,000 seconds.
fn long(cases: &mut Cases) {
    for count in [255, 256, 257, 258] {
        cases.mends("all but the ends", &format!("c1000 ?1000*{} c1000", count - 2), &format!("c1000*{count}"));
        cases.stays("all but the ends, of two phases", &format!("c1000 ?1000*{} d1000", count - 2));
        cases.stays("all but the first", &format!("c1000 ?1000*{}", count - 1));
        cases.stays("all but the last", &format!("?1000*{} c1000", count - 1));
        cases.stays("all", &format!("?1000*{count}"));
    }
    cases.mends("over second 256", "a0*250 ?0*12 a0*3 ?0 c0", "a0*265 ?0 c0");
    cases.mends("all but the ends", "c1000 ?1000*1997 c1000", "c1000*1999");
    cases.mends("all but the ends", "c1000 ?1000*1998 c1000", "c1000*2000");
    cases.stays("another speed at the last of 1,998", "c1000 ?1000*1997 ?1001 c1000");
    cases.stays("another speed behind 1,998", "c1000 ?1000*1998 c1001");
    cases.stays("all", "?1000*2000");
    cases.stays("none", "c1000*2000");
    for (words, two, after) in [("second", "d2000 ?2000", "d2000*1999 ?2000"), ("first", "?2000 d2000", "?2000 d2000*1999")] {
        let every_other = draft(&vec![two; 1000].join(" "));
        cases.written(format!("the {words} of each two of 2,000"), every_other, draft(after), [0; 3]);
    }
    cases.mends("seconds 2 and 1,999 of 2,000", "s0 ?0 s0*1996 ?0 s0", "s0*2000");
    cases.stays("seconds 1 and 2,000", "?0 s0*1998 ?0");
}

/// Two seconds changed and three left open, of 13.
const ROOMY: (&str, &str) = ("?5 s0 ?0 ?0 s0 a5 ?5 c5 c5 c5 d5 s0 ?0", "?5 s0*4 a5 ?5 c5*3 d5 s0 ?0");

/// "8 for any output too small", "for this answer" (readings): the bytes of the draft, and an entry for each second that is named.
fn rooms(cases: &mut Cases) {
    let (before, after) = (draft(ROOMY.0), draft(ROOMY.1));
    for more in [
        [0, 0, 0],
        [1, 0, 0],
        [0, 1, 0],
        [0, 0, 1],
        [3, 2, 1],
        [100, 50, 50],
        [7948, 1998, 1997],
        [196, 254, 253],
        [0, 1998, 0],
        [0, 0, 1997],
    ] {
        cases.written(format!("room for {more:?} more than it takes"), before.clone(), after.clone(), more);
    }
    for buffer in [0, 1, 7, 8, 12, 52, 56, 57, 58, 59] {
        cases.refused(8, 0, &format!("{buffer} of 60 bytes"), lent(before.clone(), [buffer, 2, 3]));
        cases.refused(8, 0, &format!("{buffer} of 60 bytes, lists for all"), lent(before.clone(), [buffer, 2000, 2000]));
    }
    for (changed, open) in [(0, 3), (1, 3), (2, 2), (2, 0), (1, 2), (0, 0), (0, 5), (5, 0), (1, 4), (3, 2), (2000, 2), (1, 2000), (4, 1)] {
        cases.refused(8, 0, &format!("{changed} of 2 and {open} of 3 entries"), lent(before.clone(), [60, changed, open]));
        cases.refused(8, 0, &format!("{changed} of 2 and {open} of 3 entries, 59 bytes"), lent(before.clone(), [59, changed, open]));
        cases.refused(8, 0, &format!("{changed} of 2 and {open} of 3 entries, many bytes"), lent(before.clone(), [8008, changed, open]));
    }
    for (words, before, after) in
        [("none missing", "s0 a5 c5", "s0 a5 c5"), ("none open", "s0 ?0 s0", "s0*3"), ("none changed", "?0 s0", "?0 s0")]
    {
        for more in [[0, 0, 0], [0, 2, 2]] {
            cases.written(format!("{words}, room for {more:?} more than it takes"), draft(before), draft(after), more);
        }
        let (bytes, lists) = (draft(before).len(), mended_to(&draft(before), draft(after)));
        let exact = [lists.changed.len(), lists.open.len()];
        cases.refused(8, 0, &format!("{words}, one byte too few"), lent(draft(before), [bytes - 1, exact[0], exact[1]]));
        if exact != [0, 0] {
            cases.refused(8, 0, &format!("{words}, one entry too few"), lent(draft(before), [bytes, 0, 0]));
        }
    }
}

/// Rooms of the longest drafts.
fn long_rooms(cases: &mut Cases) {
    let (open, changed) = (draft("?0*2000"), draft("s0 ?0*1998 s0"));
    for room in [0, 255, 1999] {
        cases.refused(8, 0, &format!("2,000 open, room for {room}"), lent(open.clone(), [8008, 2000, room]));
    }
    for room in [0, 256, 1997] {
        cases.refused(8, 0, &format!("1,998 changed, room for {room}"), lent(changed.clone(), [8008, room, 2000]));
    }
    for room in [0, 8007] {
        cases.refused(8, 0, &format!("2,000 seconds in {room} bytes"), lent(open.clone(), [room, 0, 2000]));
    }
    cases.written("2,000 open, a little more room".to_string(), open.clone(), open, [1, 1, 1]);
    cases.written("1,998 changed, a little more room".to_string(), changed, draft("s0*2000"), [1, 1, 1]);
}

/// 1 to 4, also "then 8" (the order of the table): with room, with too little and with none.
fn damaged(cases: &mut Cases) {
    for (number, at, words, draft) in refused(USUAL) {
        let length = draft.len();
        cases.refused(number, at, &words, lent(draft, [length, 1, 1]));
    }
    for (number, at, words, draft) in refused(USUAL).into_iter().filter(|(.., draft)| draft.len() <= 52).step_by(5) {
        let length = draft.len();
        cases.refused(number, at, &format!("{words}, no room"), lent(draft.clone(), [0, 0, 0]));
        cases.refused(number, at, &format!("{words}, one byte too few"), lent(draft.clone(), [length.saturating_sub(1), 2, 2]));
        cases.refused(number, at, &format!("{words}, no room in the lists"), lent(draft, [length, 0, 0]));
    }
    let last = with_byte(draft("s0 ?0*1999"), 2000, 3, 1);
    cases.refused(4, 2000, "the last of 2,000 seconds, no room", lent(last, [0, 0, 0]));
}

/// "Running it on its own result changes nothing": what the cases before were mended to.
fn again(cases: &mut Cases) {
    let mended = |directed: &Directed| directed.expected.clone().ok().filter(|mended| !mended.changed.is_empty());
    let results: Vec<Vec<u8>> =
        cases.0.iter().filter_map(mended).map(|mended| mended.bytes).filter(|bytes| seconds(bytes).len() <= 20).collect();
    for bytes in results {
        cases.written("what was mended, once more".to_string(), bytes.clone(), bytes, [0; 3]);
    }
}

/// All of them, in the order of the file; the noise of what is lent has the number of its line there.
pub fn cases() -> Vec<Directed> {
    let mut cases = Cases::default();
    let groups = [document_001, phases, speeds, ends, several, marks, again, flags, long, rooms, long_rooms, damaged];
    groups.iter().for_each(|group| group(&mut cases));
    for (line, directed) in (3..).step_by(2).zip(&mut cases.0) {
        directed.case.lent = Lent::noise(&mut Random::new(line), directed.case.lent.rooms());
    }
    cases.0
}

/// The text of vectors/directed_mend.txt. Stops where the second implementation does not say what is expected.
pub fn text() -> String {
    let mut text = super::head(include_str!("../../../vectors/M-112-mend.txt"));
    for Directed { words, case, expected } in cases() {
        let answer = by_plain(&case);
        let by_hand = match expected {
            Ok(mended) => Answer::written(&case, &mended),
            Err([number, at]) => Answer::refused(&case, number, at),
        };
        assert_eq!(answer, by_hand, "{words}");
        text += &format!("# {words}\n{case} {}\n", answer_text(&case, &answer));
    }
    text
}
