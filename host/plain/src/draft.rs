//! Drafts (02, M-112): "a draft trace in which a second's phase may be missing, and nothing else may". Mending one, and turning one into version 1: refusals
//! 1 to 4, "read by version 3", then 8.

use std::ops::Range;

use crate::trace::{file_of, in_fours, sixteen, version, MOST_SPEED, NO_FIRST_GEAR, NO_GEAR_SHIFT, PHASE};
use crate::{at, check, nowhere, Refusal};

/// "The draft form is version 3 of the trace."
const DRAFT: u16 = 3;
/// "A draft with nothing open can be turned into version 1."
const TURNED: u16 = 1;

/// "Bit 4 for 'phase missing'".
const MISSING: u8 = 16;
const MARKS: u8 = NO_GEAR_SHIFT | NO_FIRST_GEAR;

/// One second of a draft that was accepted.
#[derive(Clone, Copy, Debug, PartialEq, Eq)]
struct Second {
    /// In 0.1 km/h.
    speed: u16,
    /// As bits 0-1 have it; nothing where it is missing.
    phase: Option<u8>,
    marks: u8,
}

impl Second {
    /// A second by version 3: "bit 4 for 'phase missing' and then phase bits zero", the marks of version 1, "others zero".
    fn of([low, high, flags, fourth]: [u8; 4]) -> Option<Second> {
        let speed = sixteen(low, high);
        let is_missing = flags & MISSING != 0;
        if speed > MOST_SPEED || flags & !(PHASE | MARKS | MISSING) != 0 || fourth != 0 {
            return None;
        }
        if is_missing && flags & PHASE != 0 {
            return None;
        }
        Some(Second { speed, phase: (!is_missing).then_some(flags & PHASE), marks: flags & MARKS })
    }

    /// Its speed and its flags.
    fn numbers(&self) -> [u16; 2] {
        [self.speed, u16::from(self.phase.unwrap_or(MISSING) | self.marks)]
    }
}

/// The bytes of each second of a draft, or the first of the refusals 1 to 3.
fn seconds_of(draft: &[u8]) -> Result<&[[u8; 4]], Refusal> {
    check(version(draft)? == DRAFT, nowhere(1))?;
    in_fours(draft)
}

/// The house file of these seconds.
fn house_file(version: u16, seconds: &[Second]) -> Vec<u8> {
    file_of(version, &seconds.iter().map(Second::numbers).collect::<Vec<_>>())
}

/// The gap in which a second stands whose phase is missing: the run of all such seconds around it.
fn gap(seconds: &[Second], inside: usize) -> Range<usize> {
    let is_known = |at: &usize| seconds[*at].phase.is_some();
    let start = (0..inside).rev().find(is_known).map_or(0, |left| left + 1);
    let end = (inside..seconds.len()).find(is_known).unwrap_or(seconds.len());
    start..end
}

/// "Where known seconds stand on both sides of a gap with the same phase, and every speed in the gap and those two is equal, the gap takes that phase; any
/// other gap stays."
fn taken(seconds: &[Second], gap: Range<usize>) -> Option<u8> {
    let left = gap.start.checked_sub(1)?;
    let right = gap.end;
    let same_phase = seconds[left].phase == seconds.get(right)?.phase;
    let same_speed = seconds[left..=right].iter().all(|second| second.speed == seconds[left].speed);
    seconds[left].phase.filter(|_| same_phase && same_speed)
}

/// The answer to a draft.
#[derive(Clone, Debug, PartialEq, Eq)]
pub struct Mended {
    /// The mended draft, which "stays version 3" (readings).
    pub draft: Vec<u8>,
    /// "The count and list of seconds changed and the seconds left open, both rising", from 1.
    pub changed: Vec<u16>,
    pub open: Vec<u16>,
}

/// The places, from 1, of those that are so.
fn places<T>(all: &[T], are_so: impl Fn(&T) -> bool) -> Vec<u16> {
    (1..).zip(all).filter(|(_, one)| are_so(one)).map(|(place, _)| place).collect()
}

/// Mends a draft, or gives the first of the refusals 1 to 4. "Every other second comes out unaltered", and "a filled second keeps its own marks" (readings).
///
/// ```
/// let cruise = [b'W', b'T', b'R', 0, 3, 0, 4, 0, 44, 1, 2, 0, 44, 1, 20, 0, 44, 1, 2, 0, 44, 1, 16, 0];
/// let mended = plain::draft::mended(&cruise).unwrap();
/// assert_eq!(mended.draft, [b'W', b'T', b'R', 0, 3, 0, 4, 0, 44, 1, 2, 0, 44, 1, 6, 0, 44, 1, 2, 0, 44, 1, 16, 0]);
/// assert_eq!((mended.changed, mended.open), (vec![2], vec![4]));
/// ```
pub fn mended(draft: &[u8]) -> Result<Mended, Refusal> {
    let read = (1..).zip(seconds_of(draft)?).map(|(place, bytes)| Second::of(*bytes).ok_or(at(4, place)));
    let seconds: Vec<Second> = read.collect::<Result<_, _>>()?;
    let phase = |at: usize| seconds[at].phase.or_else(|| taken(&seconds, gap(&seconds, at)));
    let after: Vec<Second> = (0..seconds.len()).map(|at| Second { phase: phase(at), ..seconds[at] }).collect();
    let both: Vec<(Second, Second)> = seconds.into_iter().zip(after.clone()).collect();
    Ok(Mended {
        draft: house_file(DRAFT, &after),
        changed: places(&both, |(before, after)| before != after),
        open: places(&after, |second| second.phase.is_none()),
    })
}

/// Puts it to the front of what is lent.
fn put<T: Copy>(lent: &mut [T], put: &[T]) {
    lent[..put.len()].copy_from_slice(put);
}

/// Writes the mended draft and the two lists to the front of what is lent, and gives the two counts; or the first of the refusals 1 to 4 and 8, "for any output
/// too small", which "is for this answer" (readings), and all stays as it was lent.
///
/// ```
/// let open = [b'W', b'T', b'R', 0, 3, 0, 1, 0, 0, 0, 16, 0];
/// let mut list = [7; 2];
/// assert_eq!(plain::draft::mend(&open, &mut [7; 12], &mut [], &mut list), Ok([0, 1]));
/// assert_eq!(list, [1, 7]);
/// assert_eq!(plain::draft::mend(&open, &mut [7; 12], &mut [], &mut []).unwrap_err().number, 8);
/// ```
pub fn mend(draft: &[u8], buffer: &mut [u8], changed: &mut [u16], open: &mut [u16]) -> Result<[u32; 2], Refusal> {
    let answer = mended(draft)?;
    let fits = buffer.len() >= answer.draft.len() && changed.len() >= answer.changed.len() && open.len() >= answer.open.len();
    check(fits, nowhere(8))?;
    put(buffer, &answer.draft);
    put(changed, &answer.changed);
    put(open, &answer.open);
    Ok([answer.changed.len() as u32, answer.open.len() as u32])
}

/// A draft turned into "version 1, the same seconds and marks"; or the first of the refusals 1 to 4, "in the turning also 4 with the first open second": it
/// "names the earlier of the first faulty and the first open second" (readings).
///
/// ```
/// let mut stop = [b'W', b'T', b'R', 0, 3, 0, 1, 0, 0, 0, 4, 0];
/// assert_eq!(plain::draft::turned(&stop).unwrap(), [b'W', b'T', b'R', 0, 1, 0, 1, 0, 0, 0, 4, 0]);
/// stop[10] = 16;
/// assert_eq!(plain::draft::turned(&stop).unwrap_err().at, 1);
/// ```
pub fn turned(draft: &[u8]) -> Result<Vec<u8>, Refusal> {
    let known = |bytes: [u8; 4]| Second::of(bytes).filter(|second| second.phase.is_some());
    let read = (1..).zip(seconds_of(draft)?).map(|(place, bytes)| known(*bytes).ok_or(at(4, place)));
    let seconds: Vec<Second> = read.collect::<Result<_, _>>()?;
    Ok(house_file(TURNED, &seconds))
}

/// Writes the turned draft to the front of the buffer; or gives the first of the refusals 1 to 4 and 8, and the buffer stays as it was lent.
pub fn turn(draft: &[u8], buffer: &mut [u8]) -> Result<(), Refusal> {
    let trace = turned(draft)?;
    check(buffer.len() >= trace.len(), nowhere(8))?;
    put(buffer, &trace);
    Ok(())
}

#[cfg(test)]
mod kit {
    use super::*;

    /// A second in short: s, a, c or d for the phase or ? where it is missing, the speed in 0.1 km/h, = for "no gear-shift", ^ for "no 1. gear".
    fn second(short: &str) -> Second {
        let (letter, rest) = short.split_at(1);
        let speed = rest.trim_end_matches(['=', '^']).parse().unwrap();
        let [no_gear_shift, no_first_gear] =
            [('=', NO_GEAR_SHIFT), ('^', NO_FIRST_GEAR)].map(|(mark, flag)| rest.contains(mark) as u8 * flag);
        Second { speed, phase: "sacd".find(letter).map(|phase| phase as u8), marks: no_gear_shift | no_first_gear }
    }

    /// The draft of such seconds.
    pub fn draft(text: &str) -> Vec<u8> {
        house_file(DRAFT, &text.split(' ').map(second).collect::<Vec<_>>())
    }
}

#[cfg(test)]
mod by_hand {
    //! 02's sentences on drafts, each with its example.

    use super::kit::draft;
    use super::*;

    /// A draft, what it is mended to, and the two lists.
    fn mends(text: &str, to: &str, changed: &[u16], open: &[u16]) {
        let mended = mended(&draft(text)).unwrap();
        assert_eq!(mended, Mended { draft: draft(to), changed: changed.to_vec(), open: open.to_vec() }, "{text}");
    }

    fn stays(text: &str, open: &[u16]) {
        mends(text, text, &[], open);
    }

    /// Seconds 587 to 593 of part 1. As document 001's text has it 588 is 2.0 km/h, "so 589 stays open; with 0.0 it is mended; 592 is mended either way"
    /// (readings).
    #[test]
    fn document_001() {
        mends("d20 s20 ?0 s0 s0 ?0 s0", "d20 s20 ?0 s0 s0 s0 s0", &[6], &[3]);
        mends("d20 s0 ?0 s0 s0 ?0 s0", "d20 s0 s0 s0 s0 s0 s0", &[3, 6], &[]);
    }

    #[test]
    fn gaps_between_the_same() {
        for phase in ["s", "a", "c", "d"] {
            let all = |seconds: &str| seconds.replace('p', phase);
            mends(&all("p300 ?300 p300"), &all("p300 p300 p300"), &[2], &[]);
            mends(&all("p300 ?300 ?300 ?300 p300"), &all("p300 p300 p300 p300 p300"), &[2, 3, 4], &[]);
            mends(&all("p2000 ?2000 p2000 ?2000 p2000"), &all("p2000 p2000 p2000 p2000 p2000"), &[2, 4], &[]);
        }
    }

    #[test]
    fn any_other_gap_stays() {
        stays("?0", &[1]);
        stays("?0 ?0 s0", &[1, 2]);
        stays("s0 ?0 ?0", &[2, 3]);
        stays("s0 ?0 a0", &[2]);
        stays("s1 ?0 s0", &[2]);
        stays("s0 ?0 s1", &[2]);
        stays("s0 ?1 s0", &[2]);
        stays("s0 ?0 ?1 ?0 s0", &[2, 3, 4]);
        stays("s0 ?0 ?256 s0", &[2, 3]);
    }

    #[test]
    fn each_gap_by_itself() {
        mends("?0 s0 ?0 s0 ?0 a0 ?0 a0 ?0", "?0 s0 s0 s0 ?0 a0 a0 a0 ?0", &[3, 7], &[1, 5, 9]);
        mends("c5 ?5 c5 ?5 c6 ?6 c6", "c5 c5 c5 ?5 c6 c6 c6", &[2, 6], &[4]);
    }

    #[test]
    fn marks_stay() {
        mends("a5= ?5 ?5^ ?5=^ a5^", "a5= a5 a5^ a5=^ a5^", &[2, 3, 4], &[]);
        stays("a5= ?5=^ d5", &[2]);
    }

    /// The draft with one byte of its only second changed.
    fn with(byte: usize, value: u8) -> Vec<u8> {
        let mut draft = draft("s100");
        draft[8 + byte] = value;
        draft
    }

    fn number(draft: &[u8]) -> [u32; 2] {
        mended(draft).map_or_else(|refusal| [refusal.number, refusal.at], |_| [0; 2])
    }

    #[test]
    fn version_3_alone() {
        for version in 0..=u16::MAX {
            let mut draft = draft("s100");
            draft[4..6].copy_from_slice(&version.to_le_bytes());
            assert_eq!(number(&draft), [u32::from(version != 3), 0], "version {version}");
            assert_eq!(turned(&draft).is_ok(), version == 3, "version {version}");
        }
    }

    #[test]
    fn every_flag() {
        for flags in 0..=u8::MAX {
            let sound = flags < 16 || [16, 20, 24, 28].contains(&flags);
            assert_eq!(number(&with(2, flags)), if sound { [0; 2] } else { [4, 1] }, "flags {flags}");
            assert_eq!(turned(&with(2, flags)).is_ok(), flags < 16, "flags {flags}");
        }
        assert_eq!([with(1, 8), with(3, 1)].map(|draft| number(&draft)), [[4, 1]; 2]);
    }

    #[test]
    fn turned_to_version_1() {
        let mut turned_to = draft("s0= a2000^ c1=^ d0");
        turned_to[4] = 1;
        assert_eq!(turned(&draft("s0= a2000^ c1=^ d0")), Ok(turned_to));
        for (text, at) in [("?0", 1), ("s0 ?0 s0", 2), ("s0 ?0 ?0", 2), ("s0 ?1 s2001", 2), ("s0 s2001 ?1", 2)] {
            assert_eq!(turned(&draft(text)).map_err(|refusal| [refusal.number, refusal.at]), Err([4, at]), "{text}");
        }
    }

    /// The two counts or the refusal's number, and what was lent as it is then.
    type Written = (Result<[u32; 2], u32>, Vec<u8>, [Vec<u16>; 2]);

    /// What is written, with so much room, into buffers full of 7.
    fn lent(draft: &[u8], rooms: [usize; 3]) -> Written {
        let (mut buffer, [mut changed, mut open]) = (vec![7; rooms[0]], [rooms[1], rooms[2]].map(|room| vec![7; room]));
        let told = mend(draft, &mut buffer, &mut changed, &mut open);
        (told.map_err(|refusal| refusal.number), buffer, [changed, open])
    }

    #[test]
    fn outputs_too_small() {
        let draft = draft("s0 ?0 ?0 s0 ?0");
        let (told, buffer, lists) = lent(&draft, [29, 3, 2]);
        assert_eq!((told, &buffer[..28], buffer[28]), (Ok([2, 1]), &mended(&draft).unwrap().draft[..], 7));
        assert_eq!(lists, [vec![2, 3, 7], vec![5, 7]]);
        for rooms in [[27, 2, 1], [28, 1, 1], [28, 2, 0], [0, 0, 0]] {
            assert_eq!(lent(&draft, rooms), (Err(8), vec![7; rooms[0]], [vec![7; rooms[1]], vec![7; rooms[2]]]));
        }
        let mut faulty = draft.clone();
        faulty[27] = 1;
        assert_eq!(lent(&faulty, [0, 0, 0]).0, Err(4));
        assert_eq!(turn(&draft, &mut []).unwrap_err().number, 4);
        assert_eq!(turn(&with(0, 1), &mut [7; 11]).unwrap_err().number, 8);
    }
}

#[cfg(test)]
mod obvious {
    //! The rule as one sentence over three seconds, on every draft of up to seven seconds of six kinds: a second takes a phase where a known second before it
    //! and one after it have that phase, all between them are missing, and all speeds from the one to the other are equal.

    use super::kit::draft;
    use super::*;

    const KINDS: [&str; 6] = ["s0", "s1", "a0", "a1", "?0", "?1="];

    /// The phase of a second that is known, or that it takes by that sentence.
    fn phase(seconds: &[[u8; 4]], at: usize) -> Option<u8> {
        let known = |at: usize| (seconds[at][2] & MISSING == 0).then_some(seconds[at][2] & PHASE);
        let pairs = (0..at).flat_map(|before| (at + 1..seconds.len()).map(move |after| (before, after)));
        let by_pair = |(before, after): (usize, usize)| {
            let none_between = (before + 1..after).all(|between| known(between).is_none());
            let one_speed = (before..=after).all(|second| seconds[second][..2] == seconds[before][..2]);
            known(before).filter(|_| known(before) == known(after) && none_between && one_speed)
        };
        known(at).or_else(|| pairs.into_iter().find_map(by_pair))
    }

    /// It is mended as the sentence says, and so mended nothing is left to change.
    fn assert_as_stated(text: &str) {
        let file = draft(text);
        let (before, answer) = (file[8..].as_chunks::<4>().0, mended(&file).unwrap());
        for (at, second) in answer.draft[8..].as_chunks::<4>().0.iter().enumerate() {
            let flags = phase(before, at).unwrap_or(MISSING) | before[at][2] & MARKS;
            assert_eq!(second, &[before[at][0], before[at][1], flags, 0], "{text}, second {}", at + 1);
        }
        assert_eq!(mended(&answer.draft), Ok(Mended { changed: Vec::new(), ..answer }), "{text}");
    }

    #[test]
    fn every_short_draft() {
        let longer = |drafts: &Vec<String>| Some(drafts.iter().flat_map(|text| KINDS.map(|kind| format!("{text} {kind}"))).collect());
        let by_length = std::iter::successors(Some(KINDS.map(String::from).to_vec()), longer).take(7);
        let all: Vec<String> = by_length.flatten().collect();
        assert_eq!(all.len(), 335_922);
        all.iter().for_each(|text| assert_as_stated(text));
    }
}
