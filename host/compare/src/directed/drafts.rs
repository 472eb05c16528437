//! What the directed cases of mending and of turning share (02, M-112): drafts in short, and every draft that both refuse with 1 to 4, "read by version 3".

use std::collections::BTreeSet;

use super::live::times;
use crate::draft::{draft_of, MISSING};
use crate::trace::in_version;

/// A second in short: s, a, c or d for its phase, ? where it is missing; its speed in 0.1 km/h; = for "no gear-shift" and ^ for "no 1. gear".
fn second(short: &str) -> [u8; 4] {
    let phase = "sacd".find(&short[..1]).map_or(MISSING, |phase| phase as u8);
    let mark = |sign: char, bit: u8| if short.contains(sign) { bit } else { 0 };
    let speed: u16 = short[1..].trim_end_matches(['=', '^']).parse().unwrap();
    let [low, high] = speed.to_le_bytes();
    [low, high, phase | mark('=', 4) | mark('^', 8), 0]
}

/// The draft of such seconds, s0*5 for five of them.
pub(super) fn draft(text: &str) -> Vec<u8> {
    draft_of(&times(text).map(second).collect::<Vec<_>>())
}

/// A draft with one of the four bytes of a second, which counts from 1, changed.
pub(super) fn with_byte(mut draft: Vec<u8>, second: usize, byte: usize, value: u8) -> Vec<u8> {
    draft[4 + 4 * second + byte] = value;
    draft
}

/// A draft with another speed at a second, which counts from 1.
pub(super) fn with_speed(draft: Vec<u8>, second: usize, speed: u16) -> Vec<u8> {
    let [low, high] = speed.to_le_bytes();
    with_byte(with_byte(draft, second, 0, low), second, 1, high)
}

/// A draft that is refused: number, place, what is to be seen, and its bytes.
pub(super) type Refused = (u32, u32, String, Vec<u8>);

/// A phase missing that would be mended, a mark, and nothing left open.
pub(super) const USUAL: &str = "s0 a100 a100= c200 ?200 c200 d50 d50 s0";

/// The same with every phase known, which can be turned.
pub(super) const KNOWN: &str = "s0 a100 a100= c200 c200^ c200 d50 d50 s0";

/// Versions by both of their bytes, and what has one bit more or fewer than 3.
fn versions() -> BTreeSet<u16> {
    const BYTES: [u16; 7] = [0, 1, 2, 3, 4, 7, 255];
    let pairs = BYTES.into_iter().flat_map(|high| BYTES.map(|low| 256 * high + low));
    pairs.chain((0..16).map(|bit| 3 ^ 1 << bit)).filter(|version| *version != 3).collect()
}

/// Refusal 1: "under 8 bytes, mark, zero byte or version wrong".
fn heads(of: &str) -> Vec<Refused> {
    let other = |version: u16| (1, 0, format!("version {version}"), in_version(version, draft(of)));
    let changed = |(byte, bit): (usize, u8)| {
        let mut draft = draft(of);
        draft[byte] ^= 1 << bit;
        (1, 0, format!("bit {bit} of byte {byte} is another"), draft)
    };
    let short = |length: usize| (1, 0, format!("{length} bytes"), draft(of)[..length].to_vec());
    let bits = (0..4).flat_map(|byte| (0..8).map(move |bit| (byte, bit)));
    versions().into_iter().map(other).chain(bits.map(changed)).chain((0..8).map(short)).collect()
}

/// A draft whose head says another count.
fn counted(count: u16, draft: Vec<u8>) -> Vec<u8> {
    [&draft[..6], &count.to_le_bytes(), &draft[8..]].concat()
}

/// Refusals 2 and 3: "count not 1 to 2,000", "length not 8 + 4 x count".
fn lengths(of: &str) -> Vec<Refused> {
    let mut all: Vec<Refused> = Vec::new();
    for count in [0, 2001, 2002, 2009, 2048, 4096, 32_768, 65_535] {
        all.push((2, 0, format!("count {count}, nine seconds"), counted(count, draft(of))));
    }
    all.push((2, 0, "no second".to_string(), counted(0, draft(of)[..8].to_vec())));
    all.push((2, 0, "2,001 seconds".to_string(), draft("s0*2001")));
    for count in [1, 8, 10, 265, 2000] {
        all.push((3, 0, format!("count {count}, nine seconds"), counted(count, draft(of))));
    }
    for length in [8, 12, 39, 40, 41, 43] {
        all.push((3, 0, format!("{length} of 44 bytes"), draft(of)[..length].to_vec()));
    }
    for more in [1, 2, 3, 4, 8] {
        all.push((3, 0, format!("{more} bytes too many"), [draft(of), vec![0; more]].concat()));
    }
    for length in [8007, 8009] {
        let mut long = draft("s0*2000");
        long.resize(length, 0);
        all.push((3, 0, format!("2,000 seconds in {length} bytes"), long));
    }
    all
}

/// Flags that version 3 does not have: "phase missing" beside a phase, and bits 5-7.
pub(super) fn is_sound(flags: u8) -> bool {
    flags < 16 || [16, 20, 24, 28].contains(&flags)
}

/// Refusal 4, with the second: its speed or its fourth byte, where a phase stands and where it is missing.
fn faults(of: &str) -> Vec<Refused> {
    let mut all: Vec<Refused> = Vec::new();
    for (at, flags) in [1, 5, 9].into_iter().flat_map(|at| [2, MISSING].map(|flags| (at, flags))) {
        let base = || with_byte(draft(of), at, 2, flags);
        for speed in [2001, 2002, 2048, 4096, 32_768, 34_768, 65_535] {
            all.push((4, at as u32, format!("speed {speed} beside flags {flags}"), with_speed(base(), at, speed)));
        }
        for value in [1, 2, 16, 128, 255] {
            all.push((4, at as u32, format!("fourth byte {value} beside flags {flags}"), with_byte(base(), at, 3, value)));
        }
    }
    let ends = [1, 2000];
    all.extend(ends.map(|at| (4, at, format!("second {at} of 2,000"), with_byte(draft("s0*2000"), at as usize, 3, 1))));
    all
}

/// The same of its flags.
fn faulty_flags(of: &str) -> Vec<Refused> {
    let unsound = (0..=255).filter(|flags| !is_sound(*flags));
    let at_each = unsound.flat_map(|flags| [1, 5, 9].map(|at| (at, flags)));
    at_each.map(|(at, flags)| (4, at as u32, format!("flags {flags}"), with_byte(draft(of), at, 2, flags))).collect()
}

/// "Lowest number first; within a number the first place" (01): a fault before another one.
fn in_order(of: &str) -> Vec<Refused> {
    let mut all: Vec<Refused> = Vec::new();
    let kinds: [(&str, usize, u8); 5] =
        [("speed", 1, 8), ("a phase beside the missing one", 2, 17), ("bit 5", 2, 32), ("bit 7", 2, 128), ("the fourth byte", 3, 1)];
    for (first, second) in kinds.iter().flat_map(|first| kinds.map(|second| (first, second))) {
        let draft = with_byte(with_byte(draft(of), 3, first.1, first.2), 6, second.1, second.2);
        all.push((4, 3, format!("{} before {} at second 6", first.0, second.0), draft));
    }
    let faulty = || with_byte(draft(of), 2, 3, 1);
    let cut = || faulty()[..43].to_vec();
    all.push((1, 0, "version 1, with the flags of version 3".to_string(), in_version(1, draft(of))));
    all.push((1, 0, "version 2, count 0".to_string(), in_version(2, counted(0, draft(of)))));
    all.push((1, 0, "version 4, one byte too few".to_string(), in_version(4, draft(of)[..43].to_vec())));
    all.push((1, 0, "version 1, count 2,001, one byte too few, a faulty second".to_string(), in_version(1, counted(2001, cut()))));
    all.push((2, 0, "count 0, one byte too few, a faulty second".to_string(), counted(0, cut())));
    all.push((2, 0, "count 2,001, a faulty second".to_string(), counted(2001, faulty())));
    all.push((2, 0, "2,001 seconds, the last faulty".to_string(), with_byte(draft("s0*2001"), 2001, 3, 1)));
    all.push((3, 0, "one byte too few, a faulty second".to_string(), cut()));
    all.push((3, 0, "one byte too many, a faulty second".to_string(), [faulty(), vec![0]].concat()));
    all
}

/// All of them, in a draft of nine seconds that is taken without the fault.
pub(super) fn refused(of: &str) -> Vec<Refused> {
    [heads, lengths, faults, faulty_flags, in_order].iter().flat_map(|group| group(of)).collect()
}
