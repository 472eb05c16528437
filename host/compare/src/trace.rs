//! House files of traces (01, Trace), their versions and marks (02, M-109).

use crate::random::Random;

/// The house file of version 1 of so many seconds, four bytes each.
pub fn house_file(seconds: &[u8]) -> Vec<u8> {
    let count = (seconds.len() / 4) as u16;
    [b"WTR\0", &[1, 0][..], &count.to_le_bytes(), seconds].concat()
}

/// A house file with another version in its head.
pub fn in_version(version: u16, mut trace: Vec<u8>) -> Vec<u8> {
    trace[4..6].copy_from_slice(&version.to_le_bytes());
    trace
}

/// The version in the head, if there is a whole head.
pub fn version(trace: &[u8]) -> Option<u16> {
    (trace.len() >= 8 && trace.starts_with(b"WTR\0")).then(|| u16::from_le_bytes([trace[4], trace[5]]))
}

/// The marks among the flags, which version 1 alone has: "no gear-shift" and "no 1. gear".
pub const MARKS: u8 = 4 | 8;

/// The first second with a mark, from 1 on.
pub fn first_marked(trace: &[u8]) -> Option<u32> {
    let flags = trace.iter().skip(8 + 2).step_by(4);
    (1..).zip(flags).find(|(_, flags)| *flags & MARKS != 0).map(|(second, _)| second)
}

/// A house file whose flags are each put through a change.
pub fn with_flags(mut trace: Vec<u8>, change: impl Fn(u8) -> u8) -> Vec<u8> {
    trace.iter_mut().skip(8 + 2).step_by(4).for_each(|flags| *flags = change(*flags));
    trace
}

/// A house file without its marks.
pub fn unmarked(trace: Vec<u8>) -> Vec<u8> {
    with_flags(trace, |flags| flags & !MARKS)
}

/// A house file of version 2 as one of version 1 that has to be answered alike, under either rule set: what version 1 takes as a mark has to be refused, so
/// each marked second gets a flag that no version knows.
pub fn as_version_1(trace: Vec<u8>) -> Vec<u8> {
    in_version(1, with_flags(trace, |flags| if flags & MARKS == 0 { flags } else { flags | 16 }))
}

/// Either mark, or both, at one second of a house file.
fn mark_one(random: &mut Random, trace: &mut [u8]) {
    let second = random.below((trace.len() as u64 - 8).div_ceil(4).max(1)) as usize;
    if let Some(flags) = trace.get_mut(8 + 4 * second + 2) {
        *flags |= random.one_of(&[4, 8, 12]);
    }
}

/// A house file of version 1 becomes one of another version or stays as it is, and keeps its marks, loses them or has them at one second alone. One that is
/// too short for a head, or whose version is damaged, stays.
pub fn with_version(random: &mut Random, trace: Vec<u8>) -> Vec<u8> {
    if trace.len() < 8 || trace[4..6] != [1, 0] {
        return trace;
    }
    match random.below(32) {
        0..=7 => trace,
        8..=13 => unmarked(trace),
        14..=25 => in_version(2, unmarked(trace)),
        26 | 27 => in_version(2, trace),
        28 => in_version(random.one_of(&[0, 3, 4, 255, 256, 257, 258, 512, 513, 65_535]), trace),
        kind => {
            let mut trace = unmarked(trace);
            mark_one(random, &mut trace);
            in_version(if kind == 29 { 2 } else { 1 }, trace)
        }
    }
}
