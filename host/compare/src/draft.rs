//! Drafts (02, M-112): house files of version 3, in which phases may be missing, and random ones.

use crate::random::Random;
use crate::trace::{house_file, in_version};

/// "The draft form is version 3 of the trace".
pub const VERSION: u16 = 3;
/// "Bit 4 for 'phase missing'".
pub const MISSING: u8 = 16;

/// The draft of so many seconds, four bytes each.
pub fn draft_of(seconds: &[[u8; 4]]) -> Vec<u8> {
    in_version(VERSION, house_file(seconds.as_flattened()))
}

/// The seconds of a house file.
pub fn seconds(file: &[u8]) -> &[[u8; 4]] {
    file[8..].as_chunks().0
}

/// The places, from 1, of the seconds whose phase is missing.
pub fn missing(draft: &[u8]) -> Vec<u16> {
    (1..).zip(seconds(draft)).filter(|(_, second)| second[2] & MISSING != 0).map(|(place, _)| place).collect()
}

/// How many seconds: few, or at a limit or next to it.
fn count(random: &mut Random) -> usize {
    match random.below(512) {
        0 => 2000,
        1 => 1999,
        2 => 2001,
        3 => random.from(1, 2000) as usize,
        4..=20 => random.from(250, 520) as usize,
        _ => random.from(1, 24) as usize,
    }
}

/// A speed and a phase that go on for some seconds. Often one of the two is that of the run before, so that a gap meets a change of the other alone.
fn next_run(random: &mut Random, [speed, phase]: [u16; 2]) -> [u16; 2] {
    let other_speed = random.edged(0, 2000) as u16;
    let beside = [speed.saturating_sub(1), (speed + 1).min(2000), (speed + 256) % 2001, speed ^ 1];
    let speed = match random.below(8) {
        0..=2 => speed,
        3 => random.one_of(&beside).min(2000),
        _ => other_speed,
    };
    [speed, if random.once_in(2) { phase } else { random.from(0, 3) as u16 }]
}

/// The seconds of a run: how likely a phase is missing, and a mark is set, is the draft's.
fn run(random: &mut Random, [speed, phase]: [u16; 2], [missing, marked]: [u64; 2]) -> Vec<[u8; 4]> {
    let length = random.one_of(&[1, 1, 2, 3, 5, 8, 12]);
    let second = |random: &mut Random| {
        let marks = if random.below(8) < marked { random.one_of(&[4, 8, 12]) } else { 0 };
        let phase = if random.below(8) < missing { MISSING } else { phase as u8 };
        // now and then a speed that differs from its run's in its last bit
        let [low, high] = if random.once_in(32) { speed ^ 1 } else { speed }.min(2000).to_le_bytes();
        [low, high, phase | marks, 0]
    };
    (0..length).map(|_| second(random)).collect()
}

/// Seconds in runs.
fn runs(random: &mut Random, count: usize) -> Vec<[u8; 4]> {
    let likely = [random.one_of(&[0, 1, 2, 4, 6, 8]), random.one_of(&[0, 0, 1, 4])];
    let mut of_run = [random.edged(0, 2000) as u16, random.from(0, 3) as u16];
    let mut seconds = Vec::new();
    while seconds.len() < count {
        of_run = next_run(random, of_run);
        seconds.extend(run(random, of_run, likely));
    }
    seconds.truncate(count);
    seconds
}

/// Seconds of one speed and one phase, which is known at the ends alone; in every other draft one speed differs in its last bit.
fn one_gap(random: &mut Random, count: usize) -> Vec<[u8; 4]> {
    let [low, high] = (random.edged(0, 1999) as u16).to_le_bytes();
    let phase = random.from(0, 3) as u8;
    let mut seconds = vec![[low, high, MISSING, 0]; count];
    seconds[0][2] = phase;
    seconds[count - 1][2] = phase;
    seconds[random.below(count as u64) as usize][0] ^= u8::from(random.once_in(2));
    seconds
}

/// A draft without a fault, but that it may have one second too many.
fn sound(random: &mut Random) -> Vec<u8> {
    let count = count(random);
    draft_of(&if random.once_in(8) { one_gap(random, count) } else { runs(random, count) })
}

/// Another version, mark, count or length.
fn damage_head(random: &mut Random, draft: &mut Vec<u8>) {
    match random.below(8) {
        0..=2 => draft[4..6].copy_from_slice(&random.one_of(&[0_u16, 1, 2, 4, 7, 19, 256, 259, 515, 768, 32_771, 65_535]).to_le_bytes()),
        3 => draft[random.below(4) as usize] ^= 1 << random.below(8),
        4 => draft[6..8].copy_from_slice(&random.one_of(&[0_u16, 1, 2001, 2048, 4096, 32_768, 65_535]).to_le_bytes()),
        5 => draft.truncate(random.one_of(&[0, 3, 7, 8, 9])),
        6 => draft.truncate(draft.len() - random.from(1, 4) as usize),
        _ => draft.extend(vec![0; random.from(1, 8) as usize]),
    }
}

/// A second with a fault, at the first, the last or any.
fn damage_second(random: &mut Random, draft: &mut [u8]) {
    let last = draft.len() / 4 - 3;
    let any = random.below(last as u64 + 1) as usize;
    let second = &mut draft[8 + 4 * random.one_of(&[0, last, any])..][..4];
    match random.below(8) {
        0 | 1 => second[..2].copy_from_slice(&random.one_of(&[2001_u16, 2002, 2048, 4096, 34_768, 65_535]).to_le_bytes()),
        2 | 3 => second[2] = MISSING | second[2] & 12 | random.from(1, 3) as u8,
        4 | 5 => second[2] |= random.one_of(&[32, 64, 128, 224]),
        6 => second[2] = random.word() as u8,
        _ => second[3] = random.one_of(&[1, 16, 128, 255]),
    }
}

/// A random draft: most are sound, others have a fault or more.
pub fn draft(random: &mut Random) -> Vec<u8> {
    let mut draft = sound(random);
    let faults = random.one_of(&[0, 0, 0, 0, 0, 0, 1, 2]);
    (0..faults).for_each(|_| damage_second(random, &mut draft));
    if random.once_in(8) {
        damage_head(random, &mut draft);
    }
    draft
}

/// Room for so many: exactly, too little, more, or as much as any draft could need.
pub fn room(random: &mut Random, exact: usize, most: usize) -> usize {
    match random.below(32) {
        0 => exact.saturating_sub(1),
        1 => random.below(exact as u64 + 1) as usize,
        2 => 0,
        3 => most,
        4..=7 => exact + 1,
        8..=12 => exact + random.below(20) as usize,
        _ => exact,
    }
}
