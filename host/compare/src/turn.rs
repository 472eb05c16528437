//! Cases of turning a draft into a trace of version 1 (02, M-112): as stored, as made at random, and what each implementation says of one.

use std::fmt;

use ylhovesko::draft::write_turned;

use crate::draft::{draft, room, seconds, MISSING};
use crate::gear::Answer;
use crate::random::Random;
use crate::{core_told, hex, plain_told, unhex};

/// A call of turning: the draft, and the buffer, whose bytes are noise.
#[derive(Clone, Debug, PartialEq, Eq)]
pub struct Case {
    pub draft: Vec<u8>,
    pub buffer: Vec<u8>,
}

/// The case as a line of vectors/M-112-turn.txt has it, up to its answer.
impl fmt::Display for Case {
    fn fmt(&self, f: &mut fmt::Formatter) -> fmt::Result {
        write!(f, "{} {}", hex(&self.draft), self.buffer.len())
    }
}

/// The case and the answer of a line of vectors/M-112-turn.txt or vectors/directed_turn.txt. The line's number is the seed of the buffer's noise.
pub fn read(line: u64, text: &str) -> (Case, Answer) {
    let [draft, room, number, at, trace] = text.split(' ').collect::<Vec<_>>()[..] else { panic!("line {line}") };
    let buffer = Random::new(line).bytes(room.parse().unwrap());
    let (mut written, trace) = (buffer.clone(), unhex(trace));
    written[..trace.len()].copy_from_slice(&trace);
    (Case { draft: unhex(draft), buffer }, ([number.parse().unwrap(), at.parse().unwrap(), 0, 0], written))
}

/// The answer as a line of vectors/M-112-turn.txt has it after the case.
pub fn answer_text(case: &Case, (told, written): &Answer) -> String {
    let trace = if told[0] == 0 { &written[..case.draft.len()] } else { &[] };
    format!("{} {} {}", told[0], told[1], hex(trace))
}

/// What the proved core says, and the buffer after it.
pub fn by_core(case: &Case) -> Answer {
    let mut buffer = case.buffer.clone();
    let told = core_told(write_turned(&case.draft, &mut buffer));
    (told, buffer)
}

/// What the second implementation says, and the buffer after it.
pub fn by_plain(case: &Case) -> Answer {
    let mut buffer = case.buffer.clone();
    let told = plain_told(plain::draft::turn(&case.draft, &mut buffer));
    (told, buffer)
}

/// Gives most seconds of a draft a phase: all, all but one, or those that a coin names.
fn with_phases(random: &mut Random, draft: &mut [u8]) {
    let count = seconds(draft).len() as u64;
    let (kind, one) = (random.below(4), random.below(count.max(1)));
    for (at, flags) in (0..).zip(draft[8..].iter_mut().skip(2).step_by(4)) {
        let stays = match kind {
            0 | 1 => false,
            2 => at == one,
            _ => random.once_in(2),
        };
        if *flags & MISSING != 0 && *flags & 3 == 0 && !stays {
            *flags ^= MISSING | random.from(0, 3) as u8;
        }
    }
}

/// The random case of a seed.
pub fn case(seed: u64) -> Case {
    let mut random = Random::new(seed);
    let random = &mut random;
    let mut draft = draft(random);
    if draft.len() >= 8 && !random.once_in(8) {
        with_phases(random, &mut draft);
    }
    let room = room(random, draft.len(), 8008);
    Case { draft, buffer: random.bytes(room) }
}
