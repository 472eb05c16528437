//! Cases of the writer of traces (02, M-109): as stored, as made at random, and what each implementation says of one.

use std::fmt;

use crate::gear::Answer;
use crate::random::Random;
use crate::{core_told, hex, plain_told, unhex};

/// A call of the writer: the speed and the phase of each second, and the buffer, whose bytes are noise.
#[derive(Clone, Debug, PartialEq, Eq)]
pub struct Case {
    pub numbers: Vec<u16>,
    pub buffer: Vec<u8>,
}

/// The case as a line of vectors/directed_write.txt has it, up to its answer.
impl fmt::Display for Case {
    fn fmt(&self, f: &mut fmt::Formatter) -> fmt::Result {
        let numbers: String = self.numbers.iter().map(|number| format!(" {number}")).collect();
        write!(f, "{}{numbers} {}", self.numbers.len(), self.buffer.len())
    }
}

/// The case and the answer of a line whose first number says how many there are, `each` at a time: vectors/M-109-write.txt counts seconds, which have two
/// numbers, and vectors/directed_write.txt numbers, as theirs can be odd. The line's number is the seed of the buffer's noise.
pub fn read(line: u64, text: &str, each: usize) -> (Case, Answer) {
    let (count, rest) = text.split_once(' ').unwrap();
    let words: Vec<&str> = rest.split(' ').collect();
    let (numbers, rest) = words.split_at(each * count.parse::<usize>().unwrap());
    let [room, number, place, file] = rest else { panic!("line {line}: {rest:?}") };
    let numbers = numbers.iter().map(|word| word.parse().unwrap()).collect();
    let buffer = Random::new(line).bytes(room.parse().unwrap());
    let mut written = buffer.clone();
    let file = unhex(file);
    written[..file.len()].copy_from_slice(&file);
    (Case { numbers, buffer }, ([number.parse().unwrap(), place.parse().unwrap(), 0, 0], written))
}

/// How many bytes the trace of so many numbers has.
pub fn length(numbers: usize) -> usize {
    8 + 2 * numbers
}

/// The answer as a line of vectors/directed_write.txt has it after the case.
pub fn answer_text(case: &Case, (told, written): &Answer) -> String {
    let file = if told[0] == 0 { &written[..length(case.numbers.len())] } else { &[] };
    format!("{} {} {}", told[0], told[1], hex(file))
}

/// What the proved core says, and the buffer after it.
pub fn by_core(case: &Case) -> Answer {
    let mut buffer = case.buffer.clone();
    let told = core_told(ylhovesko::gear::write_numbers(&case.numbers, &mut buffer));
    (told, buffer)
}

/// What the second implementation says, and the buffer after it.
pub fn by_plain(case: &Case) -> Answer {
    let mut buffer = case.buffer.clone();
    let told = plain_told(plain::trace::write(&case.numbers, &mut buffer));
    (told, buffer)
}

/// How many seconds: few, or at a limit or next to it.
fn count(random: &mut Random) -> usize {
    match random.below(512) {
        0 => 2000,
        1 => 1999,
        2 => 2001,
        3 => random.from(2001, 40_000) as usize,
        4 => random.from(1, 2000) as usize,
        5..=20 => 0,
        21..=40 => random.from(250, 260) as usize,
        _ => random.from(1, 16) as usize,
    }
}

/// A speed or a phase that is out of its range, at the first second, the last or any.
fn damage(random: &mut Random, numbers: &mut [u16]) {
    let last = numbers.len() as u64 / 2 - 1;
    let any = random.below(last + 1);
    let second = 2 * random.one_of(&[0, last, any]) as usize;
    if random.once_in(2) {
        let any = random.from(2001, 65_535) as u16;
        numbers[second] = random.one_of(&[2001, 2002, 2048, 34_768, 65_535, any]);
    } else {
        let any = random.from(4, 65_535) as u16;
        numbers[second + 1] = random.one_of(&[4, 5, 8, 12, 16, 255, 256, 257, 259, 512, 32_768, 65_535, any]);
    }
}

/// The room that the trace takes exactly, a little more, or too little.
fn room(random: &mut Random, exact: usize) -> usize {
    match random.below(16) {
        0 => exact - 1,
        1 => random.below(exact as u64) as usize,
        2 => random.one_of(&[0, 7, 8, 9, 11, 12]),
        3..=7 => exact,
        8 => exact + 1,
        _ => exact + random.below(20) as usize,
    }
}

/// The random case of a seed.
pub fn case(seed: u64) -> Case {
    let mut random = Random::new(seed);
    let random = &mut random;
    let mut numbers: Vec<u16> =
        (0..count(random)).flat_map(|_| [random.edged(0, 2000), random.edged(0, 3)]).map(|number| number as u16).collect();
    let faults = random.one_of(&[0, 0, 0, 0, 1, 1, 2, 3]);
    if !numbers.is_empty() {
        (0..faults).for_each(|_| damage(random, &mut numbers));
    }
    if random.once_in(24) {
        numbers.push(random.from(0, 3) as u16);
    } else if random.once_in(24) {
        numbers.pop();
    }
    let room = room(random, length(numbers.len()));
    Case { numbers, buffer: random.bytes(room) }
}
