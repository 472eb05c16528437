//! A pair of traces: as stored, and what each implementation says of one.

use std::fmt;

use crate::{core_told, hex, plain_told, unhex, Told};

#[derive(Clone, Debug, PartialEq, Eq)]
pub struct Pair {
    pub normal: Vec<u8>,
    pub reduced: Vec<u8>,
}

/// The outcome, and which trace is handed back with the switch off and on: 0 the empty first part of the normal one, 1 the normal one itself, 2
/// the reduced one itself.
pub type Answer = (Told, [u32; 2]);

/// The pair as a line of vectors/directed_pairs.txt has it, up to its answer.
impl fmt::Display for Pair {
    fn fmt(&self, f: &mut fmt::Formatter) -> fmt::Result {
        write!(f, "{} {}", hex(&self.normal), hex(&self.reduced))
    }
}

/// The pair and the answer of a line of vectors/directed_pairs.txt.
pub fn read(text: &str) -> (Pair, Answer) {
    let words: Vec<&str> = text.split(' ').collect();
    let [normal, reduced, rest @ ..] = words.as_slice() else { panic!("no pair: {text}") };
    let n: Vec<u32> = rest.iter().map(|word| word.parse().unwrap()).collect();
    let [number, place, off, on] = n[..] else { panic!("no answer: {text}") };
    (Pair { normal: unhex(normal), reduced: unhex(reduced) }, ([number, place, 0, 0], [off, on]))
}

/// The pair of a line of vectors/M-109-pair.txt, the switch there, the outcome, and which trace is handed back, as in [`Answer`].
pub fn read_with_switch(text: &str) -> (Pair, usize, Told, u32) {
    let [normal, reduced, switch, number, place, chosen] = text.split(' ').collect::<Vec<_>>()[..] else { panic!("no pair: {text}") };
    let chosen = ["-", "normal", "reduced"].iter().position(|word| *word == chosen).unwrap();
    let told = [number.parse().unwrap(), place.parse().unwrap(), 0, 0];
    (Pair { normal: unhex(normal), reduced: unhex(reduced) }, switch.parse().unwrap(), told, chosen as u32)
}

/// The answer as a line of vectors/directed_pairs.txt has it after the pair.
pub fn answer_text(([number, place, ..], [off, on]): &Answer) -> String {
    format!("{number} {place} {off} {on}")
}

/// Which one of the lent traces is handed back, by its place in memory.
fn which(pair: &Pair, chosen: &[u8]) -> u32 {
    let is = |lent: &[u8]| std::ptr::eq(chosen, lent);
    match chosen {
        _ if is(&pair.normal[..0]) => 0,
        _ if is(&pair.normal) => 1,
        _ if is(&pair.reduced) => 2,
        _ => panic!("a trace that was not lent: {pair}"),
    }
}

/// What the proved core says.
pub fn by_core(pair: &Pair) -> Answer {
    let told = core_told(ylhovesko::gear::judge_pair(&pair.normal, &pair.reduced));
    (told, [false, true].map(|switch| which(pair, ylhovesko::gear::choose(&pair.normal, &pair.reduced, switch))))
}

/// What the second implementation says.
pub fn by_plain(pair: &Pair) -> Answer {
    let told = plain_told(plain::trace::judge_pair(&pair.normal, &pair.reduced));
    (told, [false, true].map(|switch| which(pair, plain::trace::choose(&pair.normal, &pair.reduced, switch))))
}
