//! Cases of the lot sheet: as stored, as made at random, and what each implementation says of one.

use std::fmt;

use plain::bags::GASES;
use plain::figure::Figure;
use ylhovesko::bags::{Ends, Gases};
use ylhovesko::lot::{lot, GasSheet, Record};
use ylhovesko::Refusal;

use crate::bags::{number, of_gas, Words};
use crate::random::Random;
use crate::{core_told, plain_told, Told};

/// The farthest from zero that an end may be either way, in micrograms/km.
pub const FARTHEST: i64 = 10_000_000_000_000;

/// A list of result records.
#[derive(Clone, Debug, PartialEq, Eq)]
pub struct Case {
    pub records: Vec<Record>,
}

/// The case as a line of vectors/M-108-lots.txt has it, up to its answer.
impl fmt::Display for Case {
    fn fmt(&self, f: &mut fmt::Formatter) -> fmt::Result {
        f.write_str(&self.text(GASES))
    }
}

impl Case {
    /// The case as a line has it that knows so many gases.
    pub fn text(&self, gases: usize) -> String {
        let records = self.records.iter().map(|record| format!(" {}", record_text(record, gases)));
        self.records.len().to_string() + &records.collect::<String>()
    }
}

/// A record, its fifth gas after the number that says whether it has one. Where it has none "-" stands for what is 0 and no verdict, as an accepted test has it.
fn record_text(record: &Record, gases: usize) -> String {
    let gas = |(Ends { lower, upper }, verdict)| format!("{lower} {upper} {verdict}");
    let each = record.weighted.each().into_iter().zip(record.verdicts.each());
    let mut words: Vec<String> = each.take(gases).map(gas).collect();
    if gases == GASES {
        let none = record.has_nmhc == 0 && (record.weighted.nmhc, record.verdicts.nmhc) == (Ends::default(), 0);
        let fifth = if none { "- - -" } else { &words[4] };
        words[4] = format!("{} {fifth}", record.has_nmhc);
    }
    words.join(" ")
}

/// A gas of the sheet: how many passed, failed and were undecided, the sums of lower and of upper ends, and where a record has the gas the mean's ends and the
/// index of the record with the greatest upper end.
#[derive(Clone, Copy, Debug, PartialEq, Eq)]
pub struct OfGas {
    pub counts: [usize; 3],
    pub sum: [i128; 2],
    pub mean: Option<[i128; 2]>,
    pub worst: Option<usize>,
}

/// The outcome, and where it is none of the refusals each gas of the sheet, in the paper's order.
pub type Answer = (Told, Vec<OfGas>);

fn read_record(words: &mut Words, gases: usize) -> Record {
    let mut record = Record::default();
    for gas in 1..=gases as u32 {
        if gas == GASES as u32 {
            record.has_nmhc = number(words);
        }
        let (lower, upper) = (if_any(words).unwrap_or(0), if_any(words).unwrap_or(0));
        *of_gas(&mut record.weighted, gas) = Ends { lower, upper };
        *of_gas(&mut record.verdicts, gas) = if_any(words).unwrap_or(0);
    }
    record
}

/// A number, or nothing where a line has "-" for it.
fn if_any<T: std::str::FromStr>(words: &mut Words) -> Option<T> {
    let word = words.next().expect("the line goes on");
    (word != "-").then(|| word.parse().ok().unwrap_or_else(|| panic!("no number: {word}")))
}

fn read_gas(words: &mut Words) -> OfGas {
    let counts = [(); 3].map(|()| number(words));
    let sum = [(); 2].map(|()| number(words));
    let (lower, upper) = (if_any(words), if_any(words));
    OfGas { counts, sum, mean: lower.zip(upper).map(|(lower, upper)| [lower, upper]), worst: if_any(words) }
}

/// What a sheet has of a gas that no record has.
pub const OF_NONE: OfGas = OfGas { counts: [0; 3], sum: [0; 2], mean: None, worst: None };

/// The case and the answer of a line that knows so many gases. The records of one from before M-108 do not have the fifth.
pub fn read(text: &str, gases: usize) -> (Case, Answer) {
    let words = &mut text.split(' ');
    let count: usize = number(words);
    let records = (0..count).map(|_| read_record(words, gases)).collect();
    let answer = match words.next() {
        Some("refused") => ([number(words), if_any(words).unwrap_or(0), 0, 0], Vec::new()),
        Some("result") => ([0; 4], (0..GASES).map(|gas| if gas < gases { read_gas(words) } else { OF_NONE }).collect()),
        other => panic!("neither refused nor result: {other:?}"),
    };
    assert_eq!(words.next(), None, "{text}");
    (Case { records }, answer)
}

/// A figure's ends, or as many "-" where there is no figure.
fn ends_text(ends: Option<[i128; 2]>) -> String {
    ends.map_or("- -".into(), |[lower, upper]| format!("{lower} {upper}"))
}

fn gas_text(OfGas { counts: [passed, failed, undecided], sum, mean, worst }: &OfGas) -> String {
    let worst = worst.map_or("-".into(), |index| index.to_string());
    format!("{passed} {failed} {undecided} {} {} {worst}", ends_text(Some(*sum)), ends_text(*mean))
}

/// The answer as a line of vectors/directed_lot.txt has it after the case.
pub fn answer_text((told, gases): &Answer) -> String {
    match told {
        [0, ..] => format!("result {}", gases.iter().map(gas_text).collect::<Vec<_>>().join(" ")),
        [18, ..] => "refused 18 -".into(),
        [number, index, ..] => format!("refused {number} {index}"),
    }
}

/// What gives the sheet of lent records: the core's function, or another of its form.
pub type LotOf = fn(&[Record]) -> Result<Gases<GasSheet>, Refusal>;

/// What such a function says of a list, of which a copy is lent: "the records keep their contents".
pub fn lent(lot: LotOf, case: &Case) -> Answer {
    let lent = case.records.clone();
    let told = lot(&lent);
    assert!(lent == case.records, "the records are not as they were lent: {case}");
    let both = |Ends { lower, upper }: Ends| [lower.into(), upper.into()];
    let of = |GasSheet { passed, failed, undecided, sum, mean }: GasSheet| OfGas {
        counts: [passed, failed, undecided].map(|count| count as usize),
        sum: both(sum),
        mean: mean.map(|mean| both(mean.ends)),
        worst: mean.map(|mean| mean.worst),
    };
    match told {
        Ok(gases) => (core_told(Ok(())), gases.each().map(of).to_vec()),
        Err(refusal) => (core_told(Err(refusal)), Vec::new()),
    }
}

/// What the proved core says.
pub fn by_core(case: &Case) -> Answer {
    lent(lot, case)
}

/// The record as the second implementation takes it.
pub fn plain_record(record: &Record) -> plain::lot::Record {
    let figure = |Ends { lower, upper }: Ends| Figure { lower: lower.into(), upper: upper.into() };
    plain::lot::Record { weighted: record.weighted.each().map(figure), verdicts: record.verdicts.each(), has_nmhc: record.has_nmhc != 0 }
}

/// What the second implementation says.
pub fn by_plain(case: &Case) -> Answer {
    let both = |Figure { lower, upper }: Figure| [lower, upper];
    let of = |gas: plain::lot::GasSheet| OfGas {
        counts: [gas.passed, gas.failed, gas.undecided],
        sum: both(gas.sum),
        mean: gas.mean.map(both),
        worst: gas.worst,
    };
    let records: Vec<plain::lot::Record> = case.records.iter().map(plain_record).collect();
    match plain::lot::sheet(&records) {
        Ok(gases) => (plain_told(Ok(())), gases.map(of).to_vec()),
        Err(refusal) => (plain_told(Err(refusal)), Vec::new()),
    }
}

/// Whether the mean's ends are those of the sum over so many records, each rounded outward by less than one.
fn rounded_outward([lower, upper]: [i128; 2], sum: [i128; 2], records: i128) -> bool {
    let outward = [sum[0] - lower * records, upper * records - sum[1]];
    outward.iter().all(|outward| (0..records).contains(outward))
}

/// Whether a gas of an accepted list has what 02 says of any: "the three counts add up to the number of records" that have it; a mean and an index where there is
/// such a record; and the index is that of the first of the greatest upper ends, in the whole list.
fn adds_up(uppers: &[Option<i64>], gas: &OfGas) -> bool {
    let OfGas { counts, sum, mean, worst } = *gas;
    let having = uppers.iter().flatten().count();
    // a record without the gas is below every other
    let first_greatest = |worst: usize| {
        let (before, after) = uppers.split_at(worst);
        uppers[worst].is_some() && before.iter().all(|upper| *upper < uppers[worst]) && after.iter().all(|upper| *upper <= uppers[worst])
    };
    let figures = match (mean, worst) {
        (Some(mean), Some(worst)) => rounded_outward(mean, sum, having as i128) && first_greatest(worst),
        (None, None) => having == 0 && sum == [0; 2],
        _ => false,
    };
    counts.iter().sum::<usize>() == having && figures
}

/// Whether each gas of an accepted list has what 02 says of any list.
pub fn all_add_up(case: &Case, gases: &[OfGas]) -> bool {
    let upper = |record: &Record, gas: usize| (gas + 1 < GASES || record.has_nmhc != 0).then_some(record.weighted.each()[gas].upper);
    let uppers = |gas: usize| case.records.iter().map(|record| upper(record, gas)).collect::<Vec<_>>();
    gases.len() == GASES && gases.iter().enumerate().all(|(place, gas)| adds_up(&uppers(place), gas))
}

/// The number of records: few, as many as a list may have or one off, any number up to those, or far too many.
fn count(random: &mut Random) -> u32 {
    match random.below(16) {
        0 => 0,
        1..=9 => random.from(1, 12),
        10 => random.from(13, 254),
        11..=14 => random.from(255, 257),
        _ => random.one_of(&[258, 300]),
    }
}

/// What the records of a list have of a gas: upper ends from one number to another, which are often close or the same, so that several have the greatest; lower
/// ends at most so far below them; and now and then the same verdict.
struct Band {
    least: i64,
    most: i64,
    width: i64,
    verdict: Option<u32>,
}

/// From least to most, both possible.
fn signed(random: &mut Random, least: i64, most: i64) -> i64 {
    least + random.below(least.abs_diff(most) + 1) as i64
}

/// A band at either farthest end, about zero, below it, at the figures of a machine, or anywhere.
fn band(random: &mut Random) -> Band {
    let spread = random.one_of(&[0, 1, 3, 50, 1_000_000, 2 * FARTHEST]);
    let least = match random.below(8) {
        0 => -FARTHEST,
        1 => FARTHEST - spread,
        2 => -1 - spread,
        3 | 4 => signed(random, -9, 9),
        5 => signed(random, 0, 1_000_000_000),
        _ => signed(random, -FARTHEST, FARTHEST),
    };
    let least = least.max(-FARTHEST);
    let verdict = random.once_in(8).then(|| verdict(random));
    Band { least, most: (least + spread).min(FARTHEST), width: random.one_of(&[0, 1, 3, 300, 30_000, 2 * FARTHEST]), verdict }
}

fn weighted(random: &mut Random, band: &Band) -> Ends {
    let upper = signed(random, band.least, band.most);
    let lower = if random.once_in(3) { upper } else { signed(random, (upper - band.width).max(-FARTHEST), upper) };
    Ends { lower, upper }
}

/// One of the three verdicts; or now and then a number that is none, of which some have the low bits of one.
fn verdict(random: &mut Random) -> u32 {
    let of_three = random.from(1, 3);
    match random.below(32) {
        0 => random.one_of(&[0, 4, u32::MAX]),
        1 => {
            let bits = random.one_of(&[2, 8, 16, 31]);
            of_three + (random.from(1, u32::MAX >> bits) << bits)
        }
        _ => of_three,
    }
}

/// Of how many records out of 4 the fifth gas is left out: of none, of all, or of some.
fn left_out(random: &mut Random) -> u64 {
    random.one_of(&[0, 0, 1, 2, 3, 4])
}

/// Whether a record has the fifth gas. A 1 says so, and now and then another number, of which some have no low bits.
fn has_nmhc(random: &mut Random, left_out: u64) -> u32 {
    match random.below(4) {
        place if place < left_out => 0,
        _ if random.once_in(8) => random.one_of(&[2, 3, 256, 65_536, 1 << 31, u32::MAX]),
        _ => 1,
    }
}

/// A record without the fifth gas has 0 for it, or anything that is not to be read.
fn record(random: &mut Random, bands: &[Band; GASES], left_out: u64) -> Record {
    let weighted = Gases::of(bands.each_ref().map(|band| weighted(random, band)));
    let verdicts = Gases::of(bands.each_ref().map(|band| band.verdict.unwrap_or_else(|| verdict(random))));
    let mut record = Record { weighted, verdicts, has_nmhc: has_nmhc(random, left_out) };
    if record.has_nmhc == 0 && random.once_in(2) {
        (record.weighted.nmhc, record.verdicts.nmhc) = (Ends::default(), 0);
    }
    record
}

/// Ends at fault: a lower one above its upper one, one that is beyond by one, by far or by any number, both; and some that are only just not.
fn odd(random: &mut Random, Ends { lower, upper }: Ends) -> Ends {
    let beyond = FARTHEST + random.one_of(&[1, 1, 2, 1 << 32]);
    let ends = match random.below(12) {
        0 | 1 => [upper.saturating_add(1), upper],
        2 => [upper, lower],
        3 => [lower, beyond],
        4 => [-beyond, upper],
        5 => [beyond; 2],
        6 => [-beyond; 2],
        7 => [lower, i64::MAX],
        8 => [i64::MIN, upper],
        9 => random.one_of(&[[i64::MIN, i64::MAX], [i64::MAX, i64::MIN], [i64::MIN; 2], [i64::MAX; 2]]),
        10 => [random.word() as i64, random.word() as i64],
        _ => random.one_of(&[[-FARTHEST, FARTHEST], [-FARTHEST; 2], [FARTHEST; 2]]),
    };
    Ends { lower: ends[0], upper: ends[1] }
}

/// Puts a fault into a gas of the first record, of the last, or of any.
fn damage(random: &mut Random, records: &mut [Record]) {
    let last = records.len() as u32 - 1;
    let index = match random.below(4) {
        0 => 0,
        1 => last,
        _ => random.from(0, last),
    };
    let ends = of_gas(&mut records[index as usize].weighted, random.from(1, GASES as u32));
    *ends = odd(random, *ends);
}

/// The random case of a seed.
pub fn case(seed: u64) -> Case {
    let mut random = Random::new(seed);
    let random = &mut random;
    let bands = [(); GASES].map(|()| band(random));
    let left_out = left_out(random);
    let mut records: Vec<Record> = (0..count(random)).map(|_| record(random, &bands, left_out)).collect();
    if !records.is_empty() && random.once_in(3) {
        let times = random.from(1, 4);
        (0..times).for_each(|_| damage(random, &mut records));
    }
    Case { records }
}
