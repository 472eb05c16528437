//! Cases of the emission sheet: as stored, as made at random, and what each implementation says of one.

use std::fmt;

use plain::bags::{Message, PartResult, TestResult, GASES};
use plain::exact::{exact, ExactPart, ExactTest};
use plain::figure::Figure;
use plain::fraction::Fraction;
use ylhovesko::bags::{Bag, Efficiencies, Ends, Fuel, Gases, Part, Reading, Sheet, Triple, Verdict};

use crate::random::Random;
use crate::{core_told, plain_told, stored, Told, BEFORE_M_108};

/// The outcome, and where it is a result all its figures, in the order of vectors/M-108-bags.txt: each weighted gas with its verdict (0 pass, 1 fail, 2
/// undecided), the fuel, and of each part that the class has the volume and each gas's mass and rate. A fifth gas that the test does not have is nothing.
pub type Answer = (Told, Vec<Option<i128>>);

/// A sheet as a line of vectors/M-108-bags.txt has it, up to its answer.
pub struct Line<'a>(pub &'a Sheet);

impl fmt::Display for Line<'_> {
    fn fmt(&self, f: &mut fmt::Formatter) -> fmt::Result {
        f.write_str(&sheet_text(self.0, GASES))
    }
}

/// Words one after another, as they stand in a line.
fn joined<T: ToString>(words: impl IntoIterator<Item = T>) -> String {
    words.into_iter().map(|word| word.to_string()).collect::<Vec<_>>().join(" ")
}

/// The messages of so many gases.
fn messages_text(bag: Bag, gases: usize) -> String {
    joined(bag.each().iter().take(gases).map(|reading| format!("{} {:08x}", reading.kind, reading.bits)))
}

fn part_text(p: &Part, gases: usize) -> String {
    let pumped = joined([p.pump, p.revolutions, p.barometer, p.depression]);
    let rest = joined([p.humidity, p.saturation, p.distance]);
    let density = joined(p.density.each().into_iter().take(gases));
    format!("{pumped} {} {rest} {density} {} {}", p.temperature, messages_text(p.bag, gases), messages_text(p.air, gases))
}

/// The sheet as a line has it that knows so many gases.
pub fn sheet_text(s: &Sheet, gases: usize) -> String {
    let Sheet { class, count, triple, fuel, limits, efficiencies, parts } = s;
    let test = joined([*class, *count, triple.d, triple.wc, triple.wh, fuel.k, fuel.hc, fuel.co, fuel.co2, fuel.density]);
    let limits = joined(limits.each().into_iter().take(gases));
    let efficiencies = if gases == GASES { format!(" {} {}", efficiencies.methane, efficiencies.ethane) } else { String::new() };
    format!("{test} {limits}{efficiencies} {}", joined(parts.iter().map(|part| part_text(part, gases))))
}

/// How many figures stand in an answer of a weighted gas, of a part's gas, and of the fuel or a volume.
pub const WEIGHTED: usize = 3;
pub const OF_PART: usize = 4;
pub const ENDS: usize = 2;

/// Where a figure's lower end stands in an answer, before its upper end. Parts and gases count from 1.
pub mod place {
    use super::{ENDS, GASES, OF_PART, WEIGHTED};

    pub const FUEL: usize = WEIGHTED * GASES;

    pub fn weighted(gas: u32) -> usize {
        WEIGHTED * (gas as usize - 1)
    }

    /// Of a verdict, which has no ends.
    pub fn verdict(gas: u32) -> usize {
        weighted(gas) + ENDS
    }

    pub fn volume(part: u32) -> usize {
        FUEL + ENDS + (ENDS + OF_PART * GASES) * (part as usize - 1)
    }

    pub fn mass(part: u32, gas: u32) -> usize {
        volume(part) + ENDS + OF_PART * (gas as usize - 1)
    }

    pub fn rate(part: u32, gas: u32) -> usize {
        mass(part, gas) + ENDS
    }
}

/// The sheet and the answer of a line that knows so many gases. One of before M-108 has no cutter, and so no fifth gas.
pub fn read(line: &str, gases: usize) -> (Sheet, Answer) {
    let mut words = line.split(' ');
    let sheet = read_sheet(&mut words, gases);
    match words.next().unwrap() {
        "refused" => {
            let told = [(); 4].map(|()| number(&mut words));
            assert_eq!(words.next(), None, "{line}");
            (sheet, (told, Vec::new()))
        }
        "result" => (sheet, ([0; 4], read_figures(words.map(figure).collect(), gases))),
        other => panic!("neither refused nor result: {other}"),
    }
}

/// The figures of a line that knows so many gases, with nothing for the others.
fn read_figures(figures: Vec<Option<i128>>, gases: usize) -> Vec<Option<i128>> {
    let (weighted, rest) = figures.split_at(WEIGHTED * gases);
    let (fuel, parts) = rest.split_at(ENDS);
    let absent = |each: usize| std::iter::repeat_n(None, each * (GASES - gases));
    let mut all: Vec<_> = weighted.iter().copied().chain(absent(WEIGHTED)).chain(fuel.iter().copied()).collect();
    parts.chunks(ENDS + OF_PART * gases).for_each(|part| all.extend(part.iter().copied().chain(absent(OF_PART))));
    all
}

/// The answer as a line has it after the sheet that knows so many gases.
pub fn answer_text(([number, at, within, side], figures): &Answer, gases: usize) -> String {
    if *number != 0 {
        return format!("refused {number} {at} {within} {side}");
    }
    let plain = |figure: &Option<i128>| figure.map_or("-".into(), |figure| figure.to_string());
    let verdict = |verdict: Option<i128>| verdict.map_or("-", |verdict| VERDICTS[verdict as usize]);
    let (weighted, rest) = figures.split_at(WEIGHTED * GASES);
    let (fuel, parts) = rest.split_at(ENDS);
    let weighted =
        weighted.chunks(WEIGHTED).take(gases).map(|gas| format!("{} {}", joined(gas[..ENDS].iter().map(plain)), verdict(gas[ENDS])));
    let parts = parts.chunks(ENDS + OF_PART * GASES).map(|part| joined(part[..ENDS + OF_PART * gases].iter().map(plain)));
    format!("result {} {} {}", joined(weighted), joined(fuel.iter().map(plain)), joined(parts))
}

/// A file of cases from before M-108, each as it stands there, with what the second implementation says of it.
pub fn answered_anew(text: &str) -> String {
    let anew = |(_, text): (u64, &str)| {
        let sheet = read(text, BEFORE_M_108).0;
        format!("{} {}\n", sheet_text(&sheet, BEFORE_M_108), answer_text(&by_plain(&sheet).0, BEFORE_M_108))
    };
    let head = text.lines().take_while(|line| line.starts_with('#')).map(|line| format!("{line}\n"));
    head.chain(stored(text).map(anew)).collect()
}

/// The verdicts' words, in the order of their numbers in an [`Answer`].
const VERDICTS: [&str; 3] = ["pass", "fail", "undecided"];

/// A number, a verdict's, or nothing where a line has "-".
fn figure(word: &str) -> Option<i128> {
    match VERDICTS.iter().position(|verdict| *verdict == word) {
        Some(verdict) => Some(verdict as i128),
        None => (word != "-").then(|| word.parse().unwrap()),
    }
}

pub(crate) type Words<'a> = std::str::Split<'a, char>;

pub(crate) fn number<T: std::str::FromStr>(words: &mut Words) -> T {
    let word = words.next().expect("the line goes on");
    word.parse().ok().unwrap_or_else(|| panic!("no number: {word}"))
}

/// What a line has of the gases that it knows, and what stands for the others.
fn of_line<T: Copy>(gases: usize, unknown: T, mut each: impl FnMut() -> T) -> [T; GASES] {
    std::array::from_fn(|gas| if gas < gases { each() } else { unknown })
}

fn read_reading(words: &mut Words) -> Reading {
    Reading { kind: number(words), bits: u32::from_str_radix(words.next().unwrap(), 16).unwrap() }
}

fn read_bag(words: &mut Words, gases: usize) -> Bag {
    Bag::of(of_line(gases, Reading::NOT_FITTED, || read_reading(words)))
}

/// A density that field 9 takes, of a gas that the line does not know.
const ANY_DENSITY: u32 = 1;

// the fields of a struct are read in the order in which they are written here
fn read_part(words: &mut Words, gases: usize) -> Part {
    Part {
        pump: number(words),
        revolutions: number(words),
        barometer: number(words),
        depression: number(words),
        temperature: number(words),
        humidity: number(words),
        saturation: number(words),
        distance: number(words),
        density: Gases::of(of_line(gases, ANY_DENSITY, || number(words))),
        bag: read_bag(words, gases),
        air: read_bag(words, gases),
    }
}

fn read_sheet(words: &mut Words, gases: usize) -> Sheet {
    Sheet {
        class: number(words),
        count: number(words),
        triple: Triple { d: number(words), wc: number(words), wh: number(words) },
        fuel: Fuel { k: number(words), hc: number(words), co: number(words), co2: number(words), density: number(words) },
        limits: Gases::of(of_line(gases, 0, || number(words))),
        efficiencies: match gases {
            GASES => Efficiencies { methane: number(words), ethane: number(words) },
            _ => Efficiencies::default(),
        },
        parts: [(); 3].map(|()| read_part(words, gases)),
    }
}

/// A figure's ends, or nothing of a gas that the test does not have.
type Pair = Option<(i128, i128)>;

/// A result as either implementation gives it; a part is its volume, its masses and its rates.
struct Figures {
    weighted: [Pair; GASES],
    verdicts: [Option<i128>; GASES],
    fuel: Pair,
    parts: Vec<(Pair, [Pair; GASES], [Pair; GASES])>,
}

impl Figures {
    /// In the order of [`Answer`].
    fn in_order(self) -> Vec<Option<i128>> {
        let ends = |pair: Pair| [pair.map(|(lower, _)| lower), pair.map(|(_, upper)| upper)];
        let with_verdict = |(pair, verdict): (Pair, Option<i128>)| ends(pair).into_iter().chain([verdict]);
        let mut figures: Vec<_> = self.weighted.into_iter().zip(self.verdicts).flat_map(with_verdict).collect();
        figures.extend(ends(self.fuel));
        for (volume, mass, rate) in self.parts {
            figures.extend(ends(volume));
            figures.extend(mass.into_iter().zip(rate).flat_map(|(mass, rate)| [mass, rate]).flat_map(ends));
        }
        figures
    }
}

/// What the proved core says.
pub fn by_core(sheet: &Sheet) -> Answer {
    told(sheet, ylhovesko::bags::result(*sheet))
}

/// The core's figures, with nothing of a fifth gas that the test does not have: it stands as 0.
fn of_core(gases: Gases<Ends>, has_nmhc: bool) -> [Pair; GASES] {
    assert!(has_nmhc || gases.nmhc == Ends::default(), "the test does not have the fifth gas: {:?}", gases.nmhc);
    let [others @ .., nmhc] = gases.each().map(pair);
    let [hc, co, nox, co2] = others;
    [hc, co, nox, co2, nmhc.filter(|_| has_nmhc)]
}

fn pair(Ends { lower, upper }: Ends) -> Pair {
    Some((lower.into(), upper.into()))
}

/// An answer in the core's types.
pub fn told(sheet: &Sheet, answer: Result<ylhovesko::bags::TestResult, ylhovesko::Refusal>) -> Answer {
    let result = match answer {
        Ok(result) => result,
        Err(refusal) => return (core_told(Err(refusal)), Vec::new()),
    };
    let (parts, rest) = result.parts.split_at(if sheet.class == 3 { 3 } else { 2 });
    assert!(rest.iter().all(|part| *part == Default::default()), "a part that the class does not have");
    let of_core = |gases| of_core(gases, result.has_nmhc);
    let verdicts = result.verdicts.each().map(|verdict| match verdict {
        Verdict::Pass => Some(0),
        Verdict::Fail => Some(1),
        Verdict::Undecided => Some(2),
        Verdict::NoVerdict => None,
    });
    let parts = parts.iter().map(|part| (pair(part.volume), of_core(part.mass), of_core(part.rate))).collect();
    let figures = Figures { weighted: of_core(result.weighted), verdicts, fuel: pair(result.fuel), parts };
    (core_told(Ok(())), figures.in_order())
}

/// What the second implementation has of as many gases as the test has, and nothing of the others.
fn of_plain<T, U>(gases: &[T], of: impl Fn(&T) -> U) -> [Option<U>; GASES] {
    std::array::from_fn(|gas| gases.get(gas).map(&of))
}

/// What the second implementation says, and whether each exact figure lies between its ends and on its verdict's side of the limit.
pub fn by_plain(sheet: &Sheet) -> (Answer, bool) {
    let sheet = plain_sheet(sheet);
    let result = match plain::bags::test(&sheet) {
        Ok(result) => result,
        Err(refusal) => return ((plain_told(Err(refusal)), Vec::new()), true),
    };
    let pair = |figure: &Figure| (figure.lower, figure.upper);
    let verdicts = of_plain(&result.verdicts, |verdict| match verdict {
        plain::bags::Verdict::Pass => 0,
        plain::bags::Verdict::Fail => 1,
        plain::bags::Verdict::Undecided => 2,
    });
    let of_part = |part: &PartResult| (Some(pair(&part.volume)), of_plain(&part.mass, pair), of_plain(&part.rate, pair));
    let parts = result.parts.iter().map(of_part).collect();
    let figures = Figures { weighted: of_plain(&result.weighted, pair), verdicts, fuel: Some(pair(&result.fuel)), parts };
    let exact = exact(&sheet);
    let holds = holds_exact(&result, &exact) && agree_with_exact(&result, &exact, &sheet.limits);
    ((plain_told(Ok(())), figures.in_order()), holds)
}

/// Whether each exact figure lies between its ends.
fn holds_exact(result: &TestResult, exact: &ExactTest) -> bool {
    let between = |figure: &Figure, exact: &Fraction| exact.between(figure.lower, figure.upper);
    let all = |figures: &[Figure], exact: &[Fraction]| {
        figures.len() == exact.len() && figures.iter().zip(exact).all(|(figure, exact)| between(figure, exact))
    };
    let of_part = |(part, exact): (&PartResult, &ExactPart)| {
        let stages = all(&part.concentration, &exact.concentration) && all(&part.mass, &exact.mass) && all(&part.rate, &exact.rate);
        between(&part.volume, &exact.volume) && stages
    };
    let parts = result.parts.len() == exact.parts.len() && result.parts.iter().zip(&exact.parts).all(of_part);
    parts && all(&result.weighted, &exact.weighted) && between(&result.fuel, &exact.fuel)
}

/// Whether each exact figure is at or below its limit where the gas passes, and above it where it fails.
fn agree_with_exact(result: &TestResult, exact: &ExactTest, limits: &[u64; GASES]) -> bool {
    result.verdicts.iter().zip(&exact.weighted).zip(limits).all(|((verdict, exact), limit)| match verdict {
        plain::bags::Verdict::Pass => !exact.is_above((*limit).into()),
        plain::bags::Verdict::Fail => exact.is_above((*limit).into()),
        plain::bags::Verdict::Undecided => true,
    })
}

/// The message as the second implementation takes it. A kind that is none of the four counts as over range, as include/ylhovesko.h says.
pub fn plain_message(reading: Reading) -> Message {
    let x = f32::from_bits(reading.bits);
    match reading.kind {
        0 => Message::Ppm(x),
        1 => Message::Percent(x),
        3 => Message::NotFitted,
        _ => Message::OverRange,
    }
}

fn plain_part(p: &Part) -> plain::bags::Part {
    plain::bags::Part {
        pump: p.pump,
        revolutions: p.revolutions,
        pa: p.barometer,
        pi: p.depression,
        t: p.temperature,
        humidity: p.humidity,
        saturation: p.saturation,
        distance: p.distance,
        density: p.density.each(),
        bag: p.bag.each().map(plain_message),
        air: p.air.each().map(plain_message),
    }
}

/// The sheet as the second implementation takes it.
pub fn plain_sheet(s: &Sheet) -> plain::bags::Sheet {
    plain::bags::Sheet {
        class: s.class,
        count: s.count,
        d: s.triple.d,
        wc: s.triple.wc,
        wh: s.triple.wh,
        k: s.fuel.k,
        f: [s.fuel.hc, s.fuel.co, s.fuel.co2],
        fuel_density: s.fuel.density,
        limits: s.limits.each(),
        methane: s.efficiencies.methane,
        ethane: s.efficiencies.ethane,
        parts: [&s.parts[0], &s.parts[1], &s.parts[2]].map(plain_part),
    }
}

/// The most units that a reading may have.
const MOST: u32 = 16_777_216;

/// A float next to another: one of the three patterns around it.
fn beside(random: &mut Random, x: f32) -> u32 {
    (x.to_bits() + random.from(0, 2)).saturating_sub(1)
}

/// A usable reading of about so many units, as ppm or percent: so many or next to it, where both ends turn, half a unit more or next to that, or any part
/// of a unit more.
fn reading(random: &mut Random, units: u32) -> Reading {
    let kind = u32::from(random.once_in(3));
    let each = [256.0, 2_560_000.0][kind as usize];
    let of = |units: u32, more: f64| ((f64::from(units) + more) / each) as f32;
    let bits = match random.below(16) {
        0 => 0,
        1 => 0x8000_0000,
        2 => random.from(1, 0x7f_ffff),
        3 | 4 => beside(random, of(units, 0.0)),
        5 => beside(random, of(units, 0.5)),
        6..=9 => of(units.min(MOST - 1), random.below(1000) as f64 / 1000.0).to_bits(),
        _ => of(units, 0.0).to_bits(),
    };
    Reading { kind, bits }
}

/// Behind the cutter: some of HC; what leaves nothing without methane, or next to it; or anything.
fn behind_cutter(random: &mut Random, hc: u32, Efficiencies { methane, .. }: Efficiencies) -> Reading {
    let units = match random.below(8) {
        0 | 1 => random.edged(0, MOST),
        2 => ((u64::from(hc) * u64::from(1000 - methane) / 1000) as u32 + random.from(0, 4)).saturating_sub(2).min(MOST),
        _ => random.edged(0, hc),
    };
    reading(random, units)
}

/// The readings of about so many units, and one behind the cutter.
fn filled(random: &mut Random, units: [u32; 4], efficiencies: Efficiencies) -> Bag {
    let cutter = behind_cutter(random, units[0], efficiencies);
    let [hc, co, nox, co2] = units.map(|units| reading(random, units));
    Bag { hc, co, nox, co2, cutter }
}

/// A bag whose G is below Q, next to it on either side, or anything.
fn bag(random: &mut Random, triple: Triple, efficiencies: Efficiencies) -> Bag {
    let q = 2_560_000 * u64::from(triple.d);
    let nox = random.edged(0, MOST);
    let most = random.one_of(&[MOST / 16, MOST / 4, MOST]);
    let [hc, co] = [random.edged(0, most), random.edged(0, most)];
    let rest = u64::from(triple.wc) * u64::from(co) + u64::from(triple.wh) * u64::from(hc);
    let room = (q.saturating_sub(rest) / 10).min(u64::from(MOST)) as u32;
    let co2 = match random.below(8) {
        0 | 1 => (room + random.from(0, 4)).saturating_sub(2).min(MOST),
        2 => random.edged(0, MOST),
        _ => random.edged(0, room),
    };
    filled(random, [hc, co, nox, co2], efficiencies)
}

/// Air that is cleaner than a bag, or as full as any reading.
fn air(random: &mut Random, efficiencies: Efficiencies) -> Bag {
    let most = random.one_of(&[0, 256, 65_536, MOST]);
    let units = [(); 4].map(|()| random.edged(0, most));
    filled(random, units, efficiencies)
}

/// A barometer, a humidity and a saturation pressure: H is at most 30, or next to it, or anything that the ranges have. H is 30 where 6,511 g is
/// 300,000 Pa, and so at a multiple of 6,511 Pa alone.
fn humid(random: &mut Random) -> (u32, u32, u32) {
    let exact = random.once_in(8);
    let barometer = if exact { 6511 * random.from(13, 16) } else { random.edged(80_000, 110_000) };
    let humidity = if exact { random.one_of(&[400, 500, 600, 750, 1000]) } else { random.edged(0, 1000) };
    let vapour = 300_000 * u64::from(barometer) / 6511;
    let most = (vapour / u64::from(humidity.max(1))).min(12_000) as u32;
    let saturation = match random.below(16) {
        0 => random.edged(0, 12_000),
        1..=3 => (most + random.from(0, 2)).saturating_sub(1).min(12_000),
        _ => random.edged(0, most),
    };
    (barometer, humidity, saturation)
}

/// A part that is accepted but for what `bag` and `humid` say, with many of its numbers at or next to a limit.
fn part(random: &mut Random, triple: Triple, efficiencies: Efficiencies) -> Part {
    let pump = random.edged(100, 20_000);
    let (barometer, humidity, saturation) = humid(random);
    Part {
        pump,
        revolutions: random.edged(1, (1_000_000_000 / pump).min(100_000)),
        barometer,
        depression: random.edged(0, 20_000),
        temperature: random.edged(0, 1900) as i32 - 400,
        humidity,
        saturation,
        distance: random.edged(100, 100_000),
        density: Gases::of([(); GASES].map(|()| random.edged(1, 2_100_000))),
        bag: bag(random, triple, efficiencies),
        air: air(random, efficiencies),
    }
}

/// A limit of any kind, most often one that a machine could have.
fn limit(random: &mut Random) -> u64 {
    let most = random.one_of(&[1_000_000_000_000, 10_000_000_000, 10_000_000_000, 10_000_000_000]);
    random.below(most + 1)
}

/// Efficiencies that 19 takes, often at the least distance.
fn efficiencies(random: &mut Random) -> Efficiencies {
    let methane = random.edged(0, 500);
    Efficiencies { methane, ethane: random.edged(methane + 500, 1000) }
}

/// Takes the cutter out of a bag or an air, or out of all; and now and then the fifth gas's density, which is refused all the same.
fn take_cutter(random: &mut Random, s: &mut Sheet) {
    let not_fitted = Reading { bits: random.word() as u32, ..Reading::NOT_FITTED };
    let sides = s.parts.iter_mut().flat_map(|part| [&mut part.bag, &mut part.air]);
    let taken = random.below(12) as usize;
    sides.enumerate().filter(|(place, _)| *place == taken || taken >= 6).for_each(|(_, side)| side.cutter = not_fitted);
    if random.once_in(32) {
        s.parts.iter_mut().for_each(|part| part.density.nmhc = 0);
    }
}

fn sheet(random: &mut Random) -> Sheet {
    let class = random.from(1, 3);
    let mut tenths = || if random.once_in(3) { 10 } else { random.edged(0, 20) };
    let [wc, wh] = [tenths(), tenths()];
    let triple = Triple { d: random.edged(100, 200), wc, wh };
    let mut factor = || random.edged(0, 1000);
    let [hc, co, co2] = [factor(), factor(), factor()];
    let efficiencies = efficiencies(random);
    Sheet {
        class,
        count: if class == 3 { 3 } else { 2 },
        triple,
        fuel: Fuel { k: random.edged(1, 1500), hc, co, co2, density: random.edged(600, 1000) },
        limits: Gases::of([(); GASES].map(|()| limit(random))),
        efficiencies,
        parts: [(); 3].map(|()| part(random, triple, efficiencies)),
    }
}

/// A reading that is not usable, or only just: each class of floats with each sign, the limit from both sides, and kinds that no table has.
fn odd_reading(random: &mut Random) -> Reading {
    let kind = u32::from(random.once_in(2));
    let most = [65_536.0, 6.5536][kind as usize];
    let sign = if random.once_in(3) { 0x8000_0000 } else { 0 };
    let bits = match random.below(10) {
        0 => 0x7f80_0000,
        1 => random.from(0x7f80_0001, 0x7fff_ffff),
        2 => random.from(0, 0x7f_ffff),
        3 => random.one_of(&[0, 1, 0x7f_ffff, 0x80_0000, 0x7f7f_ffff, 0x7f80_0001, 0x7fc0_0000, 0x7fff_ffff]),
        4 | 5 => (f32::to_bits(most) + random.from(0, 8)).saturating_sub(4),
        6 => beside(random, most + 0.5 / [256.0, 2_560_000.0][kind as usize]),
        7 => beside(random, [65_537.0, 6.5537][kind as usize]),
        8 => {
            // also with the low bits of "not fitted"
            let kind = random.one_of(&[2, 3, 4, 5, 255, 256, u32::MAX, 256 + 3, 65_536 + 3, (1 << 31) + 3]);
            return Reading { kind, bits: random.word() as u32 };
        }
        _ => return Reading { kind: random.below(5) as u32, bits: random.word() as u32 },
    };
    Reading { kind, bits: bits | sign }
}

/// A value at or next to an end of its range, or anything.
fn odd(random: &mut Random, least: u32, most: u32) -> u32 {
    match random.below(6) {
        0 => least.wrapping_sub(1),
        1 => least,
        2 => most,
        3 | 4 => most + 1,
        _ => random.word() as u32,
    }
}

/// One of five, by its number from 1 on.
fn nth<T>(each: [&mut T; GASES], gas: u32) -> &mut T {
    each.into_iter().nth(gas as usize - 1).unwrap_or_else(|| panic!("there is no gas {gas}"))
}

/// What a gas has, by its number from 1 on.
pub fn of_gas<T>(Gases { hc, co, nox, co2, nmhc }: &mut Gases<T>, gas: u32) -> &mut T {
    nth([hc, co, nox, co2, nmhc], gas)
}

/// What is read of a gas, by its number from 1 on; of the fifth it is what is read behind the cutter.
pub fn reading_of(Bag { hc, co, nox, co2, cutter }: &mut Bag, gas: u32) -> &mut Reading {
    nth([hc, co, nox, co2, cutter], gas)
}

/// The number of one of the gases.
fn any_gas(random: &mut Random) -> u32 {
    random.from(1, GASES as u32)
}

fn damage_part(random: &mut Random, p: &mut Part) {
    match random.below(15) {
        0 => p.pump = odd(random, 100, 20_000),
        1 => p.revolutions = odd(random, 1, 100_000),
        2 => p.revolutions = (1_000_000_000 / p.pump.max(1)).saturating_add(random.from(0, 1)),
        3 => p.barometer = odd(random, 80_000, 110_000),
        4 => p.depression = odd(random, 0, 20_000),
        5 => p.temperature = random.one_of(&[-401, -400, 1500, 1501, i32::MIN, i32::MAX]),
        6 => p.humidity = odd(random, 0, 1000),
        7 => p.saturation = odd(random, 0, 12_000),
        8 => p.distance = odd(random, 100, 100_000),
        9 => *of_gas(&mut p.density, any_gas(random)) = odd(random, 1, 2_100_000),
        10 | 11 => *reading_of(&mut p.bag, any_gas(random)) = odd_reading(random),
        12 | 13 => *reading_of(&mut p.air, any_gas(random)) = odd_reading(random),
        _ => {
            let gas = any_gas(random);
            [&mut p.bag, &mut p.air].into_iter().for_each(|side| *reading_of(side, gas) = odd_reading(random));
        }
    }
}

/// Efficiencies out of their range, also with the low bits of others, too close, or exchanged.
fn odd_efficiencies(random: &mut Random, Efficiencies { methane, ethane }: Efficiencies) -> Efficiencies {
    match random.below(8) {
        0 => Efficiencies { methane: odd(random, 0, 1000), ethane },
        1 => Efficiencies { methane, ethane: odd(random, 0, 1000) },
        2 => Efficiencies { methane: methane | (1 << random.one_of(&[16, 31])), ethane },
        3 => Efficiencies { methane, ethane: ethane | (1 << random.one_of(&[16, 31])) },
        4 | 5 => Efficiencies { methane, ethane: methane.saturating_add(499) },
        6 => Efficiencies { methane: random.edged(0, 1000), ethane: random.edged(0, 1000) },
        _ => Efficiencies { methane: ethane, ethane: methane },
    }
}

fn damage(random: &mut Random, s: &mut Sheet) {
    match random.below(20) {
        0 => s.class = random.one_of(&[0, 1, 2, 3, 4, u32::MAX]),
        1 => s.count = random.one_of(&[0, 1, 2, 3, 4, u32::MAX]),
        2 => s.triple.d = odd(random, 100, 200),
        3 => s.triple.wc = odd(random, 0, 20),
        4 => s.triple.wh = odd(random, 0, 20),
        5 => s.fuel.k = odd(random, 1, 1500),
        6 => s.fuel.density = odd(random, 600, 1000),
        7 => {
            let factor = odd(random, 0, 1000);
            let factors = [&mut s.fuel.hc, &mut s.fuel.co, &mut s.fuel.co2];
            *factors.into_iter().nth(random.below(3) as usize).unwrap() = factor;
        }
        8 => *of_gas(&mut s.limits, any_gas(random)) = random.one_of(&[1_000_000_000_000, 1_000_000_000_001, u64::MAX]),
        9 | 10 => s.efficiencies = odd_efficiencies(random, s.efficiencies),
        _ => {
            let part = random.below(3) as usize;
            damage_part(random, &mut s.parts[part]);
        }
    }
}

/// Puts limits at and next to the ends of the weighted gases, so that all three verdicts turn there.
fn close_limits(random: &mut Random, s: &mut Sheet) {
    if let Ok(result) = plain::bags::test(&plain_sheet(s)) {
        for (gas, weighted) in (1..).zip(&result.weighted) {
            let end = random.one_of(&[weighted.lower, weighted.upper]) + i128::from(random.from(0, 2)) - 1;
            *of_gas(&mut s.limits, gas) = end.clamp(0, 1_000_000_000_000) as u64;
        }
    }
}

/// The random sheet of a seed.
pub fn case(seed: u64) -> Sheet {
    let mut random = Random::new(seed);
    let random = &mut random;
    let mut sheet = sheet(random);
    if random.once_in(6) {
        take_cutter(random, &mut sheet);
    }
    if random.once_in(4) {
        close_limits(random, &mut sheet);
    }
    if random.once_in(4) {
        let times = random.from(1, 3);
        (0..times).for_each(|_| damage(random, &mut sheet));
    }
    sheet
}
