//! Directed cases of the emission sheet.

use ylhovesko::bags::{Bag, Efficiencies, Fuel, Gases, Part, Reading, Sheet, Triple};

use super::{two_ends, without_methane};
use crate::bags::{answer_text, by_plain, place, reading_of, Line};
use crate::Told;

/// A sheet, what is to be seen in it, and what 01 or 02 says of it: the refusal, and the figures that are known, each by its place in the answer. Of a gas that
/// the test does not have there is none.
pub struct Directed {
    pub words: String,
    pub sheet: Sheet,
    pub told: Told,
    pub figures: Vec<(usize, Option<i128>)>,
}

/// What is read of each gas; of the fifth it is HC behind the cutter.
const GASES: [&str; 5] = ["HC", "CO", "NOx", "CO2", "the cutter"];
const SIDES: [&str; 2] = ["bag", "air"];
const MOST_LIMIT: u64 = 1_000_000_000_000;

/// No two parts are alike, so that one taken for another is seen.
fn part(place: u32) -> Part {
    let more = place as f32;
    Part {
        pump: 2500 + 100 * place,
        revolutions: 20_000 + 1000 * place,
        barometer: 101_325 - 250 * place,
        depression: 1200 + 50 * place,
        temperature: 250 - 30 * place as i32,
        humidity: 450 + 20 * place,
        saturation: 3169 - 100 * place,
        distance: 4000 + 2000 * place,
        density: Gases { hc: 577_000, co: 1_160_000, nox: 1_910_000, co2: 1_830_000, nmhc: 579_000 },
        bag: Bag {
            hc: Reading::ppm(31.5 + more),
            co: Reading::ppm(812.25 - 8.0 * more),
            nox: Reading::ppm(18.125 + more),
            co2: Reading::percent(0.875 + 0.125 * more),
            cutter: Reading::ppm(7.75 - more),
        },
        air: Bag {
            hc: Reading::ppm(3.5),
            co: Reading::ppm(2.25),
            nox: Reading::ppm(0.125),
            co2: Reading::percent(0.039_062_5),
            cutter: Reading::ppm(2.5),
        },
    }
}

fn usual() -> Sheet {
    Sheet {
        class: 3,
        count: 3,
        triple: Triple { d: 134, wc: 10, wh: 10 },
        fuel: Fuel { k: 1155, hc: 866, co: 429, co2: 273, density: 750 },
        limits: Gases { hc: 1_000_000, co: 5_500_000, nox: 300_000, co2: 100_000_000, nmhc: 200_000 },
        efficiencies: Efficiencies { methane: 80, ethane: 970 },
        parts: [part(1), part(2), part(3)],
    }
}

pub(super) fn of_part(sheet: &mut Sheet, place: u32) -> &mut Part {
    &mut sheet.parts[place as usize - 1]
}

pub(super) fn reading(sheet: &mut Sheet, [place, gas, side]: [u32; 3]) -> &mut Reading {
    let part = of_part(sheet, place);
    reading_of(if side == 1 { &mut part.bag } else { &mut part.air }, gas)
}

pub(super) fn reading_words([place, gas, side]: [u32; 3]) -> String {
    format!("{} of {} in part {place}", SIDES[side as usize - 1], GASES[gas as usize - 1])
}

/// Every reading of a sheet in 01's order: part, gas, bag before air.
pub(super) fn readings() -> Vec<[u32; 3]> {
    let mut all = Vec::new();
    for place in 1..=3 {
        for gas in 1..=5 {
            all.extend([[place, gas, 1], [place, gas, 2]]);
        }
    }
    all
}

/// A row of the table, and the numbers of its place.
fn row([number, at, within, side]: Told) -> String {
    let place: Vec<String> = match number {
        10 | 19 => vec![],
        11 => vec![at.to_string(), within.to_string()],
        12 => vec![at.to_string(), within.to_string(), side.to_string()],
        _ => vec![at.to_string()],
    };
    if place.is_empty() {
        number.to_string()
    } else {
        format!("{number} at {}", place.join(", "))
    }
}

#[derive(Default)]
pub(super) struct Cases(Vec<Directed>);

impl Cases {
    /// The usual sheet, changed.
    pub(super) fn refused(&mut self, told: Told, words: &str, change: impl Fn(&mut Sheet)) {
        let mut sheet = usual();
        change(&mut sheet);
        self.0.push(Directed { words: format!("{}: {words}", row(told)), sheet, told, figures: Vec::new() });
    }

    /// The usual sheet, changed.
    pub(super) fn taken(&mut self, words: &str, change: impl Fn(&mut Sheet)) {
        self.figures(words, change, &[]);
    }

    /// The usual sheet, changed, with figures that are known.
    pub(super) fn figures(&mut self, words: &str, change: impl Fn(&mut Sheet), figures: &[(usize, i128)]) {
        let mut sheet = usual();
        change(&mut sheet);
        let figures = figures.iter().map(|&(place, figure)| (place, Some(figure))).collect();
        self.0.push(Directed { words: format!("taken: {words}"), sheet, told: [0; 4], figures });
    }

    /// The usual sheet, changed so that it does not have the fifth gas: there is no figure of it and no verdict.
    pub(super) fn absent(&mut self, words: &str, change: impl Fn(&mut Sheet)) {
        let mut sheet = usual();
        change(&mut sheet);
        let of_parts = (1..=sheet.count).map(|part| place::mass(part, 5)).flat_map(|mass| mass..mass + 4);
        let places = (place::weighted(5)..=place::verdict(5)).chain(of_parts);
        let figures = places.map(|place| (place, None)).collect();
        self.0.push(Directed { words: format!("taken without the fifth gas: {words}"), sheet, told: [0; 4], figures });
    }
}

/// Refusal 10.
fn classes(cases: &mut Cases) {
    for class in 1..=3 {
        let parts = if class == 3 { 3 } else { 2 };
        for count in [0, 1, 2, 3, 4, u32::MAX] {
            let words = format!("class {class} with {count} parts");
            if count == parts {
                cases.taken(&words, |s| (s.class, s.count) = (class, count));
            } else {
                cases.refused([10, 0, 0, 0], &words, |s| (s.class, s.count) = (class, count));
            }
        }
    }
    for class in [0, 4, u32::MAX] {
        for count in [0, 2, 3] {
            cases.refused([10, 0, 0, 0], &format!("class {class} with {count} parts"), |s| (s.class, s.count) = (class, count));
        }
    }
    for class in 1..=2 {
        cases.taken(&format!("class {class}, and nothing of a third part in its range"), |s| {
            (s.class, s.count) = (class, 2);
            let [bag, air] = [Reading::OVER_RANGE, Reading::NOT_FITTED].map(|each| Bag::of([each; 5]));
            s.parts[2] = Part { temperature: i32::MIN, bag, air, ..Part::default() };
        });
    }
}

/// A field with its number and range, and what sets it.
pub(super) struct Field<T> {
    pub number: u32,
    pub name: &'static str,
    pub least: i64,
    pub most: i64,
    pub set: fn(&mut T, i64),
}

const fn field<T>(number: u32, name: &'static str, least: i64, most: i64, set: fn(&mut T, i64)) -> Field<T> {
    Field { number, name, least, most, set }
}

const TEST_FIELDS: [Field<Sheet>; 13] = [
    field(10, "D", 100, 200, |s, value| s.triple.d = value as u32),
    field(10, "wc", 0, 20, |s, value| s.triple.wc = value as u32),
    field(10, "wh", 0, 20, |s, value| s.triple.wh = value as u32),
    field(11, "k", 1, 1500, |s, value| s.fuel.k = value as u32),
    field(11, "carbon factor of HC", 0, 1000, |s, value| s.fuel.hc = value as u32),
    field(11, "carbon factor of CO", 0, 1000, |s, value| s.fuel.co = value as u32),
    field(11, "carbon factor of CO2", 0, 1000, |s, value| s.fuel.co2 = value as u32),
    field(11, "fuel density", 600, 1000, |s, value| s.fuel.density = value as u32),
    field(12, "limit of HC", 0, MOST_LIMIT as i64, |s, value| s.limits.hc = value as u64),
    field(12, "limit of CO", 0, MOST_LIMIT as i64, |s, value| s.limits.co = value as u64),
    field(12, "limit of NOx", 0, MOST_LIMIT as i64, |s, value| s.limits.nox = value as u64),
    field(12, "limit of CO2", 0, MOST_LIMIT as i64, |s, value| s.limits.co2 = value as u64),
    LIMIT_OF_FIFTH,
];

pub(super) const LIMIT_OF_FIFTH: Field<Sheet> = field(12, "limit of NMHC", 0, MOST_LIMIT as i64, |s, value| s.limits.nmhc = value as u64);

/// The saturation pressure with a humidity at which H stays under 30.
const PART_FIELDS: [Field<Part>; 13] = [
    field(1, "pump volume", 100, 20_000, |p, value| p.pump = value as u32),
    field(2, "revolutions", 1, 100_000, |p, value| p.revolutions = value as u32),
    field(3, "barometer", 80_000, 110_000, |p, value| p.barometer = value as u32),
    field(4, "inlet depression", 0, 20_000, |p, value| p.depression = value as u32),
    field(5, "inlet temperature", -400, 1500, |p, value| p.temperature = value as i32),
    field(6, "humidity", 0, 1000, |p, value| p.humidity = value as u32),
    field(7, "saturation pressure", 0, 12_000, |p, value| (p.humidity, p.saturation) = (100, value as u32)),
    field(8, "distance", 100, 100_000, |p, value| p.distance = value as u32),
    field(9, "density of HC", 1, 2_100_000, |p, value| p.density.hc = value as u32),
    field(9, "density of CO", 1, 2_100_000, |p, value| p.density.co = value as u32),
    field(9, "density of NOx", 1, 2_100_000, |p, value| p.density.nox = value as u32),
    field(9, "density of CO2", 1, 2_100_000, |p, value| p.density.co2 = value as u32),
    DENSITY_OF_FIFTH,
];

pub(super) const DENSITY_OF_FIFTH: Field<Part> = field(9, "density of NMHC", 1, 2_100_000, |p, value| p.density.nmhc = value as u32);

/// Refusal 11, and both sides of every range. One below 0 is the largest that the type holds.
fn ranges(cases: &mut Cases) {
    for Field { number, name, least, most, set } in &TEST_FIELDS {
        for value in [least - 1, most + 1] {
            cases.refused([11, 0, *number, 0], &format!("{name} {value}"), |s| set(s, value));
        }
        for value in [*least, *most] {
            cases.taken(&format!("{name} {value}"), |s| set(s, value));
        }
    }
    for place in 1..=3 {
        for Field { number, name, least, most, set } in &PART_FIELDS {
            for value in [least - 1, most + 1] {
                cases.refused([11, place, *number, 0], &format!("{name} {value}"), |s| set(of_part(s, place), value));
            }
            for value in [*least, *most] {
                cases.taken(&format!("{name} {value} in part {place}"), |s| set(of_part(s, place), value));
            }
        }
    }
    for temperature in [i32::MIN, -4096, 65_136, i32::MAX] {
        cases.refused([11, 2, 5, 0], &format!("inlet temperature {temperature}"), |s| s.parts[1].temperature = temperature);
    }
    cases.taken("the least pressure at the pump, 80,000 less 20,000 Pa", |s| {
        (s.parts[0].barometer, s.parts[0].depression) = (80_000, 20_000);
    });
}

/// "With field 1 at most 10^9 ml."
fn products(cases: &mut Cases) {
    for place in 1..=3 {
        let pumped = |pump: u32, revolutions: u32| {
            let change = move |s: &mut Sheet| {
                let part = of_part(s, place);
                (part.pump, part.revolutions) = (pump, revolutions);
            };
            (format!("{pump} ml times {revolutions} in part {place}"), change)
        };
        for (pump, revolutions) in [(20_000, 50_000), (10_000, 100_000), (16_000, 62_500)] {
            let (words, change) = pumped(pump, revolutions);
            cases.taken(&words, change);
        }
        for (pump, revolutions) in [(19_019, 52_579), (20_000, 50_001), (10_001, 100_000), (20_000, 100_000)] {
            let (words, change) = pumped(pump, revolutions);
            cases.refused([11, place, 2, 0], &words, change);
        }
    }
}

/// Messages that are unusable: over range and not fitted whatever float comes with them, a kind that no table has, and floats.
pub(super) const UNUSABLE: [(&str, u32, u32); 18] = [
    ("over range", 2, 0),
    ("not fitted", 3, 0),
    ("over range with the bits of 1.0", 2, 0x3f80_0000),
    ("not fitted with the bits of 1.0", 3, 0x3f80_0000),
    ("kind 4", 4, 0x3f80_0000),
    ("kind 256", 256, 0x3f80_0000),
    ("kind 4294967295", u32::MAX, 0x3f80_0000),
    ("no number in ppm", 0, 0x7fc0_0000),
    ("no number in percent", 1, 0x7f80_0001),
    ("no number with a sign", 0, 0xffc0_0000),
    ("infinite ppm", 0, 0x7f80_0000),
    ("infinite percent, below zero", 1, 0xff80_0000),
    ("the largest float below zero, in ppm", 0, 0x8000_0001),
    ("-1/1,024 ppm", 0, 0xba80_0000),
    ("-1 percent", 1, 0xbf80_0000),
    ("the first float over 65,536 ppm", 0, 0x4780_0001),
    ("the first float over 6.5536 percent", 1, 0x40d1_b718),
    ("the largest float, in percent", 1, 0x7f7f_ffff),
];

/// Refusal 12. That the cutter is not fitted is no fault.
fn messages(cases: &mut Cases) {
    for at in readings() {
        let [place, gas, side] = at;
        for (words, kind, bits) in &UNUSABLE[..if gas == 5 { 1 } else { 2 }] {
            let change = |s: &mut Sheet| *reading(s, at) = Reading { kind: *kind, bits: *bits };
            cases.refused([12, place, gas, side], &format!("{words}, {}", reading_words(at)), change);
        }
    }
    for at in [[1, 1, 1], [2, 3, 2]] {
        let [place, gas, side] = at;
        for (words, kind, bits) in &UNUSABLE[2..] {
            let change = |s: &mut Sheet| *reading(s, at) = Reading { kind: *kind, bits: *bits };
            cases.refused([12, place, gas, side], &format!("{words}, {}", reading_words(at)), change);
        }
    }
}

/// So many units of 1/256 ppm.
pub(super) fn units(count: u32) -> Reading {
    Reading::ppm(count as f32 / 256.0)
}

/// Refusal 13.
fn dilution(cases: &mut Cases) {
    for place in 1..=3 {
        let full = |co: f32| {
            move |s: &mut Sheet| {
                s.triple = Triple { d: 145, wc: 5, wh: 10 };
                let bag = &mut of_part(s, place).bag;
                (bag.hc, bag.co, bag.co2) = (Reading::ppm(65_536.0), Reading::ppm(co), Reading::ppm(65_536.0));
            }
        };
        cases.taken(&format!("27,855 ppm of CO in part {place}"), full(27_855.0));
        cases.refused([13, place, 0, 0], "27,856 ppm of CO, G is Q", full(27_856.0));
        // 10 x 16,777,216 + 20 HC + CO against 256,000,000
        let beside = |hc: u32, co: u32| {
            move |s: &mut Sheet| {
                s.triple = Triple { d: 100, wc: 1, wh: 20 };
                let bag = &mut of_part(s, place).bag;
                (bag.hc, bag.co, bag.co2) = (units(hc), units(co), Reading::ppm(65_536.0));
            }
        };
        cases.taken(&format!("G is Q - 1 in part {place}"), beside(4_411_391, 19));
        cases.refused([13, place, 0, 0], "G is Q", beside(4_411_392, 0));
        cases.refused([13, place, 0, 0], "G is Q by another sum", beside(4_411_391, 20));
        cases.refused([13, place, 0, 0], "G is Q + 1", beside(4_411_392, 1));
    }
    cases.taken("NOx in the bag and all air count for nothing in G", |s| {
        s.parts[0].bag.nox = Reading::ppm(65_536.0);
        s.parts[0].air = Bag::of([Reading::ppm(65_536.0); 5]);
    });
    cases.taken("G is 0: no CO2, CO and HC in the bag", |s| {
        let bag = &mut s.parts[1].bag;
        (bag.hc, bag.co, bag.co2) = (Reading::ppm(0.0), Reading::ppm(0.0), Reading::ppm(0.0));
    });
}

/// Refusal 14: 6,511 g against 300,000 Pa.
fn humidity(cases: &mut Cases) {
    for place in 1..=3 {
        let humid = |barometer: u32, humidity: u32, saturation: u32| {
            let change = move |s: &mut Sheet| {
                let part = of_part(s, place);
                (part.barometer, part.humidity, part.saturation) = (barometer, humidity, saturation);
            };
            (format!("{barometer} Pa, {humidity} and {saturation} Pa in part {place}"), change)
        };
        for (barometer, humidity, saturation) in [(84_643, 1000, 3900), (97_665, 400, 11_250), (80_000, 1000, 3686), (110_000, 1000, 5068)]
        {
            let (words, change) = humid(barometer, humidity, saturation);
            cases.taken(&words, change);
        }
        for (barometer, humidity, saturation) in [(84_643, 1000, 3901), (97_665, 400, 11_251), (80_000, 1000, 3687), (110_000, 1000, 5069)]
        {
            let (words, change) = humid(barometer, humidity, saturation);
            cases.refused([14, place, 0, 0], &words, change);
        }
    }
}

/// The verdicts at the ends of every weighted gas; 0 pass, 1 fail, 2 undecided.
fn verdicts(cases: &mut Cases) {
    let (_, figures) = by_plain(&usual()).0;
    let gases = [1, 2, 3, 4, 5];
    let end = |place: usize| figures[place].expect("the usual sheet has every gas") as u64;
    let ends = gases.map(place::weighted).map(|lower| (end(lower), end(lower + 1)));
    assert!(ends.iter().all(|(lower, upper)| lower + 1 < *upper), "the ends of the usual sheet are apart");
    let below = |words, verdict, limit: fn(u64) -> u64| (format!("{words} the lower end"), ends.map(|(lower, _)| limit(lower)), verdict);
    let above = |words, verdict, limit: fn(u64) -> u64| (format!("{words} the upper end"), ends.map(|(_, upper)| limit(upper)), verdict);
    let (fail, undecided, pass) = (below("one below", 1, |end| end - 1), below("at", 2, |end| end), above("at", 0, |end| end));
    let between = [below("one above", 2, |end| end + 1), above("one below", 2, |end| end - 1)];
    let free = above("one above", 0, |end| end + 1);
    for (words, limits, verdict) in [&fail, &undecided, &between[0], &between[1], &pass, &free] {
        let known = gases.map(|gas| (place::verdict(gas), *verdict));
        cases.figures(&format!("every limit {words}"), |s| s.limits = Gases::of(*limits), &known);
    }
    for turn in 0..4 {
        let choice = |gas: u32| [&fail, &undecided, &pass, &fail][(gas as usize + 3 + turn) % 4];
        let known = gases.map(|gas| (place::verdict(gas), choice(gas).2));
        let limits = Gases::of(gases.map(|gas| choice(gas).1[gas as usize - 1]));
        cases.figures(&format!("fail, undecided, pass, fail, turned by {turn}"), |s| s.limits = limits, &known);
    }
    cases.figures(
        "air above the bag, every limit 0",
        |s| {
            s.limits = Gases::default();
            s.parts.iter_mut().for_each(|part| std::mem::swap(&mut part.bag, &mut part.air));
        },
        &gases.map(|gas| (place::verdict(gas), 0)),
    );
}

/// 01's figures of volume and mass with document 001's constants, of class 1: HC stands where 01 has NOx, so that no Kh is in the mass.
fn known(cases: &mut Cases) {
    let change = |s: &mut Sheet| {
        (s.class, s.count, s.triple) = (1, 2, Triple { d: 145, wc: 0, wh: 0 });
        for part in &mut s.parts {
            (part.pump, part.revolutions, part.barometer, part.depression) = (5000, 10_000, 101_300, 0);
            (part.temperature, part.density.hc) = (0, 2_050_000);
            (part.bag.hc, part.air.hc) = (Reading::ppm(10.0), Reading::ppm(20.0));
            (part.bag.co2, part.air.co2) = (Reading::ppm(14_500.0), Reading::ppm(0.0));
        }
        s.parts[1].temperature = -300;
    };
    let ends = |at: usize, lower: i128, upper: i128| [(at, lower), (at + 1, upper)];
    let figures = [
        ends(place::volume(1), 53_647_752, 53_647_753),
        ends(place::volume(2), 60_266_845, 60_266_846),
        ends(place::mass(2, 1), -988_377, -988_374),
    ];
    cases.figures("the known volumes, and a mass below zero", change, figures.as_flattened());
}

/// A number and a place, and what puts the fault into a sheet.
type Fault = (Told, Box<dyn Fn(&mut Sheet)>);

/// Every fault that a sheet can have, the first in 01's order first.
fn faults() -> Vec<Fault> {
    let mut all: Vec<Fault> = vec![
        ([10, 0, 0, 0], Box::new(|s| s.class = 4)),
        ([11, 0, 10, 0], Box::new(|s| s.triple.wh = 21)),
        ([11, 0, 11, 0], Box::new(|s| s.fuel.k = 1501)),
        ([11, 0, 12, 0], Box::new(|s| s.limits.hc = MOST_LIMIT + 1)),
        ([11, 0, 13, 0], Box::new(|s| s.efficiencies.methane = 1001)),
    ];
    for place in 1..=3 {
        for Field { number, most, set, .. } in PART_FIELDS.iter().take(9) {
            all.push(([11, place, *number, 0], Box::new(move |s| set(of_part(s, place), most + 1))));
        }
    }
    for at in readings() {
        all.push(([12, at[0], at[1], at[2]], Box::new(move |s| *reading(s, at) = Reading::OVER_RANGE)));
    }
    for place in 1..=3 {
        all.push(([13, place, 0, 0], Box::new(move |s| of_part(s, place).bag = Bag::of([Reading::ppm(65_536.0); 5]))));
    }
    for place in 1..=3 {
        let humid = |p: &mut Part| (p.humidity, p.saturation) = (1000, 12_000);
        all.push(([14, place, 0, 0], Box::new(move |s| humid(of_part(s, place)))));
    }
    all.push(([19, 0, 0, 0], Box::new(|s| s.efficiencies.ethane = s.efficiencies.methane + 499)));
    all
}

/// "Lowest number first; within a number the first place, parts before fields": each fault with the next, and with all that come after it.
fn order(cases: &mut Cases) {
    let faults = faults();
    for first in 0..faults.len() - 1 {
        let (told, next) = (faults[first].0, faults[first + 1].0);
        // the last first, so that a fault which takes the place of a later one stands
        let with = |some: &[Fault], s: &mut Sheet| some.iter().rev().for_each(|(_, put)| put(s));
        cases.refused(told, &format!("before {}", row(next)), |s| with(&faults[first..first + 2], s));
        cases.refused(told, "before all after it", |s| with(&faults[first..], s));
    }
}

/// All of them, in the order of the file.
pub fn cases() -> Vec<Directed> {
    let mut cases = Cases::default();
    let groups: [fn(&mut Cases); 9] = [classes, ranges, products, messages, dilution, humidity, verdicts, known, order];
    groups.iter().chain(&two_ends::GROUPS).chain(&without_methane::GROUPS).for_each(|group| group(&mut cases));
    cases.0
}

/// The text of vectors/directed_bags.txt. Stops where the second implementation does not say what is expected.
pub fn text() -> String {
    let mut text = super::head(include_str!("../../../vectors/M-108-bags.txt"));
    for Directed { words, sheet, told, figures } in cases() {
        let (answer, holds) = by_plain(&sheet);
        assert_eq!(answer.0, told, "{words}");
        assert!(holds, "{words}: an exact figure is not between its ends");
        figures.iter().for_each(|&(at, figure)| assert_eq!(answer.1[at], figure, "{words}: figure {at}"));
        text += &format!("# {words}\n{} {}\n", Line(&sheet), answer_text(&answer, GASES.len()));
    }
    text
}
