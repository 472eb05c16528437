//! The bag sheet.

use crate::field::{Form, Key, Range};
use crate::files::Given;
use crate::refusals::{self, named, Found, GASES};
use crate::sheet::{Section, Sheet};
use std::iter::once;
use ylhovesko::bags::{result, Bag, Efficiencies, Fuel, Gases, Part, Reading, Sheet as BagSheet, TestResult, Triple};
use ylhovesko::Refusal;

/// The first word of its file.
pub const KIND: &str = "bags";

/// As a sheet's keys name them, in the paper's order.
pub const GAS_KEYS: [&str; 5] = ["hc", "co", "nox", "co2", "nmhc"];

/// As the keys of a bag's readings name them. That of NMHC is HC read behind the cutter.
const READING_KEYS: [&str; 5] = ["hc", "co", "nox", "co2", CUTTER];
const CUTTER: &str = "cutter";

/// What the cutter brings to a sheet: one of them stands for all.
const CUTTER_KEYS: [&str; 6] = ["limit nmhc", "efficiency methane", "efficiency ethane", "density nmhc", "bag cutter", "air cutter"];

/// The bag, and its dilution air.
const SIDES: [&str; 2] = ["bag", "air"];

const CLASS: Range = Range::of(1, 3, "");
/// The headings of the parts, in their order.
const PARTS: [&str; 3] = ["part 1", "part 2", "part 3"];

/// The fields 1 to 8 of a part, in this order.
const PART_FIELDS: [(&str, Range); 8] = [
    ("pump", Range::of(100, 20_000, "ml a revolution")),
    ("revolutions", Range::of(1, 100_000, "")),
    ("barometer", Range::of(80_000, 110_000, "Pa")),
    ("depression", Range::of(0, 20_000, "Pa")),
    ("temperature", Range::of(-400, 1_500, "in 0.1 degree C")),
    ("humidity", Range::of(0, 1_000, "in 0.1 percent")),
    ("saturation", Range::of(0, 12_000, "Pa")),
    ("distance", Range::of(100, 100_000, "m")),
];
/// Field 9, for each gas.
const DENSITY: Range = Range::of(1, 2_100_000, "mg per cubic metre");
/// Field 10.
const TRIPLE: [(&str, Range); 3] = [
    ("triple d", Range::of(100, 200, "in tenths")),
    ("triple wc", Range::of(0, 20, "in tenths")),
    ("triple wh", Range::of(0, 20, "in tenths")),
];
const THOUSANDTHS: Range = Range::of(0, 1_000, "in 1/1,000");
/// Field 11.
const FUEL: [(&str, Range); 5] = [
    ("fuel k", Range::of(1, 1_500, "in 1/10,000")),
    ("fuel hc", THOUSANDTHS),
    ("fuel co", THOUSANDTHS),
    ("fuel co2", THOUSANDTHS),
    ("fuel density", Range::of(600, 1_000, "g/l")),
];
/// Field 12, for each gas.
const LIMIT: Range = Range::of(0, 1_000_000_000_000, "micrograms/km");
/// Field 13.
const EFFICIENCIES: [(&str, Range); 2] = [("efficiency methane", THOUSANDTHS), ("efficiency ethane", THOUSANDTHS)];

fn whole(fields: &[(&str, Range)]) -> Vec<Key> {
    fields.iter().map(|(name, range)| Key::whole(name, *range)).collect()
}

fn of_each_gas(word: &str, range: Range) -> Vec<Key> {
    GAS_KEYS.map(|gas| Key::whole(&format!("{word} {gas}"), range)).into()
}

fn reading_key(side: &str, gas: &str) -> Key {
    let form = if gas == CUTTER { Form::CutterReading } else { Form::Reading };
    Key::needed(&format!("{side} {gas}"), form)
}

/// The keys of a field of refusal 11.
fn keys_of(field: u32) -> Vec<Key> {
    match field {
        9 => of_each_gas("density", DENSITY),
        10 => whole(&TRIPLE),
        11 => whole(&FUEL),
        12 => of_each_gas("limit", LIMIT),
        13 => whole(&EFFICIENCIES),
        _ => PART_FIELDS.get((field as usize).wrapping_sub(1)).map_or(Vec::new(), |only| whole(&[*only])),
    }
}

fn class_key() -> Key {
    Key::whole("class", CLASS)
}

fn test_keys() -> Vec<Key> {
    [Key::needed("sheet", Form::Kind), class_key()].into_iter().chain((10..=13).flat_map(keys_of)).collect()
}

fn part_keys() -> Vec<Key> {
    let readings = SIDES.into_iter().flat_map(|side| READING_KEYS.map(|gas| reading_key(side, gas)));
    (1..=9).flat_map(keys_of).chain(readings).collect()
}

/// Whether the sheet is of a bench with the cutter: whether it names one of the cutter's keys, wherever that stands.
fn has_cutter(sheet: &Sheet) -> bool {
    once(&sheet.head).chain(&sheet.sections).any(|section| CUTTER_KEYS.iter().any(|key| section.names(key)))
}

/// The keys, of which a sheet of a bench without the cutter need not have the cutter's.
fn with_needs(keys: Vec<Key>, cutter: bool) -> Vec<Key> {
    keys.into_iter().map(|key| Key { needed: cutter || !CUTTER_KEYS.contains(&key.name.as_str()), ..key }).collect()
}

fn of_gases<T>(word: &str, value: impl Fn(&str) -> T) -> Gases<T> {
    Gases::of(GAS_KEYS.map(|gas| value(&format!("{word} {gas}"))))
}

/// The bag sheet for the core to judge, and the sheet with notes on what in it is not of a bag sheet.
pub fn bag_sheet_of(sheet: Sheet) -> (BagSheet, Sheet) {
    let mut sheet = sheet.of_kind(KIND);
    let cutter = has_cutter(&sheet);
    sheet.note_sections(&PARTS);
    sheet.note_keys(&with_needs(test_keys(), cutter), &with_needs(part_keys(), cutter));
    let bags = as_written(&sheet);
    (if cutter { bags } else { without_cutter(bags) }, sheet)
}

fn as_written(sheet: &Sheet) -> BagSheet {
    let head = &sheet.head;
    let mut parts = [Part::default(); 3];
    for (part, section) in parts.iter_mut().zip(&sheet.sections) {
        *part = part_of(section);
    }
    BagSheet {
        class: head.unsigned("class"),
        count: count_of(&sheet.sections),
        triple: Triple { d: head.unsigned("triple d"), wc: head.unsigned("triple wc"), wh: head.unsigned("triple wh") },
        fuel: fuel_of(head),
        limits: of_gases("limit", |key| head.limit(key)),
        efficiencies: Efficiencies { methane: head.unsigned("efficiency methane"), ethane: head.unsigned("efficiency ethane") },
        parts,
    }
}

/// The sheet of a bench without the cutter, which has no NMHC. The core judges the values of NMHC all the same, so that they are ones that it takes; its
/// density is that of HC, which is judged as it is written.
fn without_cutter(mut bags: BagSheet) -> BagSheet {
    bags.limits.nmhc = 0;
    bags.efficiencies = Efficiencies::default();
    for part in &mut bags.parts {
        part.density.nmhc = part.density.hc;
        part.bag.cutter = Reading::NOT_FITTED;
        part.air.cutter = Reading::NOT_FITTED;
    }
    bags
}

/// How many parts there are; 0, which no class has, where they are not numbered 1, 2, 3 in this order, so that none is taken for another.
fn count_of(sections: &[Section]) -> u32 {
    let in_order = sections.iter().map(|section| section.heading.as_str()).eq(PARTS.into_iter().take(sections.len()));
    u32::try_from(sections.len()).ok().filter(|_| in_order).unwrap_or(0)
}

fn fuel_of(head: &Section) -> Fuel {
    Fuel {
        k: head.unsigned("fuel k"),
        hc: head.unsigned("fuel hc"),
        co: head.unsigned("fuel co"),
        co2: head.unsigned("fuel co2"),
        density: head.unsigned("fuel density"),
    }
}

fn part_of(section: &Section) -> Part {
    Part {
        pump: section.unsigned("pump"),
        revolutions: section.unsigned("revolutions"),
        barometer: section.unsigned("barometer"),
        depression: section.unsigned("depression"),
        temperature: section.temperature("temperature"),
        humidity: section.unsigned("humidity"),
        saturation: section.unsigned("saturation"),
        distance: section.unsigned("distance"),
        density: of_gases("density", |key| section.unsigned(key)),
        bag: readings_of(section, "bag"),
        air: readings_of(section, "air"),
    }
}

fn readings_of(section: &Section, side: &str) -> Bag {
    Bag::of(READING_KEYS.map(|gas| section.reading(&reading_key(side, gas).name)))
}

/// The result of a bag sheet among other files; or its refusal in words, with its file.
pub fn result_of(bags: &Given<BagSheet>) -> Result<TestResult, String> {
    let refused = |refusal| format!("{}: {}", bags.path.display(), refusals::line(refusal, &found(&bags.text, refusal)));
    result(bags.value).map_err(refused)
}

/// Where a refusal of a bag sheet lies, and what stands there.
pub fn found(sheet: &Sheet, refusal: Refusal) -> Found {
    let Refusal { number, at, within, side } = refusal;
    let place = if at == 0 { "test".to_string() } else { format!("part {at}") };
    let section = sheet.sections.get((at as usize).wrapping_sub(1)).unwrap_or(&sheet.head);
    match number {
        10 => Found { place: String::new(), value: class_and_parts(sheet) },
        11 => found_field(section, place, within),
        12 => {
            let key = reading_key(named(&SIDES, side), named(&READING_KEYS, within));
            let place = format!("{place}, {}, {}", named(&GASES, within), named(&["bag", "dilution air"], side));
            Found { place, value: section.told_with_range(&key) }
        }
        19 => Found { place: String::new(), value: both_efficiencies(&sheet.head) },
        _ => Found { place, value: String::new() },
    }
}

fn class_and_parts(sheet: &Sheet) -> String {
    let class = sheet.head.told(&class_key());
    let count = sheet.sections.len();
    let parts = if count_of(&sheet.sections) as usize == count { count.to_string() } else { "not 1, 2, 3 in this order".to_string() };
    format!("class {class}, parts {parts}; 1 or 2 with 2 parts, or 3 with 3")
}

fn both_efficiencies(head: &Section) -> String {
    let [methane, ethane] = EFFICIENCIES.map(|(name, range)| head.told(&Key::whole(name, range)));
    format!("methane {methane}, ethane {ethane}; ethane at least methane + 500 in 1/1,000")
}

/// `part 1, field 5, temperature: 1,501; -400 to 1,500 in 0.1 degree C`. Of several numbers of a field it is the first out of its range.
fn found_field(section: &Section, place: String, field: u32) -> Found {
    let keys = keys_of(field);
    let Some(key) = keys.iter().find(|key| !section.in_range(key)).or(keys.first()) else {
        return Found { place: format!("{place}, field {field}"), value: String::new() };
    };
    let mut value = section.told_with_range(key);
    if key.name == "revolutions" && section.in_range(key) {
        value += &format!(", and at most 1,000,000,000 ml with pump {}", section.told(&keys_of(1)[0]));
    }
    Found { place: format!("{place}, field {field}, {}", key.name), value }
}
