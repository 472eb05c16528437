//! The vehicle sheet.

use crate::field::{Form, Key, Range};
use crate::files::{self, Given};
use crate::refusals::Found;
use crate::sheet::{Sheet, NO_UNSIGNED};
use ylhovesko::gear::Vehicle;
use ylhovesko::Refusal;

/// The first word of its file.
pub const KIND: &str = "vehicle";

/// The fields 1 to 5 of refusal 5, in this order.
const FIELDS: [(&str, Range); 5] = [
    ("power", Range::of(1, 3_000, "in 0.1 kW")),
    ("mass", Range::of(30, 1_000, "kg")),
    ("rated", Range::of(1_000, 20_000, "per minute")),
    ("idle", Range::of(300, 3_000, "per minute")),
    ("gears", Range::of(3, 8, "")),
];
/// Field 5 + gear is the ratio of a gear.
const NDV: Range = Range::of(1_000, 100_000, "in 0.01 per minute per km/h");

/// The most gears of a sheet.
pub const MOST: u32 = 8;

/// The last field, after the ratio of gear 8.
const RULE_SET: u32 = FIELDS.len() as u32 + MOST + 1;
const RULE_SETS: Range = Range::of(1, 2, "");

fn ndv_key(gear: u32) -> String {
    format!("ndv {gear}")
}

/// The key of a field of refusal 5.
fn key_of(field: u32) -> Key {
    match FIELDS.get((field as usize).wrapping_sub(1)) {
        Some((name, range)) => Key::whole(name, *range),
        None if field == RULE_SET => Key::whole("rule set", RULE_SETS),
        None => Key::whole(&ndv_key(field.saturating_sub(FIELDS.len() as u32)), NDV),
    }
}

/// What stands for a value that could not be read: no field takes it.
pub const NO_VALUE: u32 = NO_UNSIGNED;

/// What a field of refusal 5 should have been.
pub fn expected(field: u32) -> String {
    key_of(field).form.expected()
}

/// The keys of a vehicle with so many gears. Where that is no number of gears, the core reads no ratio.
fn keys(gears: u32) -> Vec<Key> {
    let read = if gears <= MOST { gears } else { 0 };
    let needed = |field| field <= FIELDS.len() as u32 + read || field == RULE_SET;
    let fields = (1..=RULE_SET).map(|field| Key { needed: needed(field), ..key_of(field) });
    [Key::needed("sheet", Form::Kind)].into_iter().chain(fields).collect()
}

/// The ratios past the last gear, which the core does not read though the sheet is taken.
fn past_the_last(sheet: &Sheet, gears: u32) -> Vec<String> {
    let past = (1..=MOST).filter(|&gear| gear > gears).map(ndv_key).filter(|key| sheet.head.names(key));
    past.map(|key| format!("'{key}' is past the last gear, {gears}, and is not read")).collect()
}

/// The vehicle that the sheet describes, for the core to judge, and the sheet with notes on what in it is not of a vehicle sheet.
pub fn vehicle_of(sheet: Sheet) -> (Vehicle, Sheet) {
    let mut sheet = sheet.of_kind(KIND);
    let gears = sheet.head.unsigned("gears");
    sheet.note_sections(&[]);
    sheet.note_keys(&keys(gears), &[]);
    let past = past_the_last(&sheet, gears);
    sheet.notes.extend(past);
    let head = &sheet.head;
    let vehicle = Vehicle {
        power: head.unsigned("power"),
        mass: head.unsigned("mass"),
        rated: head.unsigned("rated"),
        idle: head.unsigned("idle"),
        gears,
        ndv: std::array::from_fn(|i| head.unsigned(&ndv_key(i as u32 + 1))),
        rule_set: head.unsigned("rule set"),
    };
    (vehicle, sheet)
}

/// `annex13.vehicle, rule set 1`, by which everything that is worked out of a sheet is named.
pub fn name(vehicle: &Given<Vehicle>) -> String {
    format!("{}, rule set {}", files::name(&vehicle.path), vehicle.value.rule_set)
}

/// Where a refusal of a vehicle sheet lies, and what stands there.
pub fn found(sheet: &Sheet, refusal: Refusal) -> Found {
    let told = |field| sheet.head.told(&key_of(field));
    let ndv = |gear: u32| told(FIELDS.len() as u32 + gear);
    let below = |gear: u32| format!("{}; below {} of gear {}", ndv(gear), ndv(gear - 1), gear - 1);
    match refusal.number {
        5 => found_field(sheet, refusal.at),
        6 => Found { place: format!("gear {}", refusal.at), value: below(refusal.at) },
        7 => Found { place: String::new(), value: format!("power {}, mass {}; 19 x power at most 150 x (mass + 75)", told(1), told(2)) },
        _ => Found::default(),
    }
}

/// `field 1, power: 3,001; 1 to 3,000 in 0.1 kW`.
fn found_field(sheet: &Sheet, field: u32) -> Found {
    let key = key_of(field);
    let mut value = sheet.head.told_with_range(&key);
    if key.name == "idle" && sheet.head.in_range(&key) {
        value += &format!(", and at most rated - 500, with rated {}", sheet.head.told(&key_of(3)));
    }
    Found { place: format!("field {field}, {}", key.name), value }
}
