//! The shift speeds of a vehicle, which the core gives as ends, and the tenths by which it chooses gears.

mod common;

use common::*;
use std::fmt::Debug;
use std::fs;
use std::path::Path;
use std::str::FromStr;

/// A shift as the command writes it, with its ends in 0.001 km/h and its tenths in 0.1 km/h.
#[derive(Debug, PartialEq)]
struct Shift {
    word: String,
    from: u8,
    to: u8,
    lower: i64,
    upper: i64,
    least: u16,
    too_close: Option<u16>,
}

/// A cell of the table in units of its last decimal.
fn units<T: FromStr<Err: Debug>>(cell: &str) -> T {
    cell.replace('.', "").parse().unwrap()
}

impl Shift {
    fn of(line: &str) -> Shift {
        let [word, from, to, lower, upper, _, least, too_close] = line.split(',').collect::<Vec<_>>()[..] else { panic!("{line}") };
        let too_close = Some(too_close).filter(|cell| !cell.is_empty()).map(units);
        let [from, to] = [from, to].map(units);
        Shift { word: word.to_string(), from, to, lower: units(lower), upper: units(upper), least: units(least), too_close }
    }

    fn name(&self) -> String {
        format!("{} {} to {}", self.word, self.from, self.to)
    }
}

/// The shifts that the command writes into this file.
fn shifts(sheet: &str, file: &str) -> Vec<Shift> {
    let csv = to_be_made(file);
    let told = run(&["speeds", sheet, "--csv", &csv]);
    assert_eq!((told.errors.as_str(), told.code), ("", Some(0)));
    let lines = fs::read_to_string(csv).unwrap();
    lines.lines().skip(1).map(Shift::of).collect()
}

/// A sheet with three gears, whose downshift 2 to 1 is 11.7 km/h exactly.
fn three(file: &str, rule_set: u32) -> String {
    let machine = "power = 300\nmass = 200\nrated = 8000\nidle = 1200\ngears = 3\nndv 1 = 20000\nndv 2 = 12000\nndv 3 = 9000";
    stored(file, format!("sheet = vehicle\n{machine}\nrule set = {rule_set}\n"))
}

/// A sheet with four gears whose upshift 2 to 3, the downshift 4 to 3 too, has its lower end at 123.7 km/h, which is too close to call.
fn close(file: &str, rule_set: u32) -> String {
    let machine = "power = 1612\nmass = 428\nrated = 10540\nidle = 300\ngears = 4";
    let ratios = "ndv 1 = 3833\nndv 2 = 2833\nndv 3 = 2733\nndv 4 = 2633";
    stored(file, format!("sheet = vehicle\n{machine}\n{ratios}\nrule set = {rule_set}\n"))
}

/// Table A13-3 of the regulation, to one decimal.
#[test]
fn speeds_of_annex_13() {
    let printed = [
        ("upshift 1 to 2", 28.5),
        ("upshift 2 to 3", 51.3),
        ("upshift 3 to 4", 63.9),
        ("upshift 4 to 5", 74.1),
        ("upshift 5 to 6", 82.7),
        ("downshift 3 to 2", 28.5),
        ("downshift 4 to 3", 51.3),
        ("downshift 5 to 4", 63.9),
        ("downshift 6 to 5", 74.1),
    ];
    let told = shifts(&of_demo("annex13.vehicle"), "annex13.csv");
    assert_eq!(told.len(), printed.len());
    for (shift, (expected, km_h)) in told.iter().zip(printed) {
        assert_eq!((shift.name().as_str(), shift.upper - shift.lower), (expected, 1));
        let near = |thousandths: i64| (thousandths as f64 / 1000.0 - km_h).abs() < 0.05;
        assert!(near(shift.lower) && near(shift.upper), "{shift:?}");
    }
}

/// The speeds are 28.4594, 51.3001, 63.9297, 74.1192 and 82.7339 km/h: that of 2 to 3 is only just above 51.3.
#[test]
fn tenths_of_annex_13() {
    let (up, down) = ([285, 514, 640, 742, 828], [285, 514, 640, 742]);
    let by_set = [("annex13.vehicle", [&up[..], &down].concat()), ("rule_set_2.vehicle", [&up[..], &[155], &down].concat())];
    for (sheet, expected) in by_set {
        let told = shifts(&of_demo(sheet), "tenths.csv");
        assert_eq!(told.iter().map(|shift| shift.least).collect::<Vec<_>>(), expected, "{sheet}");
        assert!(told.iter().all(|shift| shift.too_close.is_none()), "{sheet}");
    }
}

/// Table Ap8-4 of the Indian draft has these speeds too, and one more: "2 to cl", the downshift 2 to 1 of its equation 2.7.
#[test]
fn rule_set_2_has_one_speed_more() {
    let by_1 = shifts(&of_demo("annex13.vehicle"), "by_set_1.csv");
    let mut by_2 = shifts(&of_demo("rule_set_2.vehicle"), "by_set_2.csv");
    let to_first = by_2.remove(5);
    assert_eq!((to_first.name().as_str(), to_first.lower, to_first.upper), ("downshift 2 to 1", 15_483, 15_484));
    assert_eq!(by_1, by_2);
}

/// What is printed of the sheet [`close`] under rule set 2.
const PRINTED: &str = "\
Shift speeds of printed.vehicle, rule set 2

Upshift, km/h                            lower end            upper end    least tenth above            too close
    1 to 2                                  64.712               64.713                 64.8                    -
    2 to 3                                 123.700              123.701                123.8                123.7
    3 to 4                                 128.226              128.227                128.3                    -

Downshift, km/h                          lower end            upper end    least tenth above            too close
    2 to 1                                  21.433               21.434                 21.5                    -
    3 to 2                                  64.712               64.713                 64.8                    -
    4 to 3                                 123.700              123.701                123.8                123.7

From the least tenth above on, a second is above the shift speed; at a tenth that is too close, its trace is refused (9).
For 2 to 1 it is the least tenth at or above, and none is too close.
";

/// Under rule set 1 the downshift 2 to 1 is not there, nor is what is said of it.
#[test]
fn speeds_are_printed() {
    let by_2 = run(&["speeds", &close("printed.vehicle", 2)]);
    assert_eq!((by_2.out.as_str(), by_2.errors.as_str()), (PRINTED, ""));
    let by_1 = run(&["speeds", &close("printed.vehicle", 1)]);
    let without = PRINTED.lines().filter(|line| !line.contains("2 to 1")).map(|line| line.replace("rule set 2", "rule set 1") + "\n");
    assert_eq!(by_1.out, without.collect::<String>());
}

#[test]
fn speeds_are_written() {
    let csv = to_be_made("written.csv");
    run(&["speeds", &close("written.vehicle", 2), "--csv", &csv]);
    let lines = [
        "shift,from gear,to gear,lower end in km/h,upper end in km/h,rule set,least tenth above in km/h,tenth too close in km/h",
        "upshift,1,2,64.712,64.713,2,64.8,",
        "upshift,2,3,123.700,123.701,2,123.8,123.7",
        "upshift,3,4,128.226,128.227,2,128.3,",
        "downshift,2,1,21.433,21.434,2,21.5,",
        "downshift,3,2,64.712,64.713,2,64.8,",
        "downshift,4,3,123.700,123.701,2,123.8,123.7",
    ];
    assert!(fs::read_to_string(csv).unwrap().lines().eq(lines));
}

#[test]
fn three_gears_have_three_shifts() {
    let names: Vec<String> = shifts(&three("three.vehicle", 1), "three.csv").iter().map(Shift::name).collect();
    assert_eq!(names, ["upshift 1 to 2", "upshift 2 to 3", "downshift 3 to 2"]);
}

/// The one speed whose tenth may be at it.
#[test]
fn a_downshift_2_to_1_at_a_tenth_has_that_tenth() {
    let to_first = &shifts(&three("exact.vehicle", 2), "exact.csv")[2];
    assert_eq!((to_first.name().as_str(), to_first.lower, to_first.upper, to_first.least), ("downshift 2 to 1", 11_700, 11_700, 117));
}

/// The gear of a single second, 1 of acceleration, 2 of cruise or 3 of deceleration; nothing where it is too close to call.
fn gear_at(sheet: &str, phase: u8, tenths: u16) -> Option<u8> {
    let [low, high] = tenths.to_le_bytes();
    let trace = stored("beside.wtr", [b'W', b'T', b'R', 0, 1, 0, 1, 0, low, high, phase, 0]);
    let csv = to_be_made("beside.csv");
    let told = run(&["gears", &trace, sheet, "--csv", &csv]);
    if told.code == Some(0) {
        let lines = fs::read_to_string(csv).unwrap();
        return lines.lines().last().unwrap().split(',').nth(3).unwrap().parse().ok();
    }
    assert_eq!(told.out, format!("refused: 9 too close to call, second 1: {}.{} km/h\n", tenths / 10, tenths % 10));
    None
}

/// The row's gears change where the tenths say: in acceleration at the upshifts, in cruise and deceleration at the downshifts.
#[test]
fn gears_change_at_the_tenths() {
    let made = [close("changes_close_1.vehicle", 1), close("changes_close_2.vehicle", 2), three("changes_three.vehicle", 2)];
    for sheet in ["annex13.vehicle", "rule_set_2.vehicle"].map(of_demo).into_iter().chain(made) {
        for shift in shifts(&sheet, "changes.csv") {
            let phases = if shift.word == "upshift" { 1..=1 } else { 2..=3 };
            let tenths = [shift.too_close.unwrap_or(shift.least) - 1, shift.least - 1, shift.least];
            let below = shift.from.min(shift.to);
            let before = shift.too_close.is_none().then_some(below);
            for phase in phases {
                let gears = tenths.map(|tenth| gear_at(&sheet, phase, tenth));
                assert_eq!(gears, [Some(below), before, Some(below + 1)], "{sheet}, phase {phase}, {shift:?}");
            }
        }
    }
}

#[test]
fn a_refused_vehicle_has_no_speeds() {
    let sheet = stored("nine.vehicle", edited("annex13.vehicle", "gears = 6", "gears = 9"));
    let csv = to_be_made("refused_speeds.csv");
    let told = run(&["speeds", &sheet, "--csv", &csv]);
    assert_eq!((told.out.as_str(), told.code), ("refused: 5 vehicle sheet out of range, field 5, gears: 9; 3 to 8\n", Some(1)));
    assert!(!Path::new(&csv).exists());
}
