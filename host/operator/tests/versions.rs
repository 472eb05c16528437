//! The two versions of a trace: which one is made of a table, what each is read as, and the marks that are never left out in silence.

mod common;

use common::*;
use std::fs;
use std::path::Path;

const HEADING: &str = "second,speed_tenths,phase";
const MARKED_HEADING: &str = "second,speed_tenths,phase,no_gearshift,no_first";

/// Each mark alone and both, as flags and in words.
const MARKS: [(u8, &str); 3] = [(4, "no gear-shift"), (8, "no 1. gear"), (12, "no gear-shift and no 1. gear")];

/// A house file of this version with these seconds, a speed and flags each.
fn trace(version: u16, seconds: &[(u16, u8)]) -> Vec<u8> {
    let mut file = b"WTR\0".to_vec();
    file.extend(version.to_le_bytes());
    file.extend((seconds.len() as u16).to_le_bytes());
    for (speed, flags) in seconds {
        file.extend(speed.to_le_bytes());
        file.extend([*flags, 0]);
    }
    file
}

/// A stop, then each phase, without a mark: in the table's words and as seconds of a trace.
const PHASES: &str = "1,0,stop\n2,50,acc\n3,300,cruise\n4,2000,dec\n";
const SECONDS: [(u16, u8); 4] = [(0, 0), (50, 1), (300, 2), (2000, 3)];

/// The lines of a table with the same marks in each.
fn marked_lines(marks: &str) -> String {
    PHASES.lines().map(|line| format!("{line},{marks}\n")).collect()
}

/// The file that `house-file` makes of a table, with these options.
fn made_of(name: &str, table: &str, options: &[&str], version: u16) -> Vec<u8> {
    let (table, made) = (stored(&format!("{name}.csv"), table), to_be_made(&format!("{name}.wtr")));
    let told = run(&[&["house-file", &table, &made], options].concat());
    let words = format!("{made}: a trace of 4 seconds, version {version}\n");
    assert_eq!((told.out, told.errors.as_str(), told.code), (words, "", Some(0)));
    fs::read(made).unwrap()
}

#[test]
fn a_house_file_is_of_version_2() {
    let bytes = b"WTR\0\x02\0\x04\0\0\0\0\0\x32\0\x01\0\x2c\x01\x02\0\xd0\x07\x03\0";
    assert_eq!(made_of("phases", &format!("{HEADING}\n{PHASES}"), &[], 2), bytes);
    assert_eq!(made_of("no_mark_set", &format!("{MARKED_HEADING}\n{}", marked_lines("0,0")), &[], 2), bytes);
}

#[test]
fn a_house_file_with_marks_is_of_version_1() {
    let bytes = b"WTR\0\x01\0\x04\0\0\0\x0c\0\x32\0\x0d\0\x2c\x01\x0e\0\xd0\x07\x0f\0";
    assert_eq!(made_of("both_marks", &format!("{MARKED_HEADING}\n{}", marked_lines("1,1")), &["--marks"], 1), bytes);
    // and so it is where no mark is set, or the table has none
    let unmarked = trace(1, &SECONDS);
    assert_eq!(made_of("asked_for_none", &format!("{MARKED_HEADING}\n{}", marked_lines("0,0")), &["--marks"], 1), unmarked);
    assert_eq!(made_of("asked_without", &format!("{HEADING}\n{PHASES}"), &["--marks"], 1), unmarked);
}

/// `house-file` of this table, unasked for marks, refuses it with these words and this note, and leaves a file that was there as it was.
fn makes_none(name: &str, seconds: &str, words: &str, notes: &str) {
    let table = stored(&format!("{name}.csv"), format!("{MARKED_HEADING}\n{seconds}"));
    for made in [to_be_made(&format!("{name}.wtr")), stored(&format!("{name}_kept.wtr"), "kept")] {
        let before = fs::read(&made).ok();
        let told = run(&["house-file", &table, &made]);
        assert_eq!((told.out, told.errors, told.code), (format!("{table}: refused: {words}\n"), notes.replace("TABLE", &table), Some(1)));
        assert_eq!(fs::read(made).ok(), before);
    }
}

#[test]
fn a_mark_is_not_left_out_of_a_house_file() {
    for (at, phase) in ["stop", "acc", "cruise", "dec"].into_iter().enumerate() {
        for (flags, marks) in MARKS {
            let [no_shift, no_first] = [flags & 4 != 0, flags & 8 != 0].map(u8::from);
            let found = format!("second 2: speed 70, flags {}, fourth byte 0; 0 to 2,000 in 0.1 km/h, 0 to 3, 0", at as u8 + flags);
            let words = format!("4 speed, flags or fourth byte wrong, {found}; it is marked {marks}, and version 2 has no marks");
            let note = format!("TABLE: line 3: {marks}; with --marks the trace is of version 1, which keeps the marks\n");
            makes_none(&format!("marked_{at}_{flags}"), &format!("1,0,stop,0,0\n2,70,{phase},{no_shift},{no_first}\n"), &words, &note);
        }
    }
}

/// The core judges the table's seconds in turn: a mark after a faulty speed is not yet seen, and the count goes first.
#[test]
fn a_mark_is_judged_in_its_turn() {
    let found = "second 1: speed 2,001, flags 0, fourth byte 0; 0 to 2,000 in 0.1 km/h, 0 to 3, 0";
    let words = format!("4 speed, flags or fourth byte wrong, {found}");
    makes_none("fast_then_marked", "1,2001,stop,0,0\n2,0,stop,1,0\n", &words, "");
    let many: String = (1..=2001).map(|second| format!("{second},0,stop,1,1\n")).collect();
    makes_none("too_many_marked", &many, "2 count not 1 to 2,000: 2,001", "");
}

#[test]
fn a_line_has_the_columns_of_its_heading() {
    let made = to_be_made("columns_made.wtr");
    for (heading, line, form) in [(HEADING, "1,0,stop,0,0", "SPEED,PHASE"), (MARKED_HEADING, "1,0,stop", "SPEED,PHASE,MARK,MARK")] {
        let table = stored("columns.csv", format!("{heading}\n{line}\n"));
        let told = run(&["house-file", &table, &made]);
        let words = format!("{table}: line 2: '{line}', expected is '1,{form}' with phase stop, acc, cruise or dec\n");
        assert_eq!((told.errors, told.code, Path::new(&made).exists()), (words, Some(2), false));
    }
}

/// Every speed and every phase, read as a table and written again.
#[test]
fn what_was_written_is_read_back() {
    for first in [0, 1] {
        let seconds: Vec<(u16, u8)> = (0..2000).map(|second| (first + second, (second % 4) as u8)).collect();
        let bytes = trace(2, &seconds);
        let path = stored(&format!("back_{first}.wtr"), &bytes);
        let (table, again) = (to_be_made(&format!("back_{first}.csv")), to_be_made(&format!("back_{first}_again.wtr")));
        assert_eq!(run(&["check", &path]).out, format!("{path}: accepted\n"));
        assert_eq!(run(&["table", &path, &table]).out, format!("{table}: a table of 2000 seconds\n"));
        let words = |(number, (speed, phase)): (usize, &(u16, u8))| {
            format!("{number},{speed},{}", ["stop", "acc", "cruise", "dec"][*phase as usize])
        };
        let expected = std::iter::once(HEADING.to_string()).chain((1..).zip(&seconds).map(words));
        assert!(fs::read_to_string(&table).unwrap().lines().eq(expected));
        assert_eq!(run(&["house-file", &table, &again]).code, Some(0));
        assert!(fs::read(again).unwrap() == bytes);
    }
}

/// A trace of the demo without marks, made with these options: its bytes, and its row as it is printed, as a table and as a picture.
fn row_in_each_form(part: u32, vehicle: &str, options: &[&str]) -> (Vec<u8>, [String; 3]) {
    // by one name, which the title has
    let [made, csv, svg] = ["wtr", "csv", "svg"].map(|ending| to_be_made(&format!("forms.{ending}")));
    assert_eq!(run(&[&["house-file", &of_demo(&format!("cycles/part{part}_unmarked.csv")), &made], options].concat()).code, Some(0));
    let told = run(&["gears", &made, &of_demo(vehicle), "--csv", &csv, "--svg", &svg]);
    assert_eq!((told.errors.as_str(), told.code), ("", Some(0)));
    (fs::read(made).unwrap(), [told.out, fs::read_to_string(csv).unwrap(), fs::read_to_string(svg).unwrap()])
}

#[test]
fn a_version_1_trace_without_marks_has_the_row_of_version_2() {
    for vehicle in ["annex13.vehicle", "rule_set_2.vehicle"] {
        for part in 1..=3 {
            let (version_1, its_row) = row_in_each_form(part, vehicle, &["--marks"]);
            let (version_2, row) = row_in_each_form(part, vehicle, &[]);
            assert_eq!((version_1[4], version_2[4]), (1, 2));
            assert!(version_1[6..] == version_2[6..] && its_row == row, "part {part}, {vehicle}");
        }
    }
}

/// What `gears` says of a trace.
fn gears(name: &str, bytes: &[u8], vehicle: &str) -> Run {
    run(&["gears", &stored(name, bytes), vehicle])
}

/// In the second 2, in each phase, at a stop too.
#[test]
fn rule_set_2_refuses_each_mark() {
    for phase in 0..4 {
        for (flags, marks) in MARKS {
            let bytes = trace(1, &[(0, 0), (50, phase + flags), (60, 15)]);
            let csv = to_be_made("marked_row.csv");
            let path = stored(&format!("marked_{phase}_{flags}.wtr"), bytes);
            let told = run(&["gears", &path, &of_demo("rule_set_2.vehicle"), "--csv", &csv]);
            let words = format!("refused: 20 a mark in a trace of version 1, under rule set 2, second 2: {marks}\n");
            assert_eq!((told.out, told.errors.as_str(), told.code), (words, "", Some(1)));
            assert!(!Path::new(&csv).exists());
            assert_eq!(run(&["gears", &path, &of_demo("annex13.vehicle")]).code, Some(0));
        }
    }
}

/// Rule set 1 reads the marks as before: 5.0 km/h in acceleration is gear 1, by "no 1. gear" 2; 45.0 km/h in cruise, after gear 2, is 3, by "no gear-shift"
/// 2.
#[test]
fn rule_set_1_goes_by_the_marks() {
    let row = |name: &str, seconds: &[(u16, u8)]| {
        let told = gears(name, &trace(1, seconds), &of_demo("annex13.vehicle"));
        assert_eq!((told.errors.as_str(), told.code), ("", Some(0)));
        let lines = told.out.lines().skip(4).map(|line| line.split_whitespace().take(3).collect::<Vec<_>>().join(" "));
        lines.collect::<Vec<_>>()
    };
    assert_eq!(row("first.wtr", &[(0, 0), (50, 1)]), ["1 2 1"]);
    assert_eq!(row("no_first.wtr", &[(0, 0), (50, 1 + 8)]), ["1 1 1", "2 2 2"]);
    assert_eq!(row("shift.wtr", &[(200, 2), (450, 2)]), ["1 1 2", "2 2 3"]);
    assert_eq!(row("no_shift.wtr", &[(200, 2), (450, 2 + 4)]), ["1 2 2"]);
    // the marks of a stop second say nothing
    assert_eq!(row("stop.wtr", &[(0, 12), (50, 1)]), ["1 2 1"]);
}

/// The order is 1 to 4, 5 to 7, 20, 8, 9.
#[test]
fn the_refusal_of_a_mark_comes_after_7_and_before_9() {
    let starts = |name: &str, bytes: &[u8], vehicle: &str, words: &str| {
        let told = gears(name, bytes, vehicle);
        assert!(told.out.starts_with(&format!("refused: {words}")) && told.code == Some(1), "{}", told.out);
    };
    let close = "sheet = vehicle\npower = 1612\nmass = 428\nrated = 10540\nidle = 300\ngears = 4\nndv 1 = 3833\nndv 2 = 2833\nndv 3 = 2733\nndv 4 = 2633\n";
    let [by_set_1, by_set_2] = [1, 2].map(|set| stored(&format!("close_{set}.vehicle"), format!("{close}rule set = {set}\n")));
    // 123.7 km/h in acceleration is too close to the upshift 2 to 3
    let bytes = trace(1, &[(1237, 1), (0, 8)]);
    starts("too_close.wtr", &bytes, &by_set_1, "9 too close to call, second 1: 123.7 km/h\n");
    starts("too_close.wtr", &bytes, &by_set_2, "20 a mark in a trace of version 1, under rule set 2, second 2: no 1. gear\n");
    starts("too_close_2.wtr", &trace(2, &[(1237, 1), (0, 0)]), &by_set_2, "9 too close to call, second 1: 123.7 km/h\n");
    let strong = stored("strong.vehicle", edited("rule_set_2.vehicle", "power = 720", "power = 3000"));
    starts("too_close.wtr", &bytes, &strong, "7 power to mass");
    let damaged = trace(1, &[(0, 8), (0, 16)]);
    starts("damaged_mark.wtr", &damaged, &of_demo("rule_set_2.vehicle"), "4 speed, flags or fourth byte wrong, second 2: ");
}

#[test]
fn a_mark_in_version_2_is_refused() {
    for phase in 0..4 {
        for (flags, marks) in MARKS {
            let bytes = trace(2, &[(0, 0), (50, phase + flags)]);
            let found = format!("second 2: speed 50, flags {}, fourth byte 0; 0 to 2,000 in 0.1 km/h, 0 to 3, 0", phase + flags);
            let words = format!("4 speed, flags or fourth byte wrong, {found}; it is marked {marks}, and version 2 has no marks");
            refused("marked_2.wtr", &bytes, &words);
            for vehicle in ["annex13.vehicle", "rule_set_2.vehicle"] {
                assert_eq!(gears("marked_2_gears.wtr", &bytes, &of_demo(vehicle)).out, format!("refused: {words}\n"));
            }
        }
    }
    // other faults of version 2 have nothing to do with marks
    let words = "4 speed, flags or fourth byte wrong, second 1: speed 0, flags 16, fourth byte 0; 0 to 2,000 in 0.1 km/h, 0 to 3, 0";
    refused("flags_2.wtr", trace(2, &[(0, 16)]), words);
}

#[test]
fn no_other_version_is_read() {
    let (table, row) = (to_be_made("other_version.csv"), to_be_made("other_version_row.csv"));
    for (version, number) in [(0, "0"), (4, "4"), (257, "257"), (258, "258"), (259, "259"), (512, "512"), (65_535, "65,535")] {
        let words = format!("1 under 8 bytes, mark, zero byte or version wrong: version {number}; 1 or 2");
        let bytes = trace(version, &SECONDS);
        refused(&format!("version_{version}.wtr"), &bytes, &words);
        let path = stored(&format!("version_{version}_again.wtr"), bytes);
        assert_eq!(run(&["gears", &path, &of_demo("annex13.vehicle"), "--csv", &row]).out, format!("refused: {words}\n"));
        assert_eq!(run(&["table", &path, &table]).out, format!("{path}: refused: {words}\n"));
        let told = run(&["check", "--pair", &of_demo("tall_second.wtr"), &path]);
        assert_eq!((told.out, told.code), (format!("{path}, the reduced trace: refused: {words}\n"), Some(1)));
        assert!(!Path::new(&table).exists() && !Path::new(&row).exists());
    }
}

/// The two of a pair may differ in version. Under rule set 2 the marks count of the one that the switch names.
#[test]
fn a_pair_of_two_versions() {
    let (marked, unmarked) = (of_demo("part1_normal.wtr"), of_demo("part1_unmarked.wtr"));
    for (normal, reduced) in [(&marked, &unmarked), (&unmarked, &marked)] {
        let told = run(&["check", "--pair", normal, reduced]);
        assert_eq!((told.out, told.code), (format!("{normal} and {reduced}: accepted\n"), Some(0)));
        for (switch, named) in [(&[][..], normal), (&["--reduced"], reduced)] {
            for vehicle in ["annex13.vehicle", "rule_set_2.vehicle"].map(of_demo) {
                let told = run(&[&["gears", "--pair", normal, reduced, &vehicle], switch].concat());
                let alone = run(&["gears", named, &vehicle]);
                assert_eq!((told.out.lines().skip(1).eq(alone.out.lines().skip(1)), told.code), (true, alone.code));
            }
        }
    }
    let told = run(&["gears", "--pair", &marked, &unmarked, &of_demo("rule_set_2.vehicle")]);
    assert_eq!(
        (told.out.as_str(), told.code),
        ("refused: 20 a mark in a trace of version 1, under rule set 2, second 38: no 1. gear\n", Some(1))
    );
}

/// A test may have traces of both versions; under rule set 2 the first marked one is named.
#[test]
fn a_test_with_traces_of_both_versions() {
    let [first, second, third] = ["part1_unmarked.wtr", "part2_normal.wtr", "part3_unmarked.wtr"].map(of_demo);
    let bags = of_demo("low_nox.bags");
    let told = run(&["test", &of_demo("annex13.vehicle"), &first, &second, &third, &bags]);
    assert_eq!((told.errors.as_str(), told.code), ("", Some(0)));
    let told = run(&["test", &of_demo("rule_set_2.vehicle"), &first, &second, &third, &bags]);
    let words = format!("{second}: refused: 20 a mark in a trace of version 1, under rule set 2, second 27: no gear-shift\n");
    assert_eq!((told.out, told.errors.as_str(), told.code), (words, "", Some(1)));
    let unmarked = of_demo("part2_unmarked.wtr");
    assert_eq!(run(&["test", &of_demo("rule_set_2.vehicle"), &first, &unmarked, &third, &bags]).code, Some(0));
}
