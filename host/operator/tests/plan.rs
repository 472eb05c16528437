//! Plans: what a line of a list has against what `gears` gives for that vehicle, lists that are damaged, and files that are none.

mod common;

use common::*;
use std::fs;

const HEADING: &str = "name,power,mass,rated,idle,gears,ndv_1,ndv_2,ndv_3,ndv_4,ndv_5,ndv_6,ndv_7,ndv_8,rule_set";
const PLAN_HEADING: &str = "name,refusal,place,seconds in neutral,seconds in gear 1,seconds in gear 2,seconds in gear 3,seconds in gear 4,\
                            seconds in gear 5,seconds in gear 6,seconds in gear 7,seconds in gear 8,shifts,seconds with the clutch out";

/// Annex 13's machine, and what the plan says of it on part 1.
const MACHINE: &str = "720,199,11800,1150,6,13366,9491,7616,6569,5885,5404,,,1";
const COUNTS: &str = ",,,67,134,252,124,23,0,0,0,0,37,163";

/// A list with these lines under its heading.
fn list(name: &str, lines: &[String]) -> String {
    stored(name, format!("{HEADING}\n{}\n", lines.join("\n")))
}

/// What `plan` says of a list on part 1, the lines under its heading apart.
fn planned(list: &str) -> (Vec<String>, Run) {
    let told = run(&["plan", &of_demo("part1_normal.wtr"), list]);
    let mut lines = told.out.lines().map(str::to_string);
    assert_eq!(lines.next().as_deref(), Some(PLAN_HEADING), "{}", told.errors);
    (lines.collect(), told)
}

/// The vehicle sheet of a line of the demo's list, which has no comma in a value.
fn sheet_of(fields: &[&str]) -> String {
    let keys = ["power", "mass", "rated", "idle", "gears"].map(str::to_string);
    let keys = keys.into_iter().chain((1..=8).map(|gear| format!("ndv {gear}"))).chain(["rule set".to_string()]);
    let lines = keys.zip(fields).filter(|(_, value)| !value.is_empty()).map(|(key, value)| format!("{key} = {value}\n"));
    format!("sheet = vehicle\n{}", lines.collect::<String>())
}

/// The line of a plan for a vehicle by itself: from the row that `gears` writes, or from its refusal.
fn alone(trace: &str, at: usize, fields: &[&str]) -> String {
    let sheet = stored(&format!("planned_{at}.vehicle"), sheet_of(fields));
    let csv = to_be_made(&format!("planned_{at}.csv"));
    let told = run(&["gears", trace, &sheet, "--csv", &csv]);
    if let Some(refused) = told.out.strip_prefix("refused: ") {
        let number = refused.split(' ').next().unwrap();
        let words = ["second ", "field ", "gear "].iter().find_map(|word| refused.split_once(&format!(", {word}")));
        let place = words.map_or(String::new(), |(_, place)| place.chars().take_while(char::is_ascii_digit).collect());
        return format!(",{number},{place},,,,,,,,,,,");
    }
    let rows = fs::read_to_string(csv).unwrap();
    let row: Vec<Vec<&str>> = rows.lines().skip(1).map(|line| line.split(',').collect()).collect();
    let gears: Vec<usize> = row.iter().map(|cells| cells[3].parse().unwrap()).collect();
    let seconds: String = (0..=8).map(|gear| format!(",{}", gears.iter().filter(|each| **each == gear).count())).collect();
    let shifts = gears.windows(2).filter(|pair| pair[0] != pair[1]).count();
    let out = row.iter().filter(|cells| cells[4] == "out").count();
    format!(",,{seconds},{shifts},{out}")
}

#[test]
fn a_line_is_what_gears_gives_for_its_vehicle() {
    for trace in ["part1_normal.wtr", "part3_unmarked.wtr"].map(of_demo) {
        let told = run(&["plan", &trace, &of_demo("ratios.csv")]);
        assert_eq!((told.errors.as_str(), told.code), ("", Some(0)));
        let list = demo_text("ratios.csv");
        assert_eq!(told.out.lines().count(), list.lines().count());
        for (at, (line, planned)) in list.lines().zip(told.out.lines()).enumerate().skip(1) {
            // the last fourteen cells, since a name may have a comma
            let fields: Vec<&str> = line.rsplitn(15, ',').collect::<Vec<_>>().into_iter().rev().skip(1).collect();
            let name = line.strip_suffix(&format!(",{}", fields.join(","))).unwrap();
            assert_eq!(planned, format!("{name}{}", alone(&trace, at, &fields)));
        }
    }
}

#[test]
fn the_demo_has_each_refusal_of_a_vehicle() {
    let told = run(&["plan", &of_demo("part1_normal.wtr"), &of_demo("ratios.csv")]).out;
    for refused in [",20,38,", ",9,48,", ",6,5,", ",7,,", ",5,2,", ",5,5,"] {
        assert!(told.contains(refused), "{refused}");
    }
    assert!(told.contains(&format!("\nas built{COUNTS}\n")), "{told}");
}

#[test]
fn a_table_goes_to_a_file() {
    let csv = to_be_made("plan_file.csv");
    let (trace, ratios) = (of_demo("part1_normal.wtr"), of_demo("ratios.csv"));
    let told = run(&["plan", &trace, &ratios, "--csv", &csv]);
    assert_eq!(told.out, "Plan of ratios.csv on part1_normal.wtr, 600 seconds: 23 vehicles, 6 refused\n");
    assert_eq!((told.errors.as_str(), told.code), ("", Some(0)));
    assert_eq!(fs::read_to_string(csv).unwrap(), run(&["plan", &trace, &ratios]).out);
}

#[test]
fn no_table_is_written_over_what_it_is_made_of() {
    let text = demo_text("ratios.csv");
    let ratios = stored("kept.csv", &text);
    let told = run(&["plan", &of_demo("part1_normal.wtr"), &ratios, "--csv", &ratios]);
    assert_eq!((told.out.as_str(), told.code), ("", Some(2)));
    assert_eq!(fs::read_to_string(ratios).unwrap(), text);
}

/// Each field with something that is no number, with none, and with one that is too large; the vehicles beside it are planned.
#[test]
fn what_cannot_be_read_refuses_its_vehicle_alone() {
    let names: Vec<&str> = HEADING.split(',').skip(1).collect();
    let read = (0..14).filter(|at| !(11..13).contains(at));
    for (at, value) in read.flat_map(|at| ["abc", "", "1.5", "-1", "4294967296", "99999999999999999999"].map(|value| (at, value))) {
        let mut fields: Vec<&str> = MACHINE.split(',').collect();
        fields[at] = value;
        let lines = [format!("before,{MACHINE}"), format!("damaged,{}", fields.join(",")), format!("behind,{MACHINE}")];
        let path = list("damaged.csv", &lines);
        let (planned, told) = planned(&path);
        let place = at + 1;
        assert_eq!(planned, [format!("before{COUNTS}"), format!("damaged,5,{place},,,,,,,,,,,"), format!("behind{COUNTS}")], "{value}");
        let found = if value.is_empty() { "missing".to_string() } else { format!("'{value}'") };
        let is_whole = value.parse::<i128>().is_ok();
        let noted = told.errors.starts_with(&format!("{path}: line 3: '{}' is {found}, expected is a whole number, ", names[at]));
        assert_eq!((noted, told.errors.is_empty()), (!is_whole, is_whole), "{}", told.errors);
        assert_eq!(told.code, Some(0));
    }
}

/// A line with other cells than the heading is no vehicle: it is refused at the first place, whatever it holds.
#[test]
fn a_line_of_other_cells_is_no_vehicle() {
    let short = MACHINE.rsplit_once(',').unwrap().0;
    for damaged in [
        "",
        "a",
        &format!("a,{short}"),
        &format!("a,{MACHINE},"),
        &format!("a,b,{MACHINE}"),
        &format!("\"a,{MACHINE}"),
        &format!("\"a\"b,{MACHINE}"),
    ] {
        let path = list("cells.csv", &[damaged.to_string(), format!("behind,{MACHINE}")]);
        let (planned, told) = planned(&path);
        assert_eq!(planned, [",5,1,,,,,,,,,,,".to_string(), format!("behind{COUNTS}")], "{damaged}");
        assert!(
            told.errors.starts_with(&format!("{path}: line 2: '"))
                && told.errors.ends_with("', expected are the 15 cells of the first line\n"),
            "{}",
            told.errors
        );
    }
}

#[test]
fn names_are_as_they_are_given() {
    let names = ["", "\"a,b\"", "\"say \"\"a\"\"\"", "ä", "=1+1"];
    let lines: Vec<String> = names.iter().map(|name| format!("{name},{MACHINE}")).collect();
    let (planned, told) = planned(&list("names.csv", &lines));
    assert!(planned.iter().eq(names.map(|name| format!("{name}{COUNTS}")).iter()), "{planned:?}");
    assert_eq!(told.errors, "");
}

/// Blanks about the cells, other ends of lines, a mark of the encoding, and no end of the last line.
#[test]
fn a_list_as_others_write_it() {
    let spaced = MACHINE.replace(',', " , ");
    let path = stored("others.csv", format!("\u{feff}{HEADING}\r\n\"one\" , {spaced}\r\ntwo,{MACHINE}"));
    let (planned, told) = planned(&path);
    assert_eq!((planned, told.errors.as_str()), (vec![format!("one{COUNTS}"), format!("two{COUNTS}")], ""));
}

#[test]
fn ratios_past_the_last_gear_are_noted_once() {
    let past = MACHINE.replace(",,,", ",abc,5000,");
    let path = list("past.csv", &[format!("one,{MACHINE}"), format!("two,{past}"), format!("three,{past}")]);
    let (planned, told) = planned(&path);
    assert_eq!(planned, ["one", "two", "three"].map(|name| format!("{name}{COUNTS}")));
    let note = "2 of its vehicles have a ratio past their last gear, which is not read; the first stands in line 3";
    assert_eq!(told.errors, format!("{path}: {note}\n"));
}

#[test]
fn a_list_of_none_is_a_plan_of_none() {
    for (name, text) in [("none.csv", format!("{HEADING}\n")), ("none_either.csv", HEADING.to_string())] {
        let path = stored(name, text);
        let (planned, told) = planned(&path);
        assert_eq!((planned.len(), told.errors.as_str(), told.code), (0, "", Some(0)));
        let told = run(&["plan", &stored("planned_short.wtr", b"WTR"), &path]);
        assert_eq!(
            (told.out.as_str(), told.code),
            ("refused: 1 under 8 bytes, mark, zero byte or version wrong: 3 bytes; at least 8\n", Some(1))
        );
    }
}

/// More vehicles than one call of the core has. The error stream is no terminal here, and nothing is said on it.
#[test]
fn a_long_list() {
    let damaged = MACHINE.replacen("199", "29", 1);
    let of = |at: usize| if at % 5 == 4 { (damaged.as_str(), ",5,2,,,,,,,,,,,") } else { (MACHINE, COUNTS) };
    let count = 9000;
    let lines: Vec<String> = (0..count).map(|at| format!("{at},{}", of(at).0)).collect();
    let (planned, told) = planned(&list("long.csv", &lines));
    assert!((0..count).map(|at| format!("{at}{}", of(at).1)).eq(planned));
    assert_eq!((told.errors.as_str(), told.code), ("", Some(0)));
}

#[test]
fn a_refused_trace_has_no_plan() {
    let ratios = of_demo("ratios.csv");
    let mut bytes = fs::read(of_demo("part1_normal.wtr")).unwrap();
    bytes[8 + 4 * 9 + 3] = 1;
    let csv = to_be_made("no_plan.csv");
    let told = run(&["plan", &stored("planned_damaged.wtr", &bytes), &ratios, "--csv", &csv]);
    assert!(told.out.starts_with("refused: 4 speed, flags or fourth byte wrong, second 10: "), "{}", told.out);
    assert_eq!((told.errors.as_str(), told.code), ("", Some(1)));
    assert!(!std::path::Path::new(&csv).exists());
}

#[test]
fn files_that_are_no_list() {
    let trace = of_demo("part1_normal.wtr");
    let headless = stored("headless.csv", format!("one,{MACHINE}\n"));
    let told = run(&["plan", &trace, &headless]);
    assert_eq!((told.out.as_str(), told.code), ("", Some(2)));
    assert_eq!(told.errors, format!("{headless}: the first line is not '{HEADING}'\n"));
    for (name, words) in [
        ("annex13.vehicle", "this is a vehicle sheet, not a list of vehicles"),
        ("part1_normal.wtr", "this is a trace, not a list of vehicles"),
        ("cycles/part1_normal.csv", "this is a cycle table, not a list of vehicles"),
    ] {
        let told = run(&["plan", &trace, &of_demo(name)]);
        assert_eq!((told.out.as_str(), told.errors, told.code), ("", format!("{}: {words}\n", of_demo(name)), Some(2)));
    }
    let told = run(&["plan", &trace, "/nowhere/at/all"]);
    assert!(told.errors.starts_with("/nowhere/at/all: cannot be read: ") && told.code == Some(2), "{}", told.errors);
}

#[test]
fn a_list_is_no_other_file() {
    let ratios = of_demo("ratios.csv");
    let told = run(&["check", &ratios]);
    assert_eq!((told.errors, told.code), (format!("{ratios}: this is a list of vehicles, of which 'plan' makes a plan\n"), Some(2)));
    let told = run(&["gears", &of_demo("part1_normal.wtr"), &ratios]);
    assert!(told.errors.starts_with(&format!("{ratios}: this is a list of vehicles, not a vehicle sheet")), "{}", told.errors);
    assert_eq!(told.code, Some(1));
    let told = run(&["plan", &ratios, &ratios]);
    assert!(told.out.starts_with("refused: 1 "), "{}", told.out);
    assert_eq!((told.errors, told.code), (format!("{ratios}: this is a list of vehicles, not a trace\n"), Some(1)));
}

#[test]
fn wrong_use() {
    for given in [&["plan"][..], &["plan", "a"], &["plan", "a", "b", "c"], &["plan", "a", "b", "--csv"], &["plan", "a", "b", "--svg", "c"]]
    {
        let told = run(given);
        assert_eq!((told.out.as_str(), told.code), ("", Some(2)), "{given:?}");
    }
}
