//! Hydrocarbons without methane (M-108): results with and without them, what a damaged sheet of a bench with the cutter ends in, and lots of which some
//! machines have them.

mod common;

use common::lots::*;
use common::*;
use std::fs;

/// The result of a sheet, printed and stored; it is accepted without a note.
fn result(name: &str, text: &str) -> (String, String) {
    let (sheet, csv) = (stored(&format!("{name}.bags"), text), to_be_made(&format!("{name}.csv")));
    let told = run(&["result", &sheet, "--csv", &csv]);
    assert_eq!((told.errors.as_str(), told.code), ("", Some(0)), "{}", told.out);
    (told.out, fs::read_to_string(csv).unwrap())
}

/// The lines that do not name NMHC.
fn of_other_gases(text: &str) -> Vec<&str> {
    text.lines().filter(|line| !line.contains("NMHC")).collect()
}

const NOT_MEASURED: &str = "\n    NMHC                      not measured: the cutter is not fitted\n";
const NOT_MEASURED_CELLS: &str = "\n,weighted in micrograms/km,NMHC,,,,not measured\n";

#[test]
fn a_result_with_nmhc() {
    let (told, csv) = result("with", &demo_text("gas.bags"));
    for line in [
        "    NMHC                                 2,277,466            2,278,390",
        "    NMHC                                   578,918              579,154",
        "    NMHC                                   461,815              462,032              480,000  pass",
    ] {
        assert!(told.contains(&format!("\n{line}\n")), "{told}");
    }
    for line in [
        "1,mass in micrograms,NMHC,2277466,2278390,,",
        "1,rate in micrograms/km,NMHC,578918,579154,,",
        ",weighted in micrograms/km,NMHC,461815,462032,480000,pass",
    ] {
        assert!(csv.contains(&format!("\n{line}\n")), "{csv}");
    }
    assert_eq!((told.matches("    NMHC ").count(), csv.matches(",NMHC,").count()), (5, 5));
}

/// Of a bench without the cutter NMHC is not measured, and every other figure is the same: G and the fuel go by all hydrocarbons.
#[test]
fn a_result_without_nmhc_has_the_other_figures() {
    let (with, csv_with) = result("other_figures", &demo_text("gas.bags"));
    let (without, csv_without) = result("other_figures", &without_cutter(&demo_text("gas.bags")));
    assert!(without.contains(NOT_MEASURED) && csv_without.contains(NOT_MEASURED_CELLS), "{without}");
    assert_eq!((without.matches("NMHC").count(), csv_without.matches("NMHC").count()), (1, 1));
    assert_eq!((of_other_gases(&with), of_other_gases(&csv_with)), (of_other_gases(&without), of_other_gases(&csv_without)));
}

/// One reading that is not fitted, in whichever bag or air, is as if there were no cutter.
#[test]
fn one_reading_not_fitted_leaves_nmhc_out() {
    for text in [demo_text("gas.bags"), with_cutter(&demo_text("low_nox.bags"), "2.4 ppm", "1.9 ppm")] {
        let expected = result("not_fitted", &without_cutter(&text));
        let lines: Vec<&str> = text.lines().collect();
        let readings: Vec<usize> = (0..lines.len()).filter(|at| lines[*at].contains(" cutter = ")).collect();
        assert_eq!(readings.len(), 2 * text.matches("[part ").count());
        for at in readings {
            let key = lines[at].split_once(" = ").unwrap().0;
            let line = format!("{key} = Not  Fitted");
            let edited: Vec<&str> = lines.iter().enumerate().map(|(i, old)| if i == at { line.as_str() } else { old }).collect();
            assert_eq!(result("not_fitted", &edited.join("\n")), expected, "line {}", at + 1);
        }
    }
}

/// A sheet that names one of the cutter's keys is of a bench with the cutter: none of the others is guessed, and each that is missing is named.
#[test]
fn one_key_of_the_cutter_needs_the_others() {
    for key in CUTTER_KEYS {
        let text: Vec<String> = demo_text("gas.bags").lines().map(str::to_string).collect();
        let is_kept = |line: &&String| line.starts_with(key) || !CUTTER_KEYS.iter().any(|other| line.starts_with(other));
        let text: Vec<&String> = text.iter().filter(is_kept).collect();
        let path = stored("one_key.bags", text.iter().map(|line| format!("{line}\n")).collect::<String>());
        let told = run(&["check", &path]);
        assert!(told.out.contains(": refused: 11 bag sheet value, ") && told.out.contains(": no value; "), "{key}: {}", told.out);
        // three keys of the test, and three of each part
        let missing = if key.contains("cutter") || key == "density nmhc" { 3 + 2 * 2 } else { 2 + 2 * 3 };
        assert_eq!((told.errors.matches(" is missing, expected is ").count(), told.code), (missing, Some(1)), "{key}: {}", told.errors);
    }
    // in a place where it is not read, too
    let text = without_cutter(&demo_text("gas.bags")) + "limit nmhc = 480000\n";
    let told = run(&["check", &stored("misplaced.bags", text)]);
    assert!(told.out.contains(": refused: 11 bag sheet value, test, field 12, limit nmhc: no value; "), "{}", told.out);
    assert!(told.errors.contains(": unknown key 'limit nmhc'\n") && told.errors.contains(": 'limit nmhc' is missing, "), "{}", told.errors);
}

const RANGE: &str = "0 to 65,536 ppm or 6.5536 % behind the cutter, or not fitted";

#[test]
fn damaged_readings_behind_the_cutter() {
    let words = |value: &str| format!("12 reading unusable, part 2, NMHC, bag: {value}; {RANGE}");
    let (_, line) = with_value("gas.bags", "bag cutter", None);
    let second = line + demo_text("gas.bags").lines().skip(line).position(|line| line.starts_with("bag cutter")).unwrap() + 1;
    let with = |value: &str| edited("gas.bags", "bag cutter = 7.3 ppm", &format!("bag cutter = {value}"));
    for value in ["over range", "-0.1 ppm", "1e39 ppm", "65537 ppm", "7 %"] {
        refused("cutter.bags", with(value), &words(value));
        // where another bag leaves NMHC out, too
        let text = with(value).replace("bag cutter = 9.6 ppm", "bag cutter = not fitted");
        refused("cutter.bags", text, &words(value));
    }
    let expected = "expected is a reading: '12.5 ppm', '1.2 %', 'over range' or 'not fitted'";
    for value in ["", "7.3", "7,3 ppm", "nan ppm", "none", "not_fitted", "not fitted ppm"] {
        let note = format!("line {second}: 'bag cutter' is '{value}', {expected}");
        refused_with_note("unread_cutter.bags", with(value), &words("no value"), &note);
    }
    let part = 1 + demo_text("gas.bags").lines().position(|line| line == "[part 2]").unwrap();
    let note = format!("line {part}: [part 2]: 'bag cutter' is missing, {expected}");
    refused_with_note("no_cutter.bags", edited("gas.bags", "bag cutter = 7.3 ppm\n", ""), &words("no value"), &note);
    let twice = with("7.3 ppm\nbag cutter = not fitted");
    let note = format!("line {}: key 'bag cutter' stands in line {second} already", second + 1);
    refused_with_note("two_cutters.bags", twice, &words("no value"), &note);
}

/// Of the other gases not fitted stays a refusal.
#[test]
fn hc_that_is_not_fitted_is_refused() {
    let words = "12 reading unusable, part 1, HC, bag: not fitted; 0 to 65,536 ppm or 6.5536 %";
    refused("no_hc.bags", edited("gas.bags", "bag hc = 68.2 ppm", "bag hc = not fitted"), words);
}

#[test]
fn efficiencies_that_are_too_close() {
    let with = |methane: u32, ethane: u32| {
        edited("gas.bags", "efficiency methane = 42", &format!("efficiency methane = {methane}"))
            .replace("efficiency ethane = 987", &format!("efficiency ethane = {ethane}"))
    };
    for (methane, ethane) in [(42, 541), (0, 499), (500, 999), (501, 1000), (987, 42), (1000, 1000), (0, 0)] {
        let words = "19 ethane efficiency under methane efficiency plus 500 thousandths";
        let found =
            format!("methane {}, ethane {}; ethane at least methane + 500 in 1/1,000", grouped(methane.into()), grouped(ethane.into()));
        refused("close.bags", with(methane, ethane), &format!("{words}: {found}"));
        // a test without NMHC has no use for them
        result("close_not_fitted", &with(methane, ethane).replace("air cutter = 1.9 ppm", "air cutter = not fitted"));
    }
    for (methane, ethane) in [(42, 542), (0, 500), (500, 1000), (0, 1000)] {
        result("apart", &with(methane, ethane));
    }
    // an earlier refusal goes first
    let words = "14 H above 30, part 1";
    refused("close_and_humid.bags", with(42, 541).replacen("saturation = 2733", "saturation = 11000", 1), words);
}

/// A reading behind the cutter above all hydrocarbons gives NMHC below zero, which is a figure like any other.
#[test]
fn nmhc_below_zero() {
    let (told, csv) = result("below", &with_cutter(&demo_text("low_nox.bags"), "40 ppm", "0 ppm"));
    let cells = csv.lines().find_map(|line| line.strip_prefix(",weighted in micrograms/km,NMHC,")).unwrap();
    let cells: Vec<&str> = cells.split(',').collect();
    let [lower, upper]: [i64; 2] = [cells[0], cells[1]].map(|cell| cell.parse().unwrap());
    assert!(lower < upper && upper < 0 && cells[3] == "pass", "{cells:?}");
    assert!(told.contains(&format!("    NMHC{:>42} {:>20}{:>21}  pass\n", grouped(lower), grouped(upper), "480,000")), "{told}");
}

#[test]
fn a_whole_test_with_nmhc() {
    let bags = stored("whole_nmhc.bags", with_cutter(&demo_text("low_nox.bags"), "2.4 ppm", "1.9 ppm"));
    let vehicle = of_demo("annex13.vehicle");
    let traces = ["part1_normal.wtr", "part2_normal.wtr", "part3_normal.wtr"].map(of_demo);
    let (of_test, of_result) = (to_be_made("whole_nmhc.csv"), to_be_made("result_nmhc.csv"));
    let told = run(&["test", &vehicle, &traces[0], &traces[1], &traces[2], &bags, "--result-csv", &of_test]);
    let alone = run(&["result", &bags, "--csv", &of_result]);
    assert!(told.out.ends_with(&alone.out) && alone.out.matches("    NMHC ").count() == 7, "{}", told.out);
    assert_eq!(fs::read_to_string(of_test).unwrap(), fs::read_to_string(of_result).unwrap());
}

fn gas_sheets() -> Vec<String> {
    GAS_LOT.map(of_demo).to_vec()
}

#[test]
fn a_lot_of_which_some_have_nmhc() {
    let csv = to_be_made("some.csv");
    let told = lot(&gas_sheets(), &["--csv", &csv]);
    assert_eq!((told.errors.as_str(), told.code), ("", Some(0)));
    let head = "\
Lot of 3 machines

 index  HC         CO         NOx        CO2        NMHC       file
     0  fail       pass       pass       pass       pass       gas.bags
     1  pass       pass       pass       pass       -          serial_2044.bags
     2  fail       pass       pass       pass       fail       serial_2058.bags
";
    let tail = "
NMHC, measured on 2 of 3 machines: passed 1, failed 1, undecided 0
  weighted, micrograms/km                lower end            upper end
    sum                                    975,792              976,206
    mean                                   487,896              488,103
    worst, index 2                         513,977              514,174  serial_2058.bags
";
    assert!(told.out.starts_with(head) && told.out.ends_with(tail), "{}", told.out);
    assert!(demo_text("stdout").ends_with(&format!("\n\n{}", told.out)), "the demo does not end with it");
    let line = "\nNMHC,2,1,1,0,975792,976206,487896,488103,2,513977,514174,serial_2058.bags\n";
    assert!(fs::read_to_string(csv).unwrap().ends_with(line));
}

/// The worst machine is named by its place in the whole lot.
#[test]
fn the_index_is_that_in_the_lot() {
    let [_, without, with] = GAS_LOT.map(of_demo);
    let told = lot(&[without.clone(), without.clone(), with.clone(), without.clone()], &[]).out;
    assert!(told.contains("\nNMHC, measured on 1 of 4 machines: passed 0, failed 1, undecided 0\n"), "{told}");
    assert!(told.ends_with("    worst, index 2                         513,977              514,174  serial_2058.bags\n"), "{told}");
    let told = lot(&[without.clone(), without], &[]).out;
    assert!(!told.contains("NMHC  ") && told.ends_with("\n\nNMHC: not measured on any machine\n"), "{told}");
}

/// Stored results give the lot of their sheets; so does one that was stored before there was NMHC, which has no line of it.
#[test]
fn stored_results_with_and_without_nmhc() {
    let (sheets, results) = (gas_sheets(), stored_of(&GAS_LOT, "gas_"));
    let as_sheets = |text: String| text.replace("gas_", "").replace(".csv", ".bags");
    let expected = lot(&sheets, &[]).out;
    let told = lot(&results, &[]);
    assert_eq!((as_sheets(told.out), told.errors.as_str(), told.code), (expected.clone(), "", Some(0)));
    let text = fs::read_to_string(&results[1]).unwrap();
    assert!(text.contains(NOT_MEASURED_CELLS));
    let before = stored("gas_serial_2044.csv", text.replace(NOT_MEASURED_CELLS, "\n"));
    let told = lot(&[sheets[0].clone(), before, results[2].clone()], &[]);
    assert_eq!((as_sheets(told.out), told.errors.as_str(), told.code), (expected, "", Some(0)));
}

/// A lot that was stored before there was NMHC is the lot of today, which says that none has it.
#[test]
fn a_lot_of_before() {
    let results = results("before_");
    let expected = lot(&results, &[]).out;
    for file in &results {
        let text = fs::read_to_string(file).unwrap();
        assert!(text.contains(NOT_MEASURED_CELLS));
        fs::write(file, text.replace(NOT_MEASURED_CELLS, "\n")).unwrap();
    }
    let told = lot(&results, &[]);
    assert_eq!((told.out, told.errors.as_str(), told.code), (expected, "", Some(0)));
}

/// Nothing of a damaged line is guessed: it is no result without NMHC.
#[test]
fn stored_nmhc_that_is_malformed() {
    let expected = format!("{EXPECTED}, or ',,,not measured' where no part has it");
    for words in
        ["", ",,,", ",,,not", ",,480000,not measured", "1,2,480000,not measured", "1,2,480000,", "1,2,480000,none", ",,,not measured"]
    {
        let (file, line) = with_weighted("gas.bags", "nmhc_malformed.csv", "NMHC", Some(words));
        no_value_behind(GAS_LOT[2], &file, "NMHC", &format!("line {line}: weighted NMHC is '{words}', {expected}"));
    }
    let (file, _) = with_weighted("gas.bags", "nmhc_left_out.csv", "NMHC", None);
    no_value_behind(GAS_LOT[2], &file, "NMHC", &format!("weighted NMHC is missing, {expected}"));
    let twice = ",,,not measured\n,weighted in micrograms/km,NMHC,,,,not measured";
    for sheet in ["gas.bags", "gas_lot/serial_2044.bags"] {
        let (file, line) = with_weighted(sheet, "nmhc_twice.csv", "NMHC", Some(twice));
        no_value_behind(GAS_LOT[2], &file, "NMHC", &format!("line {}: weighted NMHC stands in line {line} already", line + 1));
    }
}

/// A stored result with NMHC that breaks off before its end is refused, wherever it does.
#[test]
fn stored_nmhc_that_breaks_off() {
    let whole = result_of(&of_demo("gas.bags"), "nmhc_whole.csv");
    let text = fs::read_to_string(&whole).unwrap();
    let (first, end) = (text.find(",weighted ").unwrap(), text.find("\n,fuel ").unwrap());
    for cut in first..end {
        let file = stored("nmhc_broken.csv", &text[..cut]);
        let told = lot(std::slice::from_ref(&file), &[]);
        assert!(told.out.starts_with(&format!("{file}: refused: {FAULT}, index 0, ")) && !told.errors.is_empty(), "{cut}: {}", told.out);
    }
    assert_eq!(lot(&[stored("nmhc_broken.csv", &text[..end])], &[]).code, Some(0));
}

/// A result without NMHC that an editor has stored anew is read all the same.
#[test]
fn a_line_of_nmhc_from_an_editor() {
    let text = fs::read_to_string(result_of(&of_demo("gas_lot/serial_2044.bags"), "editor_nmhc.csv")).unwrap();
    for text in [text.replace('\n', "\r\n"), text.replace("\n,", "\n ,")] {
        let told = lot(&[stored("editor_nmhc.csv", text)], &[]);
        assert_eq!((told.errors.as_str(), told.code), ("", Some(0)), "{}", told.out);
    }
}

/// Ends of NMHC that the core refuses are those of a machine that has it.
#[test]
fn ends_of_nmhc_that_the_core_refuses() {
    let good = of_demo("gas_lot/serial_2044.bags");
    let (file, _) = with_weighted("gas.bags", "nmhc_ends.csv", "NMHC", Some("5,4,480000,pass"));
    let words = format!("{file}: refused: {FAULT}, index 1, NMHC: lower end 5, upper end 4; {ENDS}");
    refused_lot(&[good.clone(), file], &words, "");
    let (file, _) = with_weighted("gas.bags", "nmhc_taken.csv", "NMHC", Some("-10000000000000,10000000000000,480000,undecided"));
    let told = lot(&[good, file], &[]);
    assert!(told.out.contains("\nNMHC, measured on 1 of 2 machines: passed 0, failed 0, undecided 1\n"), "{}", told.out);
}

/// A limit of NMHC that is not the first's is noted, but not of a machine that has no NMHC to hold against it.
#[test]
fn another_limit_of_nmhc_is_noted() {
    let [first, without, with] = GAS_LOT.map(of_demo);
    let other = |name: &str, sheet: &str| stored(name, edited(sheet, "limit nmhc = 480000", "limit nmhc = 500000"));
    let (of_with, of_without) = (other("limit_with.bags", GAS_LOT[2]), other("limit_without.bags", GAS_LOT[1]));
    let told = lot(&[first.clone(), of_without, of_with.clone(), without, with], &[]);
    let note = format!("{of_with}: seems of another type: limit nmhc is 500,000, in {first} it is 480,000\n");
    assert_eq!((told.errors, told.code), (note, Some(0)));
}

/// A refusal of the cutter's stops the lot, as any other does.
#[test]
fn a_refused_cutter_stops_the_lot() {
    let good = of_demo("gas.bags");
    let over = stored("over_cutter.bags", edited("gas.bags", "bag cutter = 9.6 ppm", "bag cutter = over range"));
    let words = format!("{over}: refused: 12 reading unusable, part 1, NMHC, bag: over range; {RANGE}");
    refused_lot(&[good.clone(), over], &words, "");
    let close = stored("close_lot.bags", edited("gas.bags", "efficiency methane = 42", "efficiency methane = 488"));
    let told = lot(&[good, close.clone()], &[]).out;
    assert!(told.starts_with(&format!("{close}: refused: 19 ethane efficiency under methane efficiency plus 500 thousandths: ")), "{told}");
}

#[test]
fn the_help_says_what_the_cutter_needs() {
    let told = run(&["help", "result"]).out;
    for key in CUTTER_KEYS {
        assert!(told.contains(&format!("\n  {key} = ")), "{key}");
    }
    for words in ["A sheet that names none of them is one of a bench without the cutter", "leaves NMHC out of the whole test"] {
        assert!(told.contains(words), "{words}");
    }
}
