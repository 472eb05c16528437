//! A whole test: the rows of its parts in one, and the result; and a refusal of any file of it.

mod common;

use common::*;
use std::fs;
use std::path::Path;

const TRACES: [&str; 3] = ["part1_normal.wtr", "part2_reduced.wtr", "part3_normal.wtr"];

fn traces() -> [String; 3] {
    TRACES.map(of_demo)
}

/// `test` on a vehicle sheet, traces and a bag sheet, with options.
fn test(vehicle: &str, traces: &[String], bags: &str, options: &[&str]) -> Run {
    let traces: Vec<&str> = traces.iter().map(String::as_str).collect();
    run(&[&["test", vehicle], traces.as_slice(), &[bags], options].concat())
}

/// What follows the title and the empty line after it.
fn body(text: &str) -> &str {
    text.split_once("\n\n").unwrap().1
}

#[test]
fn a_test_is_its_gears_and_its_result() {
    let (vehicle, bags) = (of_demo("annex13.vehicle"), of_demo("low_nox.bags"));
    let told = test(&vehicle, &traces(), &bags, &[]);
    let mut expected = "Test of annex13.vehicle, rule set 1, class 3\n\n".to_string();
    for (i, name) in TRACES.iter().enumerate() {
        let row = run(&["gears", &of_demo(name), &vehicle]).out;
        let (first, last) = (600 * i + 1, 600 * i + 600);
        expected += &format!("Part {}, {name}, seconds {first} to {last} of the test\n\n{}\n", i + 1, body(&row));
    }
    expected += &run(&["result", &bags]).out;
    assert_eq!((told.out, told.errors.as_str(), told.code), (expected, "", Some(0)));
}

#[test]
fn a_test_in_other_forms() {
    let (vehicle, bags) = (of_demo("annex13.vehicle"), of_demo("low_nox.bags"));
    let [row, picture, result] = ["test.csv", "test.svg", "test_result.csv"].map(to_be_made);
    let told = test(&vehicle, &traces(), &bags, &["--csv", &row, "--svg", &picture, "--result-csv", &result]);
    assert_eq!((told.errors.as_str(), told.code), ("", Some(0)));
    let mut expected = "second of the test,part,second,speed in km/h,phase,gear,clutch,rule set\n".to_string();
    for (i, trace) in traces().iter().enumerate() {
        let alone = to_be_made("test_part.csv");
        run(&["gears", trace, &vehicle, "--csv", &alone]);
        let lines = fs::read_to_string(alone).unwrap();
        expected.extend((600 * i + 1..).zip(lines.lines().skip(1)).map(|(second, line)| format!("{second},{},{line}\n", i + 1)));
    }
    assert!(fs::read_to_string(row).unwrap() == expected);
    let picture = fs::read_to_string(picture).unwrap();
    assert!(picture.contains(">Test of annex13.vehicle, rule set 1, class 3</text>") && picture.contains(">1800</text>"));
    let alone = to_be_made("result.csv");
    run(&["result", &bags, "--csv", &alone]);
    assert_eq!(fs::read_to_string(result).unwrap(), fs::read_to_string(alone).unwrap());
}

#[test]
fn a_result_in_comma_separated_values() {
    let csv = to_be_made("figures.csv");
    let told = run(&["result", &of_demo("low_nox.bags"), "--csv", &csv]);
    let lines = fs::read_to_string(csv).unwrap();
    assert_eq!(lines.lines().next(), Some("part,figure,gas,lower end,upper end,limit,verdict"));
    assert_eq!(lines.lines().count(), 1 + 3 * 9 + 4 + 1 + 1);
    let not_measured = ",weighted in micrograms/km,NMHC,,,,not measured";
    for line in ["1,rate in micrograms/km,HC,262504,262580,,", ",weighted in micrograms/km,NOx,-3456,-3335,60000,pass", not_measured] {
        assert!(lines.contains(&format!("\n{line}\n")), "{line}");
    }
    // every figure is a printed one, without its commas
    let printed = told.out.replace(',', "");
    let words: Vec<&str> = printed.split_whitespace().collect();
    for line in lines.lines().skip(1).filter(|line| *line != not_measured) {
        let ends: Vec<&str> = line.split(',').skip(3).take(2).collect();
        assert!(words.windows(2).any(|pair| pair == ends), "{line}");
    }
}

/// `test` says these words of this file and nothing else, and writes nothing.
fn refused_in_test(vehicle: &str, traces: &[String], bags: &str, words: &str) {
    let outputs = ["refused_test.csv", "refused_test.svg", "refused_result.csv"].map(to_be_made);
    let told = test(vehicle, traces, bags, &["--csv", &outputs[0], "--svg", &outputs[1], "--result-csv", &outputs[2]]);
    assert_eq!((told.out, told.code), (format!("{words}\n"), Some(1)));
    assert!(!outputs.iter().any(|path| Path::new(path).exists()));
}

#[test]
fn a_refused_test_names_the_file() {
    let (vehicle, bags, good) = (of_demo("annex13.vehicle"), of_demo("low_nox.bags"), traces());
    let mut traces = traces();
    traces[1] = stored("part2.wtr", [b'W', b'T', b'R', 0, 1, 0, 1, 0, 0, 0, 0, 7]);
    let words =
        "refused: 4 speed, flags or fourth byte wrong, second 1: speed 0, flags 0, fourth byte 7; 0 to 2,000 in 0.1 km/h, 0 to 15, 0";
    refused_in_test(&vehicle, &traces, &bags, &format!("{}: {words}", traces[1]));
    let weak = stored("weak.vehicle", edited("annex13.vehicle", "power = 720", "power = 0"));
    let words = "refused: 5 vehicle sheet out of range, field 1, power: 0; 1 to 3,000 in 0.1 kW";
    refused_in_test(&weak, &good, &bags, &format!("{weak}: {words}"));
    let over = stored("over.bags", edited("low_nox.bags", "air nox = 0.83 ppm", "air nox = over range"));
    let words = "refused: 12 reading unusable, part 2, NOx, dilution air: over range; 0 to 65,536 ppm or 6.5536 %";
    refused_in_test(&vehicle, &good, &over, &format!("{over}: {words}"));
}

#[test]
fn a_test_has_a_trace_for_each_part() {
    let (vehicle, bags) = (of_demo("annex13.vehicle"), of_demo("low_nox.bags"));
    for count in [0, 1, 2, 4] {
        let traces = vec![of_demo(TRACES[0]); count];
        let told = test(&vehicle, &traces, &bags, &[]);
        let words = format!("3 traces expected, one for each part of {bags}, {count} given; --help says how to use it\n");
        assert_eq!((told.out.as_str(), told.errors, told.code), ("", words, Some(2)));
    }
    // class 1 drives part 1 twice
    let text = edited("low_nox.bags", "class = 3", "class = 1");
    let class1 = stored("class1.bags", text.split("[part 3]").next().unwrap());
    let told = test(&vehicle, &[of_demo(TRACES[0]), of_demo(TRACES[0])], &class1, &[]);
    assert!(told.out.contains("\nPart 2, part1_normal.wtr, seconds 601 to 1200 of the test\n"), "{}", told.out);
    assert_eq!(told.code, Some(0));
}
