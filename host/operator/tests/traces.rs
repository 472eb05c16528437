//! Traces, alone and in pairs, their rows, and the house files that they are made as.

mod common;

use common::*;
use std::fs;
use std::path::Path;

const CYCLES: [&str; 6] = ["part1_normal", "part1_reduced", "part2_normal", "part2_reduced", "part3_normal", "part3_reduced"];

#[test]
fn house_files_come_from_the_tables() {
    for name in CYCLES {
        let made = to_be_made(&format!("{name}_made.wtr"));
        let told = run(&["house-file", &of_demo(&format!("cycles/{name}.csv")), &made, "--marks"]);
        assert_eq!((told.out, told.errors.as_str(), told.code), (format!("{made}: a trace of 600 seconds, version 1\n"), "", Some(0)));
        let made = fs::read(made).unwrap();
        for stored in ["demo", "crates/gear_figures/data"] {
            let file = demo().join("..").join(stored).join(format!("{name}.wtr"));
            assert!(made == fs::read(&file).unwrap(), "{} differs from its table", file.display());
        }
    }
}

#[test]
fn the_demo_s_traces_without_marks_come_from_their_tables() {
    for (name, seconds) in [("tall_second", 34), ("part1_unmarked", 600), ("part2_unmarked", 600), ("part3_unmarked", 600)] {
        let made = to_be_made(&format!("{name}_made.wtr"));
        let told = run(&["house-file", &of_demo(&format!("cycles/{name}.csv")), &made]);
        let words = format!("{made}: a trace of {seconds} seconds, version 2\n");
        assert_eq!((told.out, told.errors.as_str(), told.code), (words, "", Some(0)));
        assert!(fs::read(made).unwrap() == fs::read(of_demo(&format!("{name}.wtr"))).unwrap(), "{name}.wtr differs from its table");
    }
}

/// The unmarked traces of the demo have the speeds and the phases of the normal ones, and nothing else.
#[test]
fn the_demo_s_unmarked_traces_are_the_normal_ones() {
    for part in 1..=3 {
        let [normal, unmarked] = ["normal", "unmarked"].map(|which| demo_text(&format!("cycles/part{part}_{which}.csv")));
        let phases = normal.lines().map(|line| line.split(',').take(3).collect::<Vec<_>>().join(","));
        assert!(unmarked.lines().eq(phases), "part {part}");
    }
}

#[test]
fn a_tall_second_gear_has_its_clutch_out_at_12_km_h() {
    let told = run(&["gears", &of_demo("tall_second.wtr"), &of_demo("tall_second.vehicle")]);
    assert!(told.out.contains("\n    10     17  2        out          12.0       12.0\n"), "{}", told.out);
    assert_eq!((told.errors.as_str(), told.code), ("", Some(0)));
}

/// The lines of the row of a demo's trace, without their rule set.
fn row_lines(trace: &str, vehicle: &str, file: &str) -> Vec<String> {
    let csv = to_be_made(file);
    let told = run(&["gears", &of_demo(trace), &of_demo(vehicle), "--csv", &csv]);
    assert_eq!((told.errors.as_str(), told.code), ("", Some(0)));
    assert!(told.out.lines().next().unwrap().contains(&format!(" for {vehicle}, rule set ")), "{}", told.out);
    let lines = fs::read_to_string(csv).unwrap();
    lines.lines().skip(1).map(|line| line.rsplit_once(',').unwrap().0.to_string()).collect()
}

/// Annex 13's machine under both rule sets: set 2 has gear 1 where set 1 has gear 2 in deceleration below 15.5 km/h, and nothing else differs.
#[test]
fn the_two_rule_sets_on_the_cycle() {
    for (part, differing) in [(1, 24), (2, 6), (3, 3)] {
        let trace = format!("part{part}_unmarked.wtr");
        let by_1 = row_lines(&trace, "annex13.vehicle", &format!("set_1_{part}.csv"));
        let by_2 = row_lines(&trace, "rule_set_2.vehicle", &format!("set_2_{part}.csv"));
        let pairs = by_1.iter().zip(&by_2).filter(|(one, two)| one != two);
        let gears: Vec<(&str, f64, &str, &str)> = pairs.map(|(one, two)| differing_second(one, two)).collect();
        assert_eq!(gears.len(), differing, "part {part}");
        assert!(gears.iter().all(|&(phase, speed, one, two)| (phase, one, two) == ("deceleration", "2", "1") && speed < 15.5), "{gears:?}");
    }
}

/// The phase, the speed and the gear by each set of a second whose gears differ.
fn differing_second<'a>(one: &'a str, two: &'a str) -> (&'a str, f64, &'a str, &'a str) {
    let (one, two): (Vec<&str>, Vec<&str>) = (one.split(',').collect(), two.split(',').collect());
    (one[2], one[1].parse().unwrap(), one[3], two[3])
}

#[test]
fn tables_come_from_the_traces() {
    for name in CYCLES {
        let made = to_be_made(&format!("{name}_made.csv"));
        let told = run(&["table", &of_demo(&format!("{name}.wtr")), &made]);
        assert_eq!((told.out, told.errors.as_str(), told.code), (format!("{made}: a table of 600 seconds\n"), "", Some(0)));
        let table = demo_text(&format!("cycles/{name}.csv"));
        assert!(fs::read_to_string(made).unwrap().lines().eq(table.lines()), "{name}");
    }
}

#[test]
fn every_mark_comes_back() {
    let seconds: Vec<u8> = (0..16).flat_map(|flags| [0xd0, 7, flags, 0]).collect();
    let bytes = [b"WTR\0\x01\0\x10\0".as_slice(), &seconds].concat();
    let (trace, table, again) = (stored("marks.wtr", &bytes), to_be_made("marks.csv"), to_be_made("marks_again.wtr"));
    assert_eq!(run(&["table", &trace, &table]).code, Some(0));
    assert_eq!(run(&["house-file", &table, &again, "--marks"]).code, Some(0));
    assert_eq!(fs::read(again).unwrap(), bytes);
}

const HEADING: &str = "second,speed_tenths,phase,no_gearshift,no_first";

#[test]
fn a_malformed_table_makes_no_house_file() {
    let lines = ["2,0,stop,0,0", "1,-1,stop,0,0", "1,65536,stop,0,0", "1,0,halt,0,0", "1,0,stop,2,0", "1,0,stop,0", "1,0,stop,0,0,0", ""];
    let made = to_be_made("malformed_made.wtr");
    for line in lines {
        let table = stored("malformed.csv", format!("{HEADING}\n{line}\n"));
        let told = run(&["house-file", &table, &made]);
        let words = format!("{table}: line 2: '{line}', expected is '1,SPEED,PHASE,MARK,MARK' with phase stop, acc, cruise or dec\n");
        assert_eq!((told.errors, told.code, Path::new(&made).exists()), (words, Some(2), false));
    }
    let table = stored("headless.csv", "1,0,stop,0,0\n");
    let told = run(&["house-file", &table, &made]);
    let words = format!("{table}: the first line is neither 'second,speed_tenths,phase' nor '{HEADING}'\n");
    assert_eq!((told.errors, told.code), (words, Some(2)));
}

#[test]
fn a_table_that_the_core_refuses_makes_no_house_file() {
    let made = to_be_made("refused_made.wtr");
    let refused = |name: &str, seconds: &str, words: &str| {
        let table = stored(name, format!("\u{feff}{HEADING}\r\n{seconds}"));
        let told = run(&["house-file", &table, &made]);
        assert_eq!((told.out, told.code, Path::new(&made).exists()), (format!("{table}: refused: {words}\n"), Some(1), false));
    };
    refused("no_seconds.csv", "", "2 count not 1 to 2,000: 0");
    let words = "second 1: speed 2,001, flags 0, fourth byte 0; 0 to 2,000 in 0.1 km/h, 0 to 3, 0";
    refused("too_fast.csv", "1,2001,stop,0,0\r\n", &format!("4 speed, flags or fourth byte wrong, {words}"));
}

#[test]
fn a_file_is_not_made_of_itself() {
    let (table, trace) = (stored("itself.csv", demo_text("cycles/part1_normal.csv")), stored("itself.wtr", [0; 8]));
    for arguments in [["house-file", &table, &table], ["table", &trace, &trace]] {
        let told = run(&arguments);
        let words = format!("'{}' is to be read and made; --help says how to use it\n", arguments[1]);
        assert_eq!((told.out.as_str(), told.errors, told.code), ("", words, Some(2)));
    }
    assert_eq!(fs::read_to_string(table).unwrap(), demo_text("cycles/part1_normal.csv"));
}

/// A terminal is at hand where one can be opened.
#[test]
fn no_trace_goes_to_a_terminal() {
    if fs::OpenOptions::new().write(true).open("/dev/ptmx").is_err() {
        return;
    }
    let told = run(&["house-file", &of_demo("cycles/part1_unmarked.csv"), "/dev/ptmx"]);
    let words = "/dev/ptmx: cannot be written: a trace is no text for a terminal\n";
    assert_eq!((told.out.as_str(), told.errors.as_str(), told.code), ("", words, Some(2)));
}

#[test]
fn exchanged_files_are_told() {
    let (trace, vehicle, bags, table) =
        (of_demo("part1_normal.wtr"), of_demo("annex13.vehicle"), of_demo("low_nox.bags"), of_demo("cycles/part1_normal.csv"));
    let made = to_be_made("exchanged");
    let noted = |arguments: &[&str], notes: &[(&str, &str)], code| {
        let told = run(arguments);
        let errors: String = notes.iter().map(|(path, note)| format!("{path}: this is {note}\n")).collect();
        assert_eq!((told.errors, told.code), (errors, Some(code)));
        assert!(told.out.is_ascii() && !told.out.contains('\0') && !Path::new(&made).exists(), "{}", told.out);
    };
    let both = [(vehicle.as_str(), "a vehicle sheet, not a trace"), (&trace, "a trace, not a vehicle sheet")];
    noted(&["gears", &vehicle, &trace], &[both[1], both[0]], 1);
    noted(&["gears", &table, &vehicle], &[(&table, "a cycle table, not a trace")], 1);
    noted(&["gears", "--pair", &vehicle, &trace, &bags], &[(&bags, "a bag sheet, not a vehicle sheet"), both[0]], 1);
    noted(&["result", &trace], &[(&trace, "a trace, not a bag sheet")], 1);
    noted(&["result", &vehicle], &[(&vehicle, "a vehicle sheet, not a bag sheet")], 1);
    noted(&["test", &trace, &vehicle, &bags], &[both[1], both[0]], 1);
    noted(&["check", "--pair", &trace, &bags], &[(&bags, "a bag sheet, not a trace")], 1);
    noted(&["house-file", &trace, &made], &[(&trace, "a trace, not a cycle table")], 2);
    noted(&["table", &table, &made], &[(&table, "a cycle table, not a trace")], 1);
    noted(&["check", &table], &[(&table, "a cycle table, of which 'house-file' makes a trace")], 2);
}

/// A trace is known by its mark, whatever its name.
#[test]
fn a_trace_by_another_name() {
    let path = stored("trace.bin", fs::read(of_demo("part1_normal.wtr")).unwrap());
    assert_eq!(run(&["check", &path]).out, format!("{path}: accepted\n"));
}

#[test]
fn damaged_traces() {
    let trace = fs::read(demo().join("part1_normal.wtr")).unwrap();
    let changed = |at: usize, byte: u8| {
        let mut bytes = trace.clone();
        bytes[at] = byte;
        bytes
    };
    let start = "1 under 8 bytes, mark, zero byte or version wrong";
    refused("short.wtr", &trace[..7], &format!("{start}: 7 bytes; at least 8"));
    refused("mark.wtr", changed(0, b'w'), &format!("{start}: begins with 77 54 52 00; 57 54 52 00"));
    refused("zero.wtr", changed(3, 1), &format!("{start}: begins with 57 54 52 01; 57 54 52 00"));
    refused("version.wtr", changed(5, 1), &format!("{start}: version 257; 1 or 2"));
    refused("count.wtr", changed(7, 0xff), "2 count not 1 to 2,000: 65,368");
    let length = "3 length not 8 + 4 x count";
    refused("truncated.wtr", &trace[..trace.len() - 1], &format!("{length}: 2,407 bytes, with count 600"));
    refused("endless.wtr", [trace.as_slice(), &[0; 100_000]].concat(), &format!("{length}: over 65,536 bytes, with count 600"));
    let second = |found: &str| format!("4 speed, flags or fourth byte wrong, second 17: {found}; 0 to 2,000 in 0.1 km/h, 0 to 15, 0");
    refused("speed.wtr", changed(8 + 4 * 16 + 1, 8), &second("speed 2,048, flags 0, fourth byte 0"));
    refused("flags.wtr", changed(8 + 4 * 16 + 2, 16), &second("speed 0, flags 16, fourth byte 0"));
    refused("second.wtr", changed(8 + 4 * 16 + 3, 1), &second("speed 0, flags 0, fourth byte 1"));
}

#[test]
fn pairs_of_traces() {
    let short = stored("reduced.wtr", [b'W', b'T', b'R', 0, 1, 0, 1, 0, 0, 0, 0, 0]);
    let damaged = stored("damaged.wtr", [b'W', b'T', b'R', 0, 1, 0, 1, 0, 0, 0, 16, 0]);
    let normal = of_demo("part1_normal.wtr");
    let refused = |first: &str, second: &str, words: &str| {
        let told = run(&["check", "--pair", first, second]);
        assert_eq!((told.out, told.code), (format!("{words}\n"), Some(1)));
    };
    refused(&normal, &short, &format!("{normal} and {short}: refused: 15 normal and reduced counts differ: 600 and 1"));
    let row =
        "refused: 4 speed, flags or fourth byte wrong, second 1: speed 0, flags 16, fourth byte 0; 0 to 2,000 in 0.1 km/h, 0 to 15, 0";
    refused(&normal, &damaged, &format!("{damaged}, the reduced trace: {row}"));
    refused(&damaged, &normal, &format!("{damaged}, the normal trace: {row}"));
    // the normal one goes first, though the reduced one's number is the lower
    let empty = stored("empty.wtr", []);
    refused(&damaged, &empty, &format!("{damaged}, the normal trace: {row}"));
    assert_eq!(run(&["check", "--pair", &normal, &normal]).code, Some(0));
}

#[test]
fn gears_of_a_pair() {
    let (normal, reduced, vehicle) = (of_demo("part1_normal.wtr"), of_demo("part1_reduced.wtr"), of_demo("annex13.vehicle"));
    for (switch, trace, which) in [(&[][..], &normal, "normal"), (&["--reduced"], &reduced, "reduced")] {
        let told = run(&[&["gears", "--pair", &normal, &reduced, &vehicle], switch].concat());
        assert_eq!((told.errors.as_str(), told.code), ("", Some(0)));
        let (title, row) = told.out.split_once('\n').unwrap();
        assert_eq!(title, format!("Gears of part1_{which}.wtr, the {which} trace of its pair, for annex13.vehicle, rule set 1"));
        let alone = run(&["gears", trace, &vehicle]).out;
        assert_eq!(row, alone.split_once('\n').unwrap().1);
    }
}

#[test]
fn a_refused_pair_has_no_gears() {
    let (normal, vehicle) = (of_demo("part1_normal.wtr"), of_demo("annex13.vehicle"));
    let damaged = stored("second_of_pair.wtr", [b'W', b'T', b'R', 0, 1, 0, 1, 0, 0, 0, 0, 7]);
    let csv = to_be_made("refused_pair.csv");
    // the damaged trace is refused whether or not the switch names it
    for switch in [&[][..], &["--reduced"]] {
        let told = run(&[&["gears", "--pair", &normal, &damaged, &vehicle, "--csv", &csv], switch].concat());
        assert!(told.out.starts_with(&format!("{damaged}, the reduced trace: refused: 4 ")), "{}", told.out);
        assert_eq!((told.out.lines().count(), told.code, Path::new(&csv).exists()), (1, Some(1), false));
    }
}

#[test]
fn refused_gears_write_no_files() {
    let trace = of_demo("part1_normal.wtr");
    let vehicle = stored("refused.vehicle", edited("annex13.vehicle", "gears = 6", "gears = 9"));
    let csv = Path::new(env!("CARGO_TARGET_TMPDIR")).join("refused.csv");
    let told = run(&["gears", &trace, &vehicle, "--csv", csv.to_str().unwrap()]);
    assert_eq!(told.out, "refused: 5 vehicle sheet out of range, field 5, gears: 9; 3 to 8\n");
    assert_eq!((told.code, csv.exists()), (Some(1), false));
}

#[test]
fn gears_in_other_forms() {
    let (csv, svg) = (stored("row.csv", ""), stored("row.svg", ""));
    let told = run(&["gears", &of_demo("part1_normal.wtr"), &of_demo("annex13.vehicle"), "--csv", &csv, "--svg", &svg]);
    assert_eq!((told.code, told.errors.as_str()), (Some(0), ""));
    let lines = fs::read_to_string(csv).unwrap();
    assert!(lines.starts_with("second,speed in km/h,phase,gear,clutch,rule set\n1,0.0,stop,0,out,1\n"), "{lines}");
    assert_eq!(lines.lines().count(), 601);
    let picture = fs::read_to_string(svg).unwrap();
    assert!(picture.starts_with("<svg ") && picture.ends_with("</svg>\n"));
    for word in ["time, s", "speed, km/h", "neutral", "gear 4", "clutch out"] {
        assert!(picture.contains(&format!(">{word}</text>")), "{word}");
    }
}

/// FNV-1a, of 64 bits, over the picture of the gears of part1_normal.wtr for annex13.vehicle from before M-103, as the command of then wrote it.
const BEFORE_M_103: u64 = 0x49bc_afa9_ba44_1ef1;

/// Since M-103 other pictures are drawn with the same lines and words; that of the gears is the same to the byte.
#[test]
fn the_picture_of_the_gears_is_as_before_m_103() {
    let svg = to_be_made("before.svg");
    assert_eq!(run(&["gears", &of_demo("part1_normal.wtr"), &of_demo("annex13.vehicle"), "--svg", &svg]).code, Some(0));
    let bytes = fs::read(svg).unwrap().into_iter();
    let digest = bytes.fold(0xcbf2_9ce4_8422_2325, |digest, byte| (digest ^ u64::from(byte)).wrapping_mul(0x0100_0000_01b3));
    assert_eq!(digest, BEFORE_M_103);
}

/// The value of an attribute of a picture's element.
fn attribute<'a>(element: &'a str, name: &str) -> &'a str {
    element.split_once(&format!(" {name}=\"")).unwrap().1.split_once('"').unwrap().0
}

/// Each gear has a step of its own, so that no colour is needed to tell it.
#[test]
fn gears_differ_by_more_than_colour() {
    let (trace, vehicle) = (of_demo("part3_normal.wtr"), of_demo("annex13.vehicle"));
    let (csv, svg) = (to_be_made("steps.csv"), to_be_made("steps.svg"));
    assert_eq!(run(&["gears", &trace, &vehicle, "--csv", &csv, "--svg", &svg]).code, Some(0));
    let row = fs::read_to_string(csv).unwrap();
    let mut gears: Vec<&str> = row.lines().skip(1).map(|line| line.split(',').nth(3).unwrap()).collect();
    gears.dedup();
    let picture = fs::read_to_string(svg).unwrap();
    // the bars beside those of the legend and of the clutch
    let bars = picture.lines().filter(|line| line.starts_with("<rect x=") && !line.contains(" x=\"1095.0\"") && !line.contains("#222222"));
    let steps: Vec<&str> = bars.map(|bar| attribute(bar, "y")).collect();
    assert_eq!(steps.len(), gears.len());
    for (gear, step) in gears.iter().zip(&steps) {
        assert!(gears.iter().zip(&steps).all(|(other, its)| (gear == other) == (step == its)));
    }
}

/// A row is never written over what it was made of, nor a picture over a table.
#[test]
fn outputs_are_no_inputs() {
    let bytes = fs::read(demo().join("part1_normal.wtr")).unwrap();
    let trace = stored("kept.wtr", &bytes);
    let sheet = stored("kept.vehicle", demo_text("annex13.vehicle"));
    let beside = Path::new(&trace).parent().unwrap().join(".").join("kept.wtr");
    let made = Path::new(&trace).with_extension("made");
    let again = made.parent().unwrap().join(".").join("kept.made");
    let [beside, made, again] = [&beside, &made, &again].map(|path| path.to_str().unwrap());
    let _ = fs::remove_file(made);
    for options in
        [&["--csv", &trace][..], &["--svg", &sheet], &["--svg", beside], &["--csv", made, "--svg", made], &["--csv", made, "--svg", again]]
    {
        let told = run(&[&["gears", &trace, &sheet], options].concat());
        let words = format!("{} names a file that is named before; --help says how to use it\n", options[options.len() - 2]);
        assert_eq!((told.out.as_str(), told.errors, told.code), ("", words, Some(2)));
    }
    assert!(!Path::new(made).exists());
    assert_eq!(fs::read(&trace).unwrap(), bytes);
    assert_eq!(fs::read_to_string(&sheet).unwrap(), demo_text("annex13.vehicle"));
}
