//! The gears of a trace while it is still arriving: they are those of the whole trace, and each is there as soon as it is known.

mod common;

use common::*;
use std::fs::{self, File};
use std::io::{BufRead, BufReader, Read, Write};
use std::process::{Child, ChildStdin, Command, Stdio};
use std::sync::mpsc::{channel, Receiver, RecvTimeoutError};
use std::thread;
use std::time::{Duration, Instant};

const HEADING: &str = "second,speed_tenths,phase\n";
const MARKED_HEADING: &str = "second,speed_tenths,phase,no_gearshift,no_first\n";
/// The first line of what is printed.
const PRINTED: &str = "second  gear     clutch\n";

/// Far more than the command takes for anything here.
const PATIENCE: Duration = Duration::from_secs(20);
/// Long enough for a line to come that should not.
const A_WHILE: Duration = Duration::from_millis(100);

fn started(arguments: &[&str], out: Stdio) -> (Child, ChildStdin) {
    let mut command = Command::new(env!("CARGO_BIN_EXE_ylhovesko-bench"));
    let command = command.arg("live").args(arguments).stdin(Stdio::piped()).stdout(out).stderr(Stdio::piped());
    let mut child = command.spawn().unwrap();
    let input = child.stdin.take().unwrap();
    (child, input)
}

/// Writes all of it beside what else is done. The command need not read on after a refusal.
fn written(mut input: ChildStdin, text: impl AsRef<[u8]>) {
    let bytes = text.as_ref().to_vec();
    thread::spawn(move || {
        let _ = input.write_all(&bytes);
    });
}

fn ended(child: Child) -> Run {
    let done = child.wait_with_output().unwrap();
    let text = |bytes: Vec<u8>| String::from_utf8(bytes).unwrap();
    Run { out: text(done.stdout), errors: text(done.stderr), code: done.status.code() }
}

/// `live` with all of its input.
fn live(arguments: &[&str], text: impl AsRef<[u8]>) -> Run {
    let (child, input) = started(arguments, Stdio::piped());
    written(input, text);
    ended(child)
}

/// The lines that the gears of a table's trace have, as `house-file` and `gears` make them.
fn of_whole_trace(name: &str, table: &str, vehicle: &str, options: &[&str]) -> String {
    let (made, csv) = (to_be_made(&format!("{name}.wtr")), to_be_made(&format!("{name}.csv")));
    assert_eq!(run(&[&["house-file", &of_demo(&format!("cycles/{table}.csv")), &made], options].concat()).code, Some(0));
    assert_eq!(run(&["gears", &made, &of_demo(vehicle), "--csv", &csv]).code, Some(0));
    let line = |line: &str| {
        let fields: Vec<&str> = line.split(',').collect();
        let gear = if fields[3] == "0" { "neutral" } else { fields[3] };
        format!("{:>6}  {gear:<7}  {}\n", fields[0], fields[4])
    };
    fs::read_to_string(csv).unwrap().lines().skip(1).map(line).collect()
}

/// Every table of the demo, in each version and by each rule set that takes it.
#[test]
fn the_gears_are_those_of_the_whole_trace() {
    let marked = ["part1_normal", "part1_reduced", "part2_normal", "part2_reduced", "part3_normal", "part3_reduced"];
    let unmarked = ["part1_unmarked", "part2_unmarked", "part3_unmarked", "tall_second", "pulling_away"];
    let with_marks = marked.map(|table| (table, "annex13.vehicle", &["--marks"][..]));
    let vehicles = ["annex13.vehicle", "rule_set_2.vehicle", "tall_second.vehicle"];
    let without = unmarked.iter().flat_map(|table| vehicles.map(|vehicle| (*table, vehicle)));
    let without = without.flat_map(|(table, vehicle)| [&[][..], &["--marks"]].map(|options| (table, vehicle, options)));
    for (table, vehicle, options) in with_marks.into_iter().chain(without) {
        let told = live(&[&[of_demo(vehicle).as_str()], options].concat(), demo_text(&format!("cycles/{table}.csv")));
        assert_eq!((told.errors.as_str(), told.code), ("", Some(0)), "{table}, {vehicle}, {options:?}");
        assert!(told.out == format!("{PRINTED}{}", of_whole_trace("whole", table, vehicle, options)), "{table}, {vehicle}, {options:?}");
    }
}

/// The lines of a stream as they come.
fn lines_of(stream: impl Read + Send + 'static) -> Receiver<String> {
    let (to, lines) = channel();
    thread::spawn(move || BufReader::new(stream).lines().map_while(Result::ok).try_for_each(|line| to.send(format!("{line}\n"))));
    lines
}

#[test]
fn a_second_is_given_at_the_fifth_after_it() {
    let table = demo_text("cycles/pulling_away.csv");
    let whole = of_whole_trace("in_turn", "pulling_away", "annex13.vehicle", &[]);
    let mut expected = whole.split_inclusive('\n');
    let (mut child, mut input) = started(&[&of_demo("annex13.vehicle")], Stdio::piped());
    let lines = lines_of(child.stdout.take().unwrap());
    // the vehicle is taken before anything is read
    assert_eq!(lines.recv_timeout(PATIENCE).as_deref(), Ok(PRINTED));
    for (second, line) in table.split_inclusive('\n').enumerate() {
        input.write_all(line.as_bytes()).unwrap();
        if second > 5 {
            assert_eq!(lines.recv_timeout(PATIENCE).as_deref().ok(), expected.next(), "at second {second}");
        }
        assert_eq!(lines.recv_timeout(A_WHILE), Err(RecvTimeoutError::Timeout), "after second {second}");
    }
    drop(input);
    let rest: Vec<String> = lines.iter().collect();
    assert_eq!(rest.len(), 5);
    assert!(expected.eq(rest.iter().map(String::as_str)));
    assert_eq!(child.wait().unwrap().code(), Some(0));
}

/// A trace has ended before the fifth second after its first.
#[test]
fn a_short_trace_is_given_at_its_end() {
    let vehicle = of_demo("annex13.vehicle");
    let printed = ["     1  1        out\n", "     2  1        in\n"];
    for (seconds, lines) in [("1,0,stop\n", &printed[..1]), ("1,0,stop\n2,190,acc\n", &printed)] {
        let told = live(&[&vehicle], format!("{HEADING}{seconds}"));
        assert_eq!((told.out, told.errors.as_str(), told.code), (format!("{PRINTED}{}", lines.concat()), "", Some(0)));
    }
}

/// As `house-file` reads a table of a spreadsheet: with a byte order mark, another end of line, and none at the last.
#[test]
fn a_table_in_other_bytes() {
    let (vehicle, table) = (of_demo("annex13.vehicle"), demo_text("cycles/pulling_away.csv"));
    let other = format!("\u{feff}{}", table.trim_end().replace('\n', "\r\n"));
    let told = live(&[&vehicle], other);
    assert_eq!((told.out, told.errors.as_str(), told.code), (live(&[&vehicle], table).out, "", Some(0)));
}

/// Seven seconds, of which two are given; then a second that is refused, and more.
fn refused_at_8(vehicle: &str, options: &[&str], eighth: &str, words: &str, note: &str) {
    let has_marks = eighth.split(',').count() == 5;
    let (heading, marks) = if has_marks { (MARKED_HEADING, ",0,0") } else { (HEADING, "") };
    let before: String = (1..8).map(|second| format!("{second},0,stop{marks}\n")).collect();
    let after: String = (9..20).map(|second| format!("{second},0,stop{marks}\n")).collect();
    let told = live(&[&[vehicle], options].concat(), format!("{heading}{before}{eighth}\n{after}"));
    let given = "     1  neutral  out\n     2  neutral  out\n";
    let note = if note.is_empty() { String::new() } else { format!("standard input: line 9: {note}\n") };
    assert_eq!((told.out, told.errors, told.code), (format!("{PRINTED}{given}refused: {words}\n"), note, Some(1)));
}

const SECOND: &str = "4 speed, flags or fourth byte wrong, second 8: ";

#[test]
fn a_line_of_another_form_is_refused_as_the_second_that_is_due() {
    let words = format!("{SECOND}no value; 0 to 2,000 in 0.1 km/h, 0 to 3, 0");
    let lines = [
        "",
        " ",
        "x",
        "8",
        "8,",
        "8,0",
        "8,0,",
        "8,0,halt",
        "8,0,STOP",
        "8,,stop",
        "8,-1,stop",
        "8,1.5,stop",
        "8,65536,stop",
        "8,0,stop,",
        "8,0,stop,0",
        "8;0;stop",
        "7,0,stop",
        "9,0,stop",
        ",0,stop",
        "second,speed_tenths,phase",
        "8,0, stop",
    ];
    for line in lines {
        let note = format!("'{line}', expected is '8,SPEED,PHASE' with phase stop, acc, cruise or dec");
        refused_at_8(&of_demo("annex13.vehicle"), &[], line, &words, &note);
    }
    let words = format!("{SECOND}no value; 0 to 2,000 in 0.1 km/h, 0 to 15, 0");
    for line in ["8,0,stop,2,0", "8,0,stop,0,x", "8,0,stop,,", "9,0,stop,0,0"] {
        let note = format!("'{line}', expected is '8,SPEED,PHASE,MARK,MARK' with phase stop, acc, cruise or dec");
        refused_at_8(&of_demo("annex13.vehicle"), &["--marks"], line, &words, &note);
    }
}

/// What is no text, and a line that is too long: neither is cut to a second.
#[test]
fn bytes_that_are_no_line() {
    let (vehicle, long) = (of_demo("annex13.vehicle"), format!("1,0,stop{}x\n", " ".repeat(70_000)));
    let words = "refused: 4 speed, flags or fourth byte wrong, second 1: no value; 0 to 2,000 in 0.1 km/h, 0 to 3, 0\n";
    let shown = format!("'1,0,stop{}' ..", " ".repeat(52));
    for (line, shown) in [(long.as_bytes(), shown.as_str()), (b"1,0,stop\xff\n", "'1,0,stop?'"), (b"1,0,stop\0\n", "'1,0,stop\\0'")] {
        let told = live(&[&vehicle], [HEADING.as_bytes(), line].concat());
        let note = format!("standard input: line 2: {shown}, expected is '1,SPEED,PHASE' with phase stop, acc, cruise or dec\n");
        assert_eq!((told.out, told.errors, told.code), (format!("{PRINTED}{words}"), note, Some(1)));
    }
}

#[test]
fn a_faulty_second_is_refused() {
    for (vehicle, options, most) in [("annex13.vehicle", &[][..], 3), ("rule_set_2.vehicle", &["--marks"], 15)] {
        for (speed, told) in [("2001", "2,001"), ("65535", "65,535")] {
            let words = format!("{SECOND}speed {told}, flags 2, fourth byte 0; 0 to 2,000 in 0.1 km/h, 0 to {most}, 0");
            refused_at_8(&of_demo(vehicle), options, &format!("8,{speed},cruise"), &words, "");
        }
    }
}

/// In each phase, at a stop too: without --marks (4), and under rule set 2 (20).
#[test]
fn a_mark_is_refused_where_it_may_not_be() {
    for (at, phase) in ["stop", "acc", "cruise", "dec"].into_iter().enumerate() {
        for (no_shift, no_first, marks) in [(1, 0, "no gear-shift"), (0, 1, "no 1. gear"), (1, 1, "no gear-shift and no 1. gear")] {
            let eighth = format!("8,70,{phase},{no_shift},{no_first}");
            let found = format!("speed 70, flags {}, fourth byte 0; 0 to 2,000 in 0.1 km/h, 0 to 3, 0", at + 4 * no_shift + 8 * no_first);
            let words = format!("{SECOND}{found}; it is marked {marks}, and version 2 has no marks");
            let note = format!("{marks}; with --marks the trace is of version 1, which keeps the marks");
            for vehicle in ["annex13.vehicle", "rule_set_2.vehicle"] {
                refused_at_8(&of_demo(vehicle), &[], &eighth, &words, &note);
            }
            let words = format!("20 a mark in a trace of version 1, under rule set 2, second 8: {marks}");
            refused_at_8(&of_demo("rule_set_2.vehicle"), &["--marks"], &eighth, &words, "");
        }
    }
}

/// 123.7 km/h in acceleration is too close to its upshift 2 to 3.
const CLOSE: &str =
    "sheet = vehicle\npower = 1612\nmass = 428\nrated = 10540\nidle = 300\ngears = 4\nndv 1 = 3833\nndv 2 = 2833\nndv 3 = 2733\nndv 4 = 2633\n";

#[test]
fn a_second_too_close_to_call_is_refused_after_its_marks() {
    let [by_set_1, by_set_2] = [1, 2].map(|set| stored(&format!("close_live_{set}.vehicle"), format!("{CLOSE}rule set = {set}\n")));
    let too_close = "9 too close to call, second 8: 123.7 km/h";
    refused_at_8(&by_set_1, &[], "8,1237,acc", too_close, "");
    refused_at_8(&by_set_1, &["--marks"], "8,1237,acc,1,1", too_close, "");
    refused_at_8(&by_set_2, &["--marks"], "8,1237,acc,0,0", too_close, "");
    refused_at_8(
        &by_set_2,
        &["--marks"],
        "8,1237,acc,0,1",
        "20 a mark in a trace of version 1, under rule set 2, second 8: no 1. gear",
        "",
    );
}

/// Whether the command ends by itself, though its input does not.
fn ends_by_itself(child: &mut Child) -> bool {
    let start = Instant::now();
    while start.elapsed() < PATIENCE {
        if child.try_wait().unwrap().is_some() {
            return true;
        }
        thread::sleep(Duration::from_millis(5));
    }
    false
}

#[test]
fn a_refusal_does_not_wait_for_the_end_of_the_input() {
    let (mut child, mut input) = started(&[&of_demo("annex13.vehicle")], Stdio::piped());
    input.write_all(format!("{HEADING}1,0,stop\n2,2001,stop\n").as_bytes()).unwrap();
    assert!(ends_by_itself(&mut child));
    let told = ended(child);
    assert!(told.out.starts_with(&format!("{PRINTED}refused: 4 ")) && told.out.ends_with('\n'), "{}", told.out);
    assert_eq!((told.out.lines().count(), told.errors.as_str(), told.code), (2, "", Some(1)));
}

/// Nothing is read for a vehicle that is refused, and no heading printed.
#[test]
fn a_vehicle_is_refused_before_the_first_second() {
    for (name, from, to, words) in [
        ("5", "gears = 6", "gears = 9", "5 vehicle sheet out of range, field 5, gears: 9; 3 to 8"),
        ("14", "rule set = 1 ", "rule set = 3 ", "5 vehicle sheet out of range, field 14, rule set: 3; 1 to 2"),
        ("6", "ndv 3 = 7616", "ndv 3 = 9491", "6 ndv not below that of the gear before, gear 3: 9,491; below 9,491 of gear 2"),
        ("7", "power = 720", "power = 3000", "7 power to mass: power 3,000, mass 199; 19 x power at most 150 x (mass + 75)"),
    ] {
        let vehicle = stored(&format!("live_{name}.vehicle"), edited("annex13.vehicle", from, to));
        let (mut child, _input) = started(&[&vehicle], Stdio::piped());
        assert!(ends_by_itself(&mut child));
        let told = ended(child);
        assert_eq!((told.out, told.errors.as_str(), told.code), (format!("refused: {words}\n"), "", Some(1)));
    }
}

#[test]
fn notes_on_the_vehicle_sheet_come_first() {
    let vehicle = stored("live_noted.vehicle", format!("{}colour = red\n", demo_text("annex13.vehicle")));
    let (mut child, input) = started(&[&vehicle], Stdio::piped());
    // the input has not begun
    let note = lines_of(child.stderr.take().unwrap()).recv_timeout(PATIENCE);
    assert_eq!(note, Ok(format!("{vehicle}: line 16: unknown key 'colour'\n")));
    written(input, format!("{HEADING}1,0,stop\n"));
    assert_eq!(ended(child).code, Some(0));
}

fn stops(count: usize) -> String {
    (1..=count).map(|second| format!("{second},0,stop\n")).collect()
}

#[test]
fn no_second_is_refused() {
    for text in ["", HEADING, MARKED_HEADING] {
        let told = live(&[&of_demo("annex13.vehicle")], text);
        let words = "refused: 2 count not 1 to 2,000: 0\n";
        assert_eq!((told.out, told.errors.as_str(), told.code), (format!("{PRINTED}{words}"), "", Some(1)));
    }
}

/// Second 2,001 is refused whatever it holds.
#[test]
fn second_2001_is_refused() {
    let vehicle = of_demo("annex13.vehicle");
    let longest = live(&[&vehicle], format!("{HEADING}{}", stops(2000)));
    assert_eq!((longest.out.lines().count(), longest.errors.as_str(), longest.code), (2001, "", Some(0)));
    let before: String = longest.out.split_inclusive('\n').take(1 + 1995).collect();
    for last in ["2001,0,stop", "2001,2001,stop", "x"] {
        let told = live(&[&vehicle], format!("{HEADING}{}{last}\n2002,0,stop\n", stops(2000)));
        assert!(told.out == format!("{before}refused: 2 count not 1 to 2,000: 2,001\n"), "{last}");
        assert_eq!((told.errors.as_str(), told.code), ("", Some(1)), "{last}");
    }
}

/// Of what is no table nothing is read.
#[test]
fn an_input_that_is_no_table() {
    let no_table = "the first line is neither 'second,speed_tenths,phase' nor 'second,speed_tenths,phase,no_gearshift,no_first'";
    let unread = |text: &[u8], said: &str| {
        let told = live(&[&of_demo("annex13.vehicle")], text);
        assert_eq!((told.out.as_str(), told.errors, told.code), (PRINTED, format!("standard input: {said}\n"), Some(2)));
    };
    unread(b"1,0,stop\n", no_table);
    unread(b"\n", no_table);
    unread(demo_text("annex13.vehicle").as_bytes(), no_table);
    unread(&[0; 100_000], no_table);
    unread(b"sheet = vehicle\n", "this is a vehicle sheet, not a cycle table");
    unread(&fs::read(of_demo("part1_normal.wtr")).unwrap(), "this is a trace, not a cycle table");
}

#[test]
fn an_input_that_cannot_be_read() {
    let mut command = Command::new(env!("CARGO_BIN_EXE_ylhovesko-bench"));
    let done = command.args(["live", &of_demo("annex13.vehicle")]).stdin(File::open(demo()).unwrap()).output().unwrap();
    assert!(done.stderr.starts_with(b"standard input: cannot be read: "));
    assert_eq!((done.stdout.as_slice(), done.status.code()), (PRINTED.as_bytes(), Some(2)));
}

/// A display that was closed is no fault, and nothing more is read for it.
#[test]
fn a_display_that_is_closed() {
    let (mut child, mut input) = started(&[&of_demo("annex13.vehicle")], Stdio::piped());
    drop(child.stdout.take());
    let _ = input.write_all(format!("{HEADING}{}", stops(6)).as_bytes());
    assert!(ends_by_itself(&mut child));
    let told = ended(child);
    assert_eq!((told.errors.as_str(), told.code), ("", Some(0)));
}

/// A full disk is at hand where there is a file that stands for one.
#[test]
fn an_output_that_cannot_be_written() {
    let Ok(full) = File::options().write(true).open("/dev/full") else { return };
    let (mut child, _input) = started(&[&of_demo("annex13.vehicle")], full.into());
    assert!(ends_by_itself(&mut child));
    let told = ended(child);
    assert!(told.errors.starts_with("the output cannot be written: ") && told.errors.lines().count() == 1, "{}", told.errors);
    assert_eq!(told.code, Some(2));
}
