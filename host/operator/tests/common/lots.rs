//! Lots: the demo's five bag sheets and its three of gas machines, their stored results, and a lot that is refused.

use super::*;

pub const LOT: [&str; 5] =
    ["lot/serial_1118.bags", "lot/serial_1263.bags", "lot/serial_1407.bags", "lot/serial_1552.bags", "lot/serial_1698.bags"];
/// Of which the second has no NMHC.
pub const GAS_LOT: [&str; 3] = ["gas.bags", "gas_lot/serial_2044.bags", "gas_lot/serial_2058.bags"];
/// That every test has.
pub const GASES: [&str; 4] = ["HC", "CO", "NOx", "CO2"];

pub fn sheets() -> Vec<String> {
    LOT.map(of_demo).to_vec()
}

/// `lot` on these files, with options.
pub fn lot(files: &[String], options: &[&str]) -> Run {
    let files: Vec<&str> = files.iter().map(String::as_str).collect();
    run(&[&["lot"], files.as_slice(), options].concat())
}

/// The result of a bag sheet, stored in a file of its own.
pub fn result_of(sheet: &str, name: &str) -> String {
    let csv = to_be_made(name);
    let told = run(&["result", sheet, "--csv", &csv]);
    assert_eq!((told.errors.as_str(), told.code), ("", Some(0)));
    csv
}

/// Sheets of the demo as stored results, in files whose names begin with this.
pub fn stored_of(sheets: &[&str], prefix: &str) -> Vec<String> {
    let name = |sheet: &str| format!("{prefix}{}.csv", Path::new(sheet).file_stem().unwrap().to_str().unwrap());
    sheets.iter().map(|sheet| result_of(&of_demo(sheet), &name(sheet))).collect()
}

/// The demo's lot as stored results, in files whose names begin with this.
pub fn results(prefix: &str) -> Vec<String> {
    stored_of(&LOT, prefix)
}

/// A weighted gas of a stored result: its ends and its verdict.
pub fn weighted(result: &str, gas: &str) -> (i64, i64, String) {
    let text = fs::read_to_string(result).unwrap();
    let cells = text.lines().find_map(|line| line.strip_prefix(&format!(",weighted in micrograms/km,{gas},"))).unwrap();
    let cells: Vec<&str> = cells.split(',').collect();
    (cells[0].parse().unwrap(), cells[1].parse().unwrap(), cells[3].to_string())
}

/// The stored result of the first of the demo's lot, with other words for what its weighted NOx has behind the gas; none leaves the line out. And the
/// number of that line.
pub fn with_nox(name: &str, words: Option<&str>) -> (String, usize) {
    with_weighted(LOT[0], name, "NOx", words)
}

/// So of any sheet of the demo and any gas.
pub fn with_weighted(sheet: &str, name: &str, gas: &str, words: Option<&str>) -> (String, usize) {
    let text = fs::read_to_string(result_of(&of_demo(sheet), &format!("whole_{name}"))).unwrap();
    let start = format!(",weighted in micrograms/km,{gas},");
    let at = text.lines().position(|line| line.starts_with(&start)).unwrap();
    let line = words.map(|words| format!("{start}{words}"));
    let lines = text.lines().enumerate().filter_map(|(i, old)| if i == at { line.as_deref() } else { Some(old) });
    (stored(name, lines.map(|line| format!("{line}\n")).collect::<String>()), at + 1)
}

/// `lot` says these words and nothing else, has these notes, and writes no table.
pub fn refused_lot(files: &[String], words: &str, notes: &str) {
    let csv = to_be_made("refused_lot.csv");
    let told = lot(files, &["--csv", &csv]);
    assert_eq!((told.out, told.errors, told.code), (format!("{words}\n"), notes.to_string(), Some(1)));
    assert!(!Path::new(&csv).exists());
}

pub const ENDS: &str = "-10,000,000,000,000 to 10,000,000,000,000 micrograms/km, the lower end at most the upper one";
pub const FAULT: &str = "21 lower end above upper end, or an end beyond 10^13 micrograms/km";
pub const EXPECTED: &str = "expected is 'LOWER,UPPER,LIMIT,VERDICT' with whole numbers and verdict pass, fail or undecided";

/// A stored result of which this gas cannot be read: the refusal says that there is no value, and a note what is expected.
pub fn no_value(file: &str, gas: &str, note: &str) {
    no_value_behind(LOT[1], file, gas, note);
}

/// So in a lot with another sheet of the demo before it.
pub fn no_value_behind(sheet: &str, file: &str, gas: &str, note: &str) {
    let words = format!("{file}: refused: {FAULT}, index 1, {gas}: no value; {ENDS}");
    refused_lot(&[of_demo(sheet), file.to_string()], &words, &format!("{file}: {note}\n"));
}
