//! Runs the operator's command as an operator runs it, on files of the demo and on damaged ones.
// Each of the tests' programs uses its own part of this.
#![allow(dead_code)]

pub mod lots;

use std::fs;
use std::path::{Path, PathBuf};
use std::process::Command;

pub fn demo() -> PathBuf {
    Path::new(env!("CARGO_MANIFEST_DIR")).join("../../demo")
}

/// What a run said on either stream, and its exit code.
pub struct Run {
    pub out: String,
    pub errors: String,
    pub code: Option<i32>,
}

pub fn run(arguments: &[&str]) -> Run {
    let done = Command::new(env!("CARGO_BIN_EXE_ylhovesko-bench")).args(arguments).env_remove("YLHOVESKO_TYPED").output().unwrap();
    let text = |bytes: Vec<u8>| String::from_utf8(bytes).unwrap();
    Run { out: text(done.stdout), errors: text(done.stderr), code: done.status.code() }
}

/// A file of its own for each test, which may run beside another.
pub fn stored(name: &str, bytes: impl AsRef<[u8]>) -> String {
    let path = Path::new(env!("CARGO_TARGET_TMPDIR")).join(name);
    fs::write(&path, bytes).unwrap();
    path.to_str().unwrap().to_string()
}

/// The path of a file of the demo.
pub fn of_demo(name: &str) -> String {
    demo().join(name).to_str().unwrap().to_string()
}

/// A file that a command is to make, and that is not there yet.
pub fn to_be_made(name: &str) -> String {
    let path = Path::new(env!("CARGO_TARGET_TMPDIR")).join(name);
    let _ = fs::remove_file(&path);
    path.to_str().unwrap().to_string()
}

pub fn demo_text(name: &str) -> String {
    fs::read_to_string(demo().join(name)).unwrap()
}

/// The demo's file with one text for another at the first place where it stands.
pub fn edited(name: &str, from: &str, to: &str) -> String {
    let text = demo_text(name);
    assert!(text.contains(from), "{name} has no '{from}'");
    text.replacen(from, to, 1)
}

pub fn grouped(number: i64) -> String {
    let digits = number.unsigned_abs().to_string();
    let groups: Vec<&str> = digits.as_bytes().rchunks(3).rev().map(|group| std::str::from_utf8(group).unwrap()).collect();
    format!("{}{}", if number < 0 { "-" } else { "" }, groups.join(","))
}

/// The demo's sheet with another value, or none, at the first line of this key; and the number of that line.
pub fn with_value(name: &str, key: &str, value: Option<&str>) -> (String, usize) {
    let text = demo_text(name);
    let at = text.lines().position(|line| line.starts_with(&format!("{key} = "))).unwrap();
    let line = value.map(|value| format!("{key} = {value}"));
    let lines = text.lines().enumerate().filter_map(|(i, old)| if i == at { line.as_deref() } else { Some(old) });
    (lines.map(|line| format!("{line}\n")).collect(), at + 1)
}

/// What the cutter brings to a sheet.
pub const CUTTER_KEYS: [&str; 6] = ["limit nmhc", "efficiency methane", "efficiency ethane", "density nmhc", "bag cutter", "air cutter"];

/// A sheet of a bench without the cutter: a text without the cutter's lines.
pub fn without_cutter(text: &str) -> String {
    let is_other = |line: &&str| !CUTTER_KEYS.iter().any(|key| line.starts_with(key));
    text.lines().filter(is_other).map(|line| format!("{line}\n")).collect()
}

/// A sheet of a bench without the cutter with the cutter's lines, of which these are its readings in every bag and every air.
pub fn with_cutter(text: &str, bag: &str, air: &str) -> String {
    let test = "limit nmhc = 480000\nefficiency methane = 42\nefficiency ethane = 987\nlimit hc = ";
    let part = format!("density nmhc = 605000\nbag cutter = {bag}\nair cutter = {air}\npump = ");
    text.replacen("limit hc = ", test, 1).replace("pump = ", &part)
}

/// `check` refuses the file with these words, and has these notes on it.
pub fn refused_with_notes(name: &str, bytes: impl AsRef<[u8]>, words: &str, notes: &[&str]) {
    let path = stored(name, bytes);
    let run = run(&["check", &path]);
    let errors: String = notes.iter().map(|note| format!("{path}: {note}\n")).collect();
    assert_eq!((run.out, run.errors), (format!("{path}: refused: {words}\n"), errors));
    assert_eq!(run.code, Some(1));
}

pub fn refused_with_note(name: &str, bytes: impl AsRef<[u8]>, words: &str, note: &str) {
    refused_with_notes(name, bytes, words, &[note]);
}

pub fn refused(name: &str, bytes: impl AsRef<[u8]>, words: &str) {
    refused_with_notes(name, bytes, words, &[]);
}
