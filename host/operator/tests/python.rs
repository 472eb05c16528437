//! The Python example over the core as a shared object: it prints what the command prints.

mod common;

use common::*;
use std::path::{Path, PathBuf};
use std::process::Command;
use std::sync::Once;

static SHARED: Once = Once::new();

fn host(name: &str) -> PathBuf {
    Path::new(env!("CARGO_MANIFEST_DIR")).join("..").join(name)
}

/// The example's output and exit code for a bag sheet.
fn python(sheet: &str) -> (String, Option<i32>) {
    SHARED.call_once(|| assert!(Command::new(host("shared")).status().unwrap().success(), "host/shared makes no shared object"));
    let done = Command::new("python3").arg(host("python/result.py")).arg(sheet).output().expect("python3 starts");
    assert_eq!(String::from_utf8(done.stderr).unwrap(), "");
    (String::from_utf8(done.stdout).unwrap(), done.status.code())
}

#[test]
fn python_prints_the_result_of_the_demo() {
    let sheet = of_demo("low_nox.bags");
    assert_eq!(python(&sheet), (run(&["result", &sheet]).out, Some(0)));
}

#[test]
fn python_prints_a_result_with_nmhc() {
    for sheet in [of_demo("gas.bags"), stored("cutter_python.bags", with_cutter(&demo_text("low_nox.bags"), "2.4 ppm", "1.9 ppm"))] {
        let told = run(&["result", &sheet]).out;
        assert_eq!(told.matches("\n    NMHC  ").count(), 1 + 2 * told.matches("\nPart ").count());
        assert_eq!(python(&sheet), (told, Some(0)));
    }
}

/// Of a bench without the cutter, and of one that could not read it in one air.
#[test]
fn python_prints_a_result_without_nmhc() {
    for sheet in [stored("before_python.bags", without_cutter(&demo_text("gas.bags"))), of_demo("gas_lot/serial_2044.bags")] {
        let told = run(&["result", &sheet]).out;
        assert_eq!(told.matches("\n    NMHC  ").count(), 1);
        assert_eq!(python(&sheet), (told, Some(0)));
    }
}

#[test]
fn python_prints_a_test_of_two_parts() {
    let text = edited("low_nox.bags", "class = 3", "class = 2");
    let sheet = stored("two_parts.bags", text.split("[part 3]").next().unwrap());
    assert_eq!(python(&sheet), (run(&["result", &sheet]).out, Some(0)));
}

#[test]
fn python_prints_a_refusal() {
    let sheet = stored("refused_python.bags", edited("low_nox.bags", "air nox = 0.83 ppm", "air nox = over range"));
    assert_eq!(python(&sheet), ("refused: 12 at 2, 3, 2\n".to_string(), Some(1)));
    let sheet = stored("refused_cutter.bags", edited("gas.bags", "air cutter = 1.9 ppm", "air cutter = over range"));
    assert_eq!(python(&sheet), ("refused: 12 at 1, 5, 2\n".to_string(), Some(1)));
    let sheet = stored("refused_efficiency.bags", edited("gas.bags", "efficiency ethane = 987", "efficiency ethane = 541"));
    assert_eq!(python(&sheet), ("refused: 19 at 0, 0, 0\n".to_string(), Some(1)));
}
