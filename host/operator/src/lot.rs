//! The lot sheet: the results of many machines of one type, put together by the core.

use crate::arguments::Arguments;
use crate::cells::cell;
use crate::field::Range;
use crate::files::{self, Tested};
use crate::machine::{self, Machine};
use crate::numbers::grouped;
use crate::refusals::{self, measured, Found, GASES, NMHC};
use crate::result_sheet::{heading, line, word, Weighted};
use crate::{Failure, Told};
use std::ffi::OsString;
use std::path::{Path, PathBuf};
use ylhovesko::bags::Ends;
use ylhovesko::lot::{GasSheet, Mean, Record};
use ylhovesko::Refusal;

pub fn lot(given: &[OsString]) -> Result<Told, Failure> {
    let arguments = Arguments::of(given, &["--csv"], &[])?;
    let [csv] = arguments.outputs(["--csv"])?;
    let paths = arguments.paths();
    if paths.is_empty() {
        return Err(Failure::usage("no file given".to_string()));
    }
    of_files(&paths, csv)
}

/// No machine is left out: a bag sheet that is refused stops the lot, and so does a file that cannot be read.
pub fn of_files(paths: &[PathBuf], csv: Option<&Path>) -> Result<Told, Failure> {
    let tested = paths.iter().map(|path| files::tested(path)).collect::<Result<Vec<_>, _>>()?;
    let notes: String = tested.iter().map(Tested::notes).collect();
    let machines = match tested.iter().map(Machine::of).collect::<Result<Vec<_>, _>>() {
        Ok(machines) => machines,
        Err(line) => return Ok(Told::refused(line + "\n").noting(&notes)),
    };
    Ok(of_machines(&machines, csv)?.noting(&notes).noting(&machine::notes(&machines)))
}

fn of_machines(machines: &[Machine], csv: Option<&Path>) -> Result<Told, Failure> {
    let records: Vec<Record> = machines.iter().map(Machine::record).collect();
    let gases = match ylhovesko::lot::lot(&records) {
        Ok(gases) => gases.each(),
        Err(refusal) => return Ok(Told::refused(refused(machines, refusal) + "\n")),
    };
    if let Some(path) = csv {
        files::write(path, &csv_of(machines, &gases))?;
    }
    Ok(Told::accepted(text(machines, &gases)))
}

/// What the core takes for an end of a record, for an operator to read.
const END: Range = Range::of(-10_000_000_000_000, 10_000_000_000_000, "micrograms/km");

/// The refusal of a lot in words; 21 is that of one machine, and is said of its file.
fn refused(machines: &[Machine], refusal: Refusal) -> String {
    let line = refusals::line(refusal, &found(machines, refusal));
    match (refusal.number, machines.get(refusal.at as usize)) {
        (21, Some(machine)) => format!("{}: {line}", machine.path.display()),
        _ => line,
    }
}

/// Where a refusal of a lot lies, and what stands there.
fn found(machines: &[Machine], refusal: Refusal) -> Found {
    match (refusal.number, machines.get(refusal.at as usize)) {
        (18, _) => Found { place: String::new(), value: format!("{} files", grouped(machines.len() as i128)) },
        (21, Some(machine)) => found_gas(machine, refusal.at),
        _ => Found::default(),
    }
}

/// `index 1, NOx: lower end 5, upper end 4; ..`. Of several gases at fault it is the first.
fn found_gas(machine: &Machine, index: u32) -> Found {
    let in_order = |ends: Ends| END.has(ends.lower.into()) && END.has(ends.upper.into()) && ends.lower <= ends.upper;
    let is_taken = |gas: &Option<Weighted>| gas.is_some_and(|gas| in_order(gas.ends));
    let mut gases = measured(machine.weighted.has_nmhc).iter().zip(machine.weighted.each);
    let Some((name, gas)) = gases.find(|(_, gas)| !is_taken(gas)) else {
        return Found { place: format!("index {index}"), value: String::new() };
    };
    let told = |Ends { lower, upper }| format!("lower end {}, upper end {}", grouped(lower.into()), grouped(upper.into()));
    let value = gas.map_or("no value".to_string(), |gas| told(gas.ends));
    Found { place: format!("index {index}, {name}"), value: format!("{value}; {END}, the lower end at most the upper one") }
}

fn text(machines: &[Machine], gases: &[GasSheet; 5]) -> String {
    let count = machines.len();
    let counted = if count == 1 { "machine" } else { "machines" };
    let tables: String = (0..GASES.len()).map(|gas| format!("\n{}", table(machines, gas, &gases[gas]))).collect();
    format!("Lot of {count} {counted}\n\n{}{tables}", list(machines))
}

fn columns(index: &str, cells: &[&str], name: &str) -> String {
    let cells: String = cells.iter().map(|cell| format!("  {cell:<9}")).collect();
    format!("{index:>6}{cells}  {name}\n")
}

/// Every machine with its index, by which the core names it, and its verdicts. NMHC has a column where a machine has it.
fn list(machines: &[Machine]) -> String {
    let gases = measured(machines.iter().any(|machine| machine.weighted.has_nmhc));
    let mut lines = columns("index", gases, "file");
    for (index, machine) in machines.iter().enumerate() {
        let verdicts = machine.weighted.each.map(|gas| gas.map_or("-", |gas| word(gas.verdict)));
        lines += &columns(&index.to_string(), &verdicts[..gases.len()], &files::name(&machine.path));
    }
    lines
}

/// The number of machines that have the gas.
fn counted(sheet: &GasSheet) -> u32 {
    sheet.passed + sheet.failed + sheet.undecided
}

/// One gas over all machines that have it; each has all but NMHC.
fn table(machines: &[Machine], gas: usize, sheet: &GasSheet) -> String {
    let GasSheet { passed, failed, undecided, sum, mean } = sheet;
    let name = GASES[gas];
    let Some(Mean { ends, worst }) = mean else { return format!("{name}: not measured on any machine\n") };
    let of = if name == NMHC { format!(", measured on {} of {} machines", counted(sheet), machines.len()) } else { String::new() };
    let counts = format!("{name}{of}: passed {passed}, failed {failed}, undecided {undecided}");
    let heading = heading("  weighted, micrograms/km");
    let machine = &machines[*worst];
    let of_worst = line(&format!("worst, index {worst}"), machine.ends()[gas]);
    let lines = [counts, heading, line("sum", *sum), line("mean", *ends), format!("{of_worst}  {}", files::name(&machine.path))];
    lines.map(|line| line + "\n").concat()
}

fn cells_of(Ends { lower, upper }: Ends) -> String {
    format!("{lower},{upper}")
}

fn csv_line(machines: &[Machine], gas: usize, sheet: &GasSheet) -> String {
    let GasSheet { passed, failed, undecided, sum, mean } = sheet;
    // a gas that no machine has is counted, and has no figure
    let figures = mean.map_or(",".repeat(7), |Mean { ends, worst }| {
        let machine = &machines[worst];
        let of_worst = format!("{},{}", cells_of(machine.ends()[gas]), cell(&files::name(&machine.path)));
        format!("{},{},{worst},{of_worst}", cells_of(*sum), cells_of(ends))
    });
    format!("{},{},{passed},{failed},{undecided},{figures}\n", GASES[gas], counted(sheet))
}

/// The lot sheet in comma-separated values, a line a gas.
fn csv_of(machines: &[Machine], gases: &[GasSheet; 5]) -> String {
    let [sum, mean, worst] =
        ["sum", "mean", "worst"].map(|of| format!("lower end of {of} in micrograms/km,upper end of {of} in micrograms/km"));
    let lines: String = (0..GASES.len()).map(|gas| csv_line(machines, gas, &gases[gas])).collect();
    format!("gas,machines,passed,failed,undecided,{sum},{mean},index of worst,{worst},file of worst\n{lines}")
}
