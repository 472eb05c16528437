//! The gears of a trace, or of the one of a pair that the bench's reduced-speed switch names.

use crate::arguments::{Arguments, Outputs};
use crate::files::{self, Given};
use crate::pair::Pair;
use crate::{picture, refusals, row, trace, vehicle, Failure, Told};
use std::ffi::OsString;
use std::path::Path;
use ylhovesko::gear::Vehicle;
use ylhovesko::Refusal;

pub fn gears(given: &[OsString]) -> Result<Told, Failure> {
    let arguments = Arguments::of(given, &["--csv", "--svg"], &["--pair", "--reduced"])?;
    let outputs = arguments.table_and_picture()?;
    if arguments.has("--pair") {
        let [normal, reduced, vehicle] = arguments.exactly("a normal and a reduced trace and a vehicle sheet")?;
        return of_pair(&Pair::read(&normal, &reduced)?, arguments.has("--reduced"), &files::vehicle(&vehicle)?, outputs);
    }
    if arguments.has("--reduced") {
        return Err(Failure::usage("--reduced is the switch beside a --pair".to_string()));
    }
    let [trace, vehicle] = arguments.exactly("a trace and a vehicle sheet")?;
    of_trace(&trace, &files::vehicle(&vehicle)?, outputs)
}

/// What stands over the gears of a file.
pub fn title(path: &Path, vehicle: &Given<Vehicle>) -> String {
    format!("Gears of {} for {}", files::name(path), vehicle::name(vehicle))
}

pub fn of_trace(path: &Path, vehicle: &Given<Vehicle>, outputs: Outputs) -> Result<Told, Failure> {
    let trace = files::trace(path)?;
    Ok(of_bytes(&title(path, vehicle), &trace.bytes, vehicle, outputs)?.noting(&trace.notes))
}

pub fn of_pair(pair: &Pair, reduced_speed: bool, vehicle: &Given<Vehicle>, outputs: Outputs) -> Result<Told, Failure> {
    if let Err(line) = pair.judged() {
        return Ok(Told::refused(line + "\n").noting(&vehicle.notes).noting(&pair.notes()));
    }
    let (path, trace) = pair.chosen(reduced_speed);
    let which = if reduced_speed { "reduced" } else { "normal" };
    let title = format!("Gears of {}, the {which} trace of its pair, for {}", files::name(path), vehicle::name(vehicle));
    of_bytes(&title, trace, vehicle, outputs)
}

pub fn of_bytes(title: &str, trace: &[u8], vehicle: &Given<Vehicle>, outputs: Outputs) -> Result<Told, Failure> {
    let row = match row::row_of(trace, vehicle.value) {
        Ok(row) => row,
        Err(refusal) => return Ok(Told::refused(line(trace, vehicle, refusal) + "\n").noting(&vehicle.notes)),
    };
    outputs.write(|| row::csv(&row, vehicle.value.rule_set), || picture::svg(title, &row))?;
    Ok(Told::accepted(format!("{title}\n\n{}", row::table(&row))).noting(&vehicle.notes))
}

/// Whether the refusal of a row lies in the vehicle sheet; else it lies in the trace.
pub fn is_of_vehicle(refusal: Refusal) -> bool {
    (5..=7).contains(&refusal.number)
}

/// The refusal of a row in words.
pub fn line(trace: &[u8], vehicle: &Given<Vehicle>, refusal: Refusal) -> String {
    let found = if is_of_vehicle(refusal) { vehicle::found(&vehicle.text, refusal) } else { trace::found(trace, refusal) };
    refusals::line(refusal, &found)
}
