//! The shift speeds of a vehicle. Each has two ends, rounded outward to 0.001 km/h, and the exact one lies between them; beside them stand the whole
//! tenths of a km/h by which gears are chosen.

use crate::arguments::Arguments;
use crate::files::{self, Given};
use crate::numbers::decimal;
use crate::result_sheet::heading;
use crate::{refusals, vehicle, Failure, Told};
use std::ffi::OsString;
use std::path::Path;
use ylhovesko::gear::{shift_speeds, shift_tenths, Tenths, Vehicle};
use ylhovesko::{Ends, Refusal};

pub fn speeds(given: &[OsString]) -> Result<Told, Failure> {
    let arguments = Arguments::of(given, &["--csv"], &[])?;
    let [vehicle] = arguments.exactly("a vehicle sheet")?;
    let [csv] = arguments.outputs(["--csv"])?;
    of_vehicle(&files::vehicle(&vehicle)?, csv)
}

pub fn of_vehicle(vehicle: &Given<Vehicle>, csv: Option<&Path>) -> Result<Told, Failure> {
    let shifts = match shifts(vehicle.value) {
        Ok(shifts) => shifts,
        Err(refusal) => {
            let line = refusals::line(refusal, &vehicle::found(&vehicle.text, refusal));
            return Ok(Told::refused(line + "\n").noting(&vehicle.notes));
        }
    };
    if let Some(path) = csv {
        files::write(path, &csv_of(&shifts, vehicle.value.rule_set))?;
    }
    let title = format!("Shift speeds of {}", vehicle::name(vehicle));
    let tables = ["Upshift", "Downshift"].map(|word| table(word, &shifts)).join("\n");
    Ok(Told::accepted(format!("{title}\n\n{tables}\n{}", meaning(&shifts))).noting(&vehicle.notes))
}

/// A shift from one gear to another.
struct Shift {
    word: &'static str,
    from: usize,
    to: usize,
    ends: Ends,
    /// The least tenth above its speed, in 0.1 km/h; of the downshift 2 to 1 the least at or above it.
    least: u32,
    /// The tenth before that, where it is too close to call.
    too_close: Option<u32>,
}

impl Shift {
    fn of(word: &'static str, from: usize, to: usize, (ends, tenths): (&Ends, &Tenths)) -> Shift {
        Shift { word, from, to, ends: *ends, least: tenths.above, too_close: tenths.too_close() }
    }
}

/// The upshifts and then the downshifts, each from the lowest gear on; or why the core gives none.
fn shifts(vehicle: Vehicle) -> Result<Vec<Shift>, Refusal> {
    let (speeds, tenths) = (shift_speeds(vehicle)?, shift_tenths(vehicle)?);
    let up = (1..).zip(speeds.upshifts().iter().zip(tenths.upshifts()));
    let down = (3..).zip(speeds.downshifts().iter().zip(tenths.downshifts()));
    let to_first = speeds.to_first().zip(tenths.to_first());
    let up = up.map(|(gear, speed)| Shift::of("Upshift", gear, gear + 1, speed));
    let to_first = to_first.map(|(ends, least)| Shift { word: "Downshift", from: 2, to: 1, ends, least, too_close: None });
    let down = down.map(|(gear, speed)| Shift::of("Downshift", gear, gear - 1, speed));
    Ok(up.chain(to_first).chain(down).collect())
}

/// The two ends of a shift's speed, the least tenth above it and the tenth that is too close to it, in km/h; the last is empty where there is none.
fn cells(shift: &Shift) -> [String; 4] {
    let tenth = |tenth: u32| decimal(tenth.into(), 1);
    let [lower, upper] = [shift.ends.lower, shift.ends.upper].map(|end| decimal(end, 3));
    [lower, upper, tenth(shift.least), shift.too_close.map(tenth).unwrap_or_default()]
}

fn table(word: &str, shifts: &[Shift]) -> String {
    let mut lines = format!("{} {:>20} {:>20}\n", heading(&format!("{word}, km/h")), "least tenth above", "too close");
    for shift in shifts.iter().filter(|shift| shift.word == word) {
        let name = format!("    {} to {}", shift.from, shift.to);
        let cells = cells(shift).map(|cell| format!("{:>20}", if cell.is_empty() { "-" } else { &cell }));
        lines += &format!("{name:<30}{}\n", cells.join(" "));
    }
    lines
}

/// What the columns of tenths say.
const MEANING: &str = "\
From the least tenth above on, a second is above the shift speed; at a tenth that is too close, its trace is refused (9).
";

/// The speed of the downshift 2 to 1 is compared exactly, and at it a second is still in gear 2.
const OF_TO_FIRST: &str = "\
For 2 to 1 it is the least tenth at or above, and none is too close.
";

fn meaning(shifts: &[Shift]) -> String {
    let has_to_first = shifts.iter().any(|shift| shift.to == 1);
    format!("{MEANING}{}", if has_to_first { OF_TO_FIRST } else { "" })
}

/// A line for each shift. The tenths stand behind the rule set, where a reader of the columns before them does not meet them.
fn csv_of(shifts: &[Shift], rule_set: u32) -> String {
    let lines = shifts.iter().map(|shift| {
        let Shift { word, from, to, .. } = shift;
        let [lower, upper, least, too_close] = cells(shift);
        format!("{},{from},{to},{lower},{upper},{rule_set},{least},{too_close}\n", word.to_lowercase())
    });
    let ends = "lower end in km/h,upper end in km/h";
    let tenths = "least tenth above in km/h,tenth too close in km/h";
    format!("shift,from gear,to gear,{ends},rule set,{tenths}\n{}", lines.collect::<String>())
}
