//! A list of vehicles in comma-separated values, for a plan: a heading, then a line for each vehicle.
//!
//! A value that is missing or malformed is never guessed. It is read as one that no field takes, so that the core refuses its vehicle and no other; a note
//! names its line.

use crate::cells::cells_of;
use crate::files::{self, LONGEST_LIST};
use crate::kind::Kind;
use crate::numbers::grouped;
use crate::sheet::{is_whole, no_text, quoted, unsigned_of};
use crate::{lines, vehicle, Failure};
use std::path::Path;
use ylhovesko::gear::Vehicle;

/// The first line of a list, by which it is known: the name of a vehicle, and then the fields of its sheet, in the order of refusal 5.
pub const HEADING: &str = "name,power,mass,rated,idle,gears,ndv_1,ndv_2,ndv_3,ndv_4,ndv_5,ndv_6,ndv_7,ndv_8,rule_set";

/// How many fields a sheet has; the fifth is the number of gears, and the ratios stand behind it.
const FIELDS: usize = 14;
const GEARS: usize = 5;

/// A vehicle of a list.
pub struct Named {
    pub name: String,
    pub vehicle: Vehicle,
}

/// The vehicles of a list in turn, and a line for each note on it.
pub struct List {
    pub vehicles: Vec<Named>,
    pub notes: String,
}

/// The list in a file. One without the heading is none, and it is said what it is.
pub fn read(path: &Path) -> Result<List, Failure> {
    let bytes = files::read_up_to(path, LONGEST_LIST)?;
    let text = text_of(&bytes).map_err(|said| Failure::of_file(path, &[said]))?;
    let mut reading = Reading { notes: no_text(&bytes).into_iter().collect(), ..Reading::default() };
    let vehicles = (2..).zip(text.lines().skip(1)).map(|(number, line)| reading.named(number, line)).collect();
    reading.note_past();
    Ok(List { vehicles, notes: lines(path, &reading.notes) })
}

/// The text of a list; or what is said of a file that is none.
fn text_of(bytes: &[u8]) -> Result<String, String> {
    if let Some(exchanged) = Kind::List.exchanged(bytes) {
        return Err(exchanged);
    }
    if bytes.len() as u64 > LONGEST_LIST {
        return Err(format!("it is longer than {LONGEST_LIST} bytes"));
    }
    if Kind::of(bytes) != Some(Kind::List) {
        return Err(format!("the first line is not '{HEADING}'"));
    }
    Ok(String::from_utf8_lossy(bytes).into_owned())
}

/// What is noted while a list is read.
#[derive(Default)]
struct Reading {
    notes: Vec<String>,
    /// The lines with a ratio past the last gear.
    past: Vec<usize>,
}

impl Reading {
    /// The vehicle of a line. A line with another number of cells is none: nothing says which of its values is which.
    fn named(&mut self, number: usize, line: &str) -> Named {
        let cells = cells_of(line).filter(|cells| cells.len() == 1 + FIELDS);
        let Some([name, fields @ ..]) = cells.as_deref() else {
            self.notes.push(format!("line {number}: {}, expected are the {} cells of the first line", quoted(line), 1 + FIELDS));
            return Named { name: String::new(), vehicle: vehicle_of([vehicle::NO_VALUE; FIELDS]) };
        };
        let gears = unsigned_of(&fields[GEARS - 1]);
        let numbers = std::array::from_fn(|at| self.field(number, at, &fields[at], gears));
        Named { name: name.clone(), vehicle: vehicle_of(numbers) }
    }

    /// A field, counted from 0. The ratio of a gear that the vehicle does not have is not read, nor is any where that is no number of gears.
    fn field(&mut self, number: usize, at: usize, cell: &str, gears: u32) -> u32 {
        let gear = (GEARS..FIELDS - 1).contains(&at).then(|| (at - GEARS) as u32 + 1);
        if gear.is_some_and(|gear| gear > gears) {
            if !cell.is_empty() && self.past.last() != Some(&number) {
                self.past.push(number);
            }
            return 0;
        }
        if !is_whole(cell) && (gear.is_none() || gears <= vehicle::MOST) {
            let found = if cell.is_empty() { "missing".to_string() } else { quoted(cell) };
            let (name, expected) = (HEADING.split(',').nth(1 + at).unwrap_or_default(), vehicle::expected(at as u32 + 1));
            self.notes.push(format!("line {number}: '{name}' is {found}, expected is {expected}"));
        }
        unsigned_of(cell)
    }

    /// One note for all lines: a list may have filled the columns of eight gears throughout.
    fn note_past(&mut self) {
        if let Some(first) = self.past.first() {
            let count = grouped(self.past.len() as i128);
            self.notes.push(format!(
                "{count} of its vehicles have a ratio past their last gear, which is not read; the first stands in line {first}"
            ));
        }
    }
}

fn vehicle_of([power, mass, rated, idle, gears, ndv @ .., rule_set]: [u32; FIELDS]) -> Vehicle {
    Vehicle { power, mass, rated, idle, gears, ndv, rule_set }
}
