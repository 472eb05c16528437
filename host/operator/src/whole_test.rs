//! A whole test: the gears of its parts, one after the other in one row, and the result of its bags.

use crate::arguments::Arguments;
use crate::files::{self, Given};
use crate::trace::Trace;
use crate::{bags, gears, picture, result_sheet, row, vehicle, Failure, Told};
use row::Row;
use std::ffi::OsString;
use std::path::{Path, PathBuf};
use ylhovesko::bags::{Sheet as BagSheet, TestResult};
use ylhovesko::gear::Vehicle;

/// What a test is made of.
pub struct Test {
    vehicle: Given<Vehicle>,
    /// That of each part.
    traces: Vec<Trace>,
    bags: Given<BagSheet>,
}

/// Where a test is written beside what is printed.
#[derive(Default)]
pub struct Outputs<'a> {
    csv: Option<&'a Path>,
    svg: Option<&'a Path>,
    result_csv: Option<&'a Path>,
}

pub fn test(given: &[OsString]) -> Result<Told, Failure> {
    let arguments = Arguments::of(given, &["--csv", "--svg", "--result-csv"], &[])?;
    let [csv, svg, result_csv] = arguments.outputs(["--csv", "--svg", "--result-csv"])?;
    let paths = arguments.paths();
    let [vehicle, traces @ .., bags] = paths.as_slice() else {
        return Err(Failure::usage("a vehicle sheet, a trace for each part and a bag sheet expected".to_string()));
    };
    Test::read(vehicle, traces, bags)?.told(Outputs { csv, svg, result_csv })
}

impl Test {
    pub fn read(vehicle: &Path, traces: &[PathBuf], bags: &Path) -> Result<Test, Failure> {
        let vehicle = files::vehicle(vehicle)?;
        let traces = traces.iter().map(|path| files::trace(path)).collect::<Result<_, _>>()?;
        Ok(Test { vehicle, traces, bags: files::bag_sheet(bags)? })
    }

    pub fn told(&self, outputs: Outputs) -> Result<Told, Failure> {
        let (rows, result) = match self.asked() {
            Ok(told) => told,
            Err(line) => return Ok(Told::refused(line + "\n").noting(&self.notes())),
        };
        self.has_a_trace_for_each_part()?;
        if let Some(path) = outputs.csv {
            files::write(path, &row::csv_of_parts(&rows, self.vehicle.value.rule_set))?;
        }
        if let Some(path) = outputs.svg {
            files::write(path, &picture::svg(&self.title(), &row::joined(&rows)))?;
        }
        if let Some(path) = outputs.result_csv {
            files::write(path, &result_sheet::csv(&self.bags.value, &result))?;
        }
        Ok(Told::accepted(self.text(&rows, &result)).noting(&self.notes()))
    }

    /// The rows and the result; or the first refusal, with the file that it is of.
    fn asked(&self) -> Result<(Vec<Row>, TestResult), String> {
        let traces: Vec<&[u8]> = self.traces.iter().map(|trace| trace.bytes.as_slice()).collect();
        let rows = row::rows_of(&traces, self.vehicle.value).map_err(|(part, refusal)| {
            let trace = &self.traces[part];
            let path = if gears::is_of_vehicle(refusal) { &self.vehicle.path } else { &trace.path };
            format!("{}: {}", path.display(), gears::line(&trace.bytes, &self.vehicle, refusal))
        })?;
        Ok((rows, bags::result_of(&self.bags)?))
    }

    fn has_a_trace_for_each_part(&self) -> Result<(), Failure> {
        let (parts, given) = (self.bags.value.count as usize, self.traces.len());
        if parts == given {
            return Ok(());
        }
        Err(Failure::usage(format!("{parts} traces expected, one for each part of {}, {given} given", self.bags.path.display())))
    }

    fn title(&self) -> String {
        format!("Test of {}, class {}", vehicle::name(&self.vehicle), self.bags.value.class)
    }

    fn notes(&self) -> String {
        let traces: String = self.traces.iter().map(|trace| trace.notes.as_str()).collect();
        format!("{}{traces}{}", self.vehicle.notes, self.bags.notes)
    }

    fn text(&self, rows: &[Row], result: &TestResult) -> String {
        let mut text = self.title() + "\n\n";
        let mut before = 0;
        for (number, (row, Trace { path, .. })) in (1..).zip(rows.iter().zip(&self.traces)) {
            let (first, last) = (before + 1, before + row.len());
            let heading = format!("Part {number}, {}, seconds {first} to {last} of the test", files::name(path));
            text += &format!("{heading}\n\n{}\n", row::table(row));
            before = last;
        }
        text + &result_sheet::text(&files::name(&self.bags.path), &self.bags.value, result)
    }
}
