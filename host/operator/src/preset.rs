//! What a fuel decides of a bag sheet.

use crate::arguments::Arguments;
use crate::bags::GAS_KEYS;
use crate::{Failure, Told};
use std::ffi::OsString;
use ylhovesko::bags::{diesel, petrol, Preset};

/// The preset for a density.
type Fuel = fn(u32) -> Preset;

/// The regulation's fuels, by name.
const FUELS: [(&str, Fuel); 2] = [("petrol", petrol), ("diesel", diesel)];

pub fn preset(given: &[OsString]) -> Result<Told, Failure> {
    let [fuel, density] = Arguments::of(given, &[], &[])?.exactly("a fuel and its density")?;
    let Some((name, preset)) = FUELS.iter().find(|(name, _)| fuel.as_os_str() == *name) else {
        return Err(Failure::usage(format!("no preset for '{}'", fuel.display())));
    };
    // The range is the core's to judge; a line that no sheet could hold is not printed.
    let Some(density) = density.to_str().and_then(|digits| digits.parse::<u32>().ok()) else {
        return Err(Failure::usage(format!("'{}' is no density in g/l", density.display())));
    };
    Ok(Told::accepted(lines(name, preset(density))))
}

fn lines(name: &str, preset: Preset) -> String {
    let Preset { density, triple, fuel } = preset;
    let mut text = format!("# {name}: for the test\n");
    for (key, value) in [("d", triple.d), ("wc", triple.wc), ("wh", triple.wh)] {
        text += &format!("triple {key} = {value}\n");
    }
    for (key, value) in [("k", fuel.k), ("hc", fuel.hc), ("co", fuel.co), ("co2", fuel.co2), ("density", fuel.density)] {
        text += &format!("fuel {key} = {value}\n");
    }
    text += &format!("# {name}: for each part\n");
    for (gas, value) in GAS_KEYS.iter().zip(density.each()) {
        text += &density_line(gas, value);
    }
    text
}

/// A comment where the regulation has no density, which is 0 then: a sheet of a bench without the cutter needs none of NMHC.
fn density_line(gas: &str, value: u32) -> String {
    if value == 0 {
        return format!("# density {gas} is not in the regulation: where the cutter is fitted it has to be given too\n");
    }
    format!("density {gas} = {value}\n")
}
