//! The result of a test, printed. Every figure has two ends, and the exact one lies between them or at one of them.

use crate::numbers::grouped;
use crate::refusals::{measured, GASES};
use ylhovesko::bags::{Ends, Gases, PartResult, Sheet, TestResult, Verdict};

/// The state to which the core's volumes are brought, and to which a sheet's densities belong. The paper's formula is of 0 degrees, so that its volumes
/// are about 7 % less; docs/DECISIONS.md says why the core has the regulation's.
const REFERENCE: &str = "at 20 degrees C and 101.325 kPa";

/// The first line of a result in comma-separated values, by which a stored one is known.
pub const HEADING: &str = "part,figure,gas,lower end,upper end,limit,verdict";

/// The figure of a weighted gas in such a result.
pub const WEIGHTED: &str = "weighted in micrograms/km";

/// A gas of a test weighted over its parts: its ends and its limit in micrograms/km, and how it stands to the limit.
#[derive(Clone, Copy)]
pub struct Weighted {
    pub ends: Ends,
    pub limit: u64,
    pub verdict: Verdict,
}

/// The weighted gases of a test.
#[derive(Clone, Copy)]
pub struct WeightedGases {
    /// In the paper's order. A gas that the test does not have is none, and so is one that a stored result does not give.
    pub each: [Option<Weighted>; 5],
    pub has_nmhc: bool,
}

pub fn weighted_of(limits: Gases<u64>, result: &TestResult) -> WeightedGases {
    let (ends, limits, verdicts) = (result.weighted.each(), limits.each(), result.verdicts.each());
    let of = |gas: usize| Weighted { ends: ends[gas], limit: limits[gas], verdict: verdicts[gas] };
    let gases = measured(result.has_nmhc);
    WeightedGases { each: std::array::from_fn(|gas| gases.get(gas).map(|_| of(gas))), has_nmhc: result.has_nmhc }
}

fn both(ends: Ends) -> String {
    format!("{:>20} {:>20}", grouped(ends.lower.into()), grouped(ends.upper.into()))
}

/// The heading of a table: what it has, with its unit, over the lines of [`line`].
pub fn heading(title: &str) -> String {
    format!("{title:<30}{:>20} {:>20}", "lower end", "upper end")
}

/// A line of such a table: a name, and what is said of it.
fn said(name: &str, words: &str) -> String {
    format!("{:<30}{words}", format!("    {name}"))
}

/// A figure of such a table.
pub fn line(name: &str, ends: Ends) -> String {
    said(name, &both(ends))
}

fn gas_lines(title: &str, gases: &[&str], figures: Gases<Ends>) -> String {
    let lines = gases.iter().zip(figures.each()).map(|(gas, ends)| line(gas, ends) + "\n");
    format!("  {title}\n{}", lines.collect::<String>())
}

fn part_lines(number: usize, gases: &[&str], part: PartResult) -> String {
    let heading = heading(&format!("Part {number}"));
    let volume = line("diluted gas", part.volume);
    let mass = gas_lines("mass, micrograms", gases, part.mass);
    let rate = gas_lines("rate, micrograms/km", gases, part.rate);
    format!("{heading}\n  volume, ml\n{volume}\n{mass}{rate}\n")
}

pub fn word(verdict: Verdict) -> &'static str {
    match verdict {
        Verdict::Pass => "pass",
        Verdict::Fail => "fail",
        Verdict::Undecided => "undecided",
        Verdict::NoVerdict => "not measured",
    }
}

/// The verdict on a figure that has this word.
pub fn verdict_of(written: &str) -> Option<Verdict> {
    [Verdict::Pass, Verdict::Fail, Verdict::Undecided].into_iter().find(|verdict| word(*verdict) == written)
}

fn told(verdict: Verdict) -> String {
    let why = if verdict == Verdict::Undecided { ": the limit lies between the ends" } else { "" };
    format!("{}{why}", word(verdict))
}

fn weighted_lines(limits: Gases<u64>, result: &TestResult) -> String {
    let mut lines = format!("{} {:>20}  verdict\n", heading("Weighted, micrograms/km"), "limit");
    lines.extend(GASES.iter().zip(weighted_of(limits, result).each).map(|(gas, weighted)| weighted_line(gas, weighted) + "\n"));
    lines
}

fn weighted_line(gas: &str, weighted: Option<Weighted>) -> String {
    let Some(Weighted { ends, limit, verdict }) = weighted else {
        return said(gas, &format!("{}: the cutter is not fitted", word(Verdict::NoVerdict)));
    };
    format!("{} {:>20}  {}", line(gas, ends), grouped(limit.into()), told(verdict))
}

/// The figures of the parts that the class has.
fn given_parts<'a>(sheet: &Sheet, result: &'a TestResult) -> impl Iterator<Item = &'a PartResult> {
    result.parts.iter().take(sheet.count as usize)
}

/// The whole sheet, under the name of the bag sheet's file.
pub fn text(name: &str, sheet: &Sheet, result: &TestResult) -> String {
    let gases = measured(result.has_nmhc);
    let parts: String = (1..).zip(given_parts(sheet, result)).map(|(number, part)| part_lines(number, gases, *part)).collect();
    let weighted = weighted_lines(sheet.limits, result);
    let fuel = format!("{}\n{}\n", heading("Fuel, microlitres per 100 km"), line("consumption", result.fuel));
    format!("Result of {name}, class {}\n{REFERENCE}\n\n{parts}{weighted}\n{fuel}", sheet.class)
}

/// A line of comma-separated values: the part and the gas where the figure has one, and the limit and the verdict of a weighted gas.
fn csv_line(part: &str, figure: &str, gas: &str, ends: Ends, judged: &str) -> String {
    format!("{part},{figure},{gas},{},{},{judged}\n", ends.lower, ends.upper)
}

fn csv_of_part(number: usize, gases: &[&str], part: PartResult) -> String {
    let number = number.to_string();
    let mut lines = csv_line(&number, &format!("volume in ml {REFERENCE}"), "", part.volume, ",");
    for (figure, figures) in [("mass in micrograms", part.mass), ("rate in micrograms/km", part.rate)] {
        let figures = gases.iter().zip(figures.each());
        lines.extend(figures.map(|(gas, ends)| csv_line(&number, figure, gas, ends, ",")));
    }
    lines
}

/// What stands after a weighted gas that the test does not have: cells without a figure, and no verdict.
pub fn not_measured() -> String {
    format!(",,,{}", word(Verdict::NoVerdict))
}

fn csv_of_weighted(gas: &str, weighted: Option<Weighted>) -> String {
    let Some(Weighted { ends, limit, verdict }) = weighted else {
        return format!(",{WEIGHTED},{gas},{}\n", not_measured());
    };
    csv_line("", WEIGHTED, gas, ends, &format!("{limit},{}", word(verdict)))
}

/// The result in comma-separated values, a line a figure.
pub fn csv(sheet: &Sheet, result: &TestResult) -> String {
    let mut lines = format!("{HEADING}\n");
    let gases = measured(result.has_nmhc);
    lines.extend((1..).zip(given_parts(sheet, result)).map(|(number, part)| csv_of_part(number, gases, *part)));
    lines.extend(GASES.iter().zip(weighted_of(sheet.limits, result).each).map(|(gas, weighted)| csv_of_weighted(gas, weighted)));
    lines + &csv_line("", "fuel in microlitres per 100 km", "", result.fuel, ",")
}
