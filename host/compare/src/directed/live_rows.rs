//! Directed cases of the live engine's rows (02, M-110): stops and corrections on both sides of the delay.

use ylhovesko::gear::Vehicle;

use super::gear::{clutches_after_corrections, corrections, phases, Directed, EIGHT, TALL};
use super::live::{named, Cases};
use super::{gear, versions};
use crate::live::of_gear;

pub(super) const GROUPS: [fn(&mut Cases); 12] = [
    of_the_gear_sheet,
    stop_runs,
    two_stop_runs,
    refused_in_stops,
    short_runs,
    marked_runs,
    runs_at_stops,
    run_after_run,
    caps,
    looking_back,
    clutches,
    marks,
];

impl Cases {
    /// Seconds of [`EIGHT`] in version 1, and their gears.
    fn row(&mut self, words: &str, seconds: &str, gears: &str) {
        let shown = if seconds.len() < 200 { format!(": {seconds} gives") } else { String::new() };
        self.gears(&format!("{words}{shown}"), named(1, EIGHT, seconds), gears);
    }

    /// The same; and with a wrong fourth byte in the place of each second and behind the last: what was given by then is the start of the row.
    fn row_and_starts(&mut self, words: &str, seconds: &str, gears: &str) {
        self.row(words, seconds, gears);
        let (all, row) = (words_of(seconds), words_of(gears));
        for before in 0..=all.len() {
            let behind = all[before..].join(" ");
            let case = named(1, EIGHT, &format!("{} sx {behind}", all[..before].join(" ")));
            let given = row[..before.saturating_sub(5)].join(" ");
            self.refused(4, before as u32 + 1, &format!("{words}, a wrong fourth byte behind {before} seconds"), case, &given);
        }
    }
}

fn words_of(text: &str) -> Vec<&str> {
    text.split(' ').collect()
}

/// The rows by hand of stops, phases, corrections and marks that the gear sheet has: "its row equals the present one".
fn of_the_gear_sheet(cases: &mut Cases) {
    let mut rows = gear::Cases::default();
    [phases, corrections, clutches_after_corrections, versions::same_seconds].iter().for_each(|group| group(&mut rows));
    for Directed { words, case, row, .. } in rows.0 {
        if let Some(row) = row {
            cases.all(words, of_gear(&case).unwrap(), &row);
        }
    }
}

/// So many stops in short.
fn stops(count: usize) -> String {
    format!("s*{count}")
}

/// "The last five seconds of a run of stop seconds are gear 1, earlier ones gear 0; a run under six is all gear 1."
fn stop_gears(count: usize) -> String {
    match count {
        0..=5 => format!("1*{count}"),
        _ => format!("0*{} 1*5", count - 5),
    }
}

/// The lengths of stop runs.
const LENGTHS: [usize; 9] = [1, 2, 3, 4, 5, 6, 7, 8, 20];

/// At the start, in the middle, at the end and alone; the end of the trace at each second behind it.
fn stop_runs(cases: &mut Cases) {
    for count in LENGTHS {
        let (run, gears) = (stops(count), stop_gears(count));
        cases.row("stops alone", &run, &gears);
        for behind in 1..=6 {
            let words = format!("stops at the start and {behind} seconds behind them");
            cases.row(&words, &format!("{run} c2*{behind}"), &format!("{gears} 2*{behind}"));
        }
        for before in [1, 2, 3, 4, 5, 6] {
            let words = format!("stops at the end and {before} seconds before them");
            cases.row(&words, &format!("a1*{before} {run}"), &format!("1*{before} {gears}"));
        }
        cases.row("stops in the middle", &format!("a1*2 c2*2 {run} c2*2 c3*5"), &format!("1*2 2*2 {gears} 2*2 3*5"));
        cases.row("stops with speeds and marks", &format!("c2 s@23=*{count} c2"), &format!("2 {gears} 2"));
        cases.row("stops before an acceleration to gear 8", &format!("{run} a8*8"), &format!("{gears} 2 3 4 5 6 7 8*2"));
    }
}

/// A second between two runs of stops, so that neither counts for the other.
fn two_stop_runs(cases: &mut Cases) {
    for first in [1, 4, 5, 6, 7] {
        for last in [1, 4, 5, 6, 7] {
            let seconds = format!("{} c2 {}", stops(first), stops(last));
            cases.row("two runs of stops", &seconds, &format!("{} 2 {}", stop_gears(first), stop_gears(last)));
        }
    }
    cases.row("stops with a second between each two", "s a1 s a1 s a1 s a1 s a1 s a1", "1*12");
    cases.row("stops, one second in six outside", "s*5 a1 s*5 a1 s*5", "1*17");
    cases.row("stops, one second in seven outside", "s*6 a1 s*6 a1 s*6", "0 1*5 1 0 1*5 1 0 1*5");
}

/// What is told of stops before their run has ended: 0 where five more are known, else 1.
fn refused_in_stops(cases: &mut Cases) {
    for (seconds, given) in [
        ("s*5", ""),
        ("s*6", "0"),
        ("s*7", "0*2"),
        ("s*12", "0*7"),
        ("s*5 c2", "1"),
        ("s*6 c2", "0 1"),
        ("s*5 c2*5", "1*5"),
        ("s*7 c2*5", "0*2 1*5"),
        ("c2 s*5", "2"),
        ("c2 s*6", "2 0"),
        ("c2 s*7", "2 0*2"),
        ("c2 s*4 c2 s*5", "2 1*4 2"),
        ("c2 s*4 c2 s*6", "2 1*4 2 0"),
        ("s*5 a1 s*5", "1*6"),
    ] {
        let case = named(2, EIGHT, &format!("{seconds} sx s*6"));
        let at = case.seconds.iter().position(|second| second[3] != 0).unwrap() as u32 + 1;
        cases.refused(4, at, &format!("behind {seconds}"), case, given);
    }
}

/// Correction 6 on runs of one to six seconds, with the end of the trace at each second behind them.
fn short_runs(cases: &mut Cases) {
    for length in 1..=6 {
        for behind in 1..=6 {
            let words = format!("a run of {length}, {behind} seconds behind it");
            let (up, down) = (format!("c2*2 c3*{length} c2*{behind}"), format!("c3*6 c2*{length} c3*{behind}"));
            if length <= 4 {
                cases.row(&words, &up, &format!("2*{}", 2 + length + behind));
                cases.row(&words, &down, &format!("3*{}", 6 + length + behind));
            } else {
                cases.row(&words, &up, &format!("2*2 3*{length} 2*{behind}"));
                cases.row(&words, &down, &format!("3*6 2*{length} 3*{behind}"));
            }
            let words = format!("a run of {length} at the end, behind {behind}");
            cases.row(&words, &format!("c2*{behind} c3*{length}"), &format!("2*{behind} 3*{length}"));
            let words = format!("a run of {length} at the start, before {behind}");
            cases.row(&words, &format!("c3*{length} c2*{behind}"), &format!("3*{length} 2*{behind}"));
            let words = format!("a run of {length} between other gears");
            cases.row(&words, &format!("c2*{behind} c3*{length} c4*6"), &format!("2*{behind} 3*{length} 4*6"));
        }
    }
    for length in [7, 8, 9, 12, 16, 17, 20, 33, 64, 65, 129, 257, 260] {
        let words = format!("a run of {length}, which is no short one");
        cases.row(&words, &format!("c2*2 c3*{length} c2*6"), &format!("2*2 3*{length} 2*6"));
    }
    cases.row("a run of one, 999 times", &["c2", "c3"].repeat(1000).join(" "), "2*1999 3");
    cases.row("a run of several phases", "c2 c3 d3 a3 c3 c2*6", "2*11");
    cases.row("a run of several phases, five", "c2 c3 d3 a3 c3 d3 c2*6", "2 3*5 2*6");
    cases.row("a run between other phases", "a2 c3*2 d2*2 a2*6", "2*11");
    cases.row_and_starts("a run of four that is taken", "c2 c3 c3 c3 c3 c2 c2 c2 c2 c2 c2", "2 2 2 2 2 2 2 2 2 2 2");
    cases.row_and_starts("a run of five that stays", "c2 c3 c3 c3 c3 c3 c2 c2 c2 c2 c2", "2 3 3 3 3 3 2 2 2 2 2");
    cases.row_and_starts("a run of one in gear 8", "c7 c8 c7 c7 c7 c7 c7 c7", "7 7 7 7 7 7 7 7");
}

/// "Unless that is 1 and the run has a 'no 1. gear' second": the mark at each second of the run, beside it, and where the gear is another.
fn marked_runs(cases: &mut Cases) {
    for length in 1..=5_usize {
        for marked in 0..length {
            let run: Vec<&str> = (0..length).map(|k| if k == marked { "c2^" } else { "c2" }).collect();
            let words = format!("a mark at second {} of a run of {length}", marked + 1);
            cases.row(&words, &format!("a1 {} a1*6", run.join(" ")), &format!("1 2*{length} 1*6"));
            let run: Vec<&str> = (0..length).map(|k| if k == marked { "c3^" } else { "c3" }).collect();
            let gears = if length <= 4 { format!("2*{}", length + 7) } else { "2 3*5 2*6".to_string() };
            cases.row(&format!("{words}, beside gear 2"), &format!("c2 {} c2*6", run.join(" ")), &gears);
        }
    }
    for (seconds, gears) in [
        ("a1 c2 a1*6", "1*8"),
        ("a1 c2^ a1 c2 a1*6", "1 2*3 1*6"),
        ("a1 c2 a1 c2^ a1*6", "1*3 2 1*6"),
        ("a1 c2^ c3 c2 a1*6", "1 2*3 1*6"),
        ("a1 c2 a1 a1^ a1*6", "1*3 2*7"),
        ("c2^ a1*1 c2 a1 c2*6", "2*10"),
        ("c2^ c3 c2^ a1 c2 a1*2 c2*4", "2*11"),
        ("a1 c2= c2 c2= a1*6", "1*10"),
        ("a1 c2 c2= c2=^ a1*6", "1 2*3 1*6"),
        ("a1 c2=^ c2 a1*6", "1 2*2 1*6"),
        ("s^ a1 c2 a1*6", "1*9"),
    ] {
        cases.row("marks and runs", seconds, gears);
    }
}

/// "Neither neighbour a stop"; "a run holds no stop second and ends at one".
fn runs_at_stops(cases: &mut Cases) {
    for length in 1..=5 {
        cases.row("a stop on the left", &format!("s c2*{length} a1*6"), &format!("1 2*{length} 1*6"));
        cases.row("a stop on the right", &format!("a1 c2*{length} s a1*6"), &format!("1 2*{length} 1 1*6"));
        cases.row("a stop in it", &format!("c2*6 c3*{length} s c3 c2*6"), &format!("2*6 3*{length} 1 2 2*6"));
        cases.row("stops behind it, then its left gear", &format!("c2 c3*{length} s*6 c2*6"), &format!("2 3*{length} 0 1*5 2*6"));
        cases.row("stops on both sides", &format!("s*6 c2*{length} s*6"), &format!("0 1*5 2*{length} 0 1*5"));
    }
    for (seconds, gears) in [
        ("a1 c2 s a1 c2 a1 s", "1 2 1 1 1 1 1"),
        ("c2 c3 s c2 c3 c2 s c2 c3", "2 3 1 2 2 2 1 2 3"),
        ("c2 c3 c2 s c3 c3 c2 c3", "2*3 1 2*3 3"),
        ("s c2 c3 c2 c2 c2", "1 2*5"),
        ("s c2 c2 a1 c2 c2", "1 2*5"),
        ("s a1 c2 a1 c2 a1 s", "1*7"),
        ("c2 s c2 s c2 s c2", "2 1 2 1 2 1 2"),
        ("c8 s c8 s c8 s c8", "8 1 2 1 2 1 2"),
        ("c3*2 c2*2 s c3*2 c2*2 c3*3", "3*2 2*2 1 2*4 3*3"),
    ] {
        cases.row("runs about stops", seconds, gears);
    }
}

/// "Runs are judged in order of first second, as the row then is; a replaced run and the two beside it become one run, which counts as judged."
fn run_after_run(cases: &mut Cases) {
    for (seconds, gears) in [
        ("c2 c3 c4 c3 c2*6", "2 3*3 2*6"),
        ("c2 c3 c4 c3 c4 c3 c2*6", "2 3*5 2*6"),
        ("c2 c3 c2 c3 c2 c3 c2 c3", "2*7 3"),
        ("c3 c2 c3 c3 c2 c3 c4 c4", "3*6 4*2"),
        ("c2 c3*2 c2*2 c3*2 c2*2 c3*2", "2*9 3*2"),
        ("c2 c3*4 c2*4 c3*4 c2*4", "2*17"),
        ("c2 c3*5 c2*4 c3*5 c2*4", "2 3*14 2*4"),
        ("c2 c3*5 c2*5 c3*4 c2*5", "2 3*5 2*14"),
        ("c2 c3 c4 c5 c4 c3 c2*6", "2 3 4*3 3 2*6"),
        ("c4 c3 c2 c3 c4 c4 c4", "4 3*3 4*3"),
        ("c4 c3 c2 c3 c4 c3 c4*6", "4 3*5 4*6"),
        ("c3 c4 c3 c2 c3 c4 c3*6", "3*12"),
        ("c2 c3 c4 c3 c2 c3 c2*6", "2 3*5 2*6"),
        ("c2 c3 c4 c3 c2 c2 c3 c2 c2 c3", "2 3*9"),
        ("c2 c3*3 c4 c3*3 c2*6", "2 3*7 2*6"),
        ("c2*3 c3*1 c2*1 c3*6", "2*5 3*6"),
        ("a1 c2 c3 c2 a1 c2 a1*6", "1 2*5 1*6"),
    ] {
        cases.row("runs behind runs", seconds, gears);
    }
    cases.row_and_starts("a merged run", "c2 c3 c4 c3 c2 c2 c2 c2 c2 c2", "2 3 3 3 2 2 2 2 2 2");
    cases.row_and_starts("short runs one behind another", "c2 c3 c2 c3 c2 c3 c2 c3 c3", "2 2 2 2 2 2 2 3 3");
}

/// Correction 1 over the delay, over a stop, over a cruise and over another acceleration.
fn caps(cases: &mut Cases) {
    for (words, seconds, gears) in [
        ("for the whole run", "a3 d5*12", "3*13"),
        ("not over a stop", "a3 s d5*6", "3 1 2 3 4 5*3"),
        ("not over six stops", "a3 s*6 d5*6", "3 0 1*5 2 3 4 5*3"),
        ("not over a stop in the deceleration", "a3 d5*2 s d5*6", "3*3 1 2 3 4 5*3"),
        ("not over a cruise", "a3 c4*6 d5*6", "3 4*6 5*6"),
        ("not over a cruise in the deceleration", "a3 d5*2 c4*6 d5*6", "3*3 4*6 5*6"),
        ("by the last acceleration", "a3 d5*2 a4*2 d6*6", "3*3 4*8"),
        ("by the run's last second", "a2 a3 a4 d6*7", "2 3 4*8"),
        ("before correction 4", "a4*2 a3 d5*8", "4*3 3*8"),
        ("before correction 2", "a1^ d2*8", "2 1*8"),
        ("before correction 3", "c5*6 a2= d5*8", "5*7 4 3 2*6"),
        ("before correction 5", "c2*6 a8 d8*8", "2*6 3 4 5 6 7 8*4"),
        ("the gear does not fall with the run's own", "a5*6 d3*6 d4*6", "5*6 4 3*5 4*6"),
        ("the smaller is its own", "a5 d4*2 d3*2 d2*6", "5 4*2 3*2 2*6"),
        ("not without an acceleration", "d5*8", "5*8"),
        ("not before the acceleration", "d5*6 a5*2 d8*6", "5*14"),
    ] {
        cases.row(&format!("correction 1, {words}"), seconds, gears);
    }
}

/// Corrections 2 to 5 look at the second before, as each has left it, however long that goes on.
fn looking_back(cases: &mut Cases) {
    for (words, seconds, gears) in [
        ("2", "a1^*8", "2*8"),
        ("2, not at a stop", "s^*8 a1^", "0*3 1*5 2"),
        ("3, second after second", "c3 c5=*10", "3*11"),
        ("3, then 5", "c3 c5=*8 c5*8", "3*9 4 5*7"),
        ("3, as 3 left it and not 5", "c2*6 c5 c7=*8", "2*6 3 4 5*7"),
        ("3, as 3 left it and not 4", "c6*6 a6 a3 c2=*6", "6*8 5 4 3*4"),
        ("3, not after a stop", "c5*6 s c3=*6", "5*6 1 2 3*5"),
        ("3, not at the first second", "c5=*8", "5*8"),
        ("3, 2 in place of 1", "a1*6 c2=^ c5=*6", "1*6 2*7"),
        ("3, 1 without the mark", "a1*6 c2=*6", "1*12"),
        ("3, before 4", "c4*6 a8= a6*8", "4*7 5 6*7"),
        ("4, after 3", "a5 a3 a2=*8", "5*10"),
        ("4, second after second", "a5 a2*8", "5*9"),
        ("4, as 4 left it and not 5", "c2*6 a8 a3*9", "2*6 3 4 5 6 7 8*5"),
        ("4, not over a stop", "a5 s a2*8", "5 1 2*8"),
        ("4, not over a cruise", "a5 c5*6 a2*8", "5*7 4 3 2*6"),
        ("4, not over a deceleration", "a5*6 d5 a2*8", "5*7 4 3 2*6"),
        ("5, upwards", "c2 c8*9", "2 3 4 5 6 7 8*4"),
        ("5, downwards", "c8 c2*9", "8 7 6 5 4 3 2*4"),
        ("5, after a stop", "c8 s c8*8", "8 1 2 3 4 5 6 7 8*2"),
        ("5, after eight stops", "s*8 c8*8", "0*3 1*5 2 3 4 5 6 7 8*2"),
        ("5, a stop is not cut", "c8*6 s*6 c2*6", "8*6 0 1*5 2*6"),
        ("5, before 6", "c2 c5*2 c2*8", "2 3*3 2*7"),
        ("5, not by 6", "c4 c3 c2 c3 c6*8", "4 3*3 4 5 6*6"),
        ("3, not by 6", "c2 c3 c2*1 c4= c2*6", "2*10"),
        ("3, not by 6 that comes later", "c2*6 c3 c3= c2 c2*6", "2*15"),
    ] {
        cases.row(&format!("correction {words}"), seconds, gears);
    }
}

/// The clutch is that of the final gear, where correction 6 makes it another: in [`TALL`] 19.9 km/h has it in in gear 2 and out in gear 3, and 12.7 km/h in in
/// gear 1 and out in gear 2.
fn clutches(cases: &mut Cases) {
    let given = |cases: &mut Cases, seconds: &str, row: &[(u8, u8, usize)]| {
        let bytes: Vec<u8> = row.iter().flat_map(|(gear, clutch, count)| [*gear, *clutch].repeat(*count)).collect();
        cases.all(format!("clutch, {seconds}, by the final gear"), named(1, TALL, seconds), &bytes);
    };
    for length in 1..=4 {
        for behind in 1..=6 {
            let seconds = format!("c@600 c@199*{length} c@600*{behind}");
            given(cases, &seconds, &[(3, 0, 1), (3, 1, length), (3, 0, behind)]);
            let seconds = format!("a@127 c@127*{length} a@127*{behind}");
            given(cases, &seconds, &[(1, 0, 1), (1, 0, length), (1, 0, behind)]);
        }
    }
    given(cases, "c@600 c@199*5 c@600*6", &[(3, 0, 1), (2, 0, 5), (3, 0, 6)]);
    given(cases, "a@127 c@127*5 a@127*6", &[(1, 0, 1), (2, 1, 5), (1, 0, 6)]);
    given(cases, "a@127 c@127 c@127^ a@127*6", &[(1, 0, 1), (2, 1, 2), (1, 0, 6)]);
    given(cases, "s@2000*6 a@99 a@100*6", &[(0, 1, 1), (1, 1, 5), (1, 1, 1), (1, 1, 6)]);
    given(cases, "a@124 a@125*6", &[(1, 1, 1), (1, 0, 6)]);
    given(cases, "c@129 c@130*6", &[(2, 1, 1), (2, 0, 6)]);
}

/// Marks under both sets and in both versions, with what was given by then.
fn marks(cases: &mut Cases) {
    for (mark, before, given) in [("=", 0, ""), ("^", 3, ""), ("=^", 5, ""), ("=", 6, "2"), ("^", 9, "2*4")] {
        let at = before as u32 + 1;
        for phase in ["s", "a1", "c2", "d2"] {
            let seconds = format!("c2*{before} {phase}{mark} c2*3");
            let of = |version: u32, rule_set: u32| named(version, Vehicle { rule_set, ..EIGHT }, &seconds);
            cases.refused(20, at, &format!("rule set 2, version 1, {seconds}"), of(1, 2), given);
            cases.refused(4, at, &format!("rule set 1, version 2, {seconds}"), of(2, 1), given);
            cases.refused(4, at, &format!("rule set 2, version 2, {seconds}"), of(2, 2), given);
        }
    }
    for (version, rule_set) in [(1, 1), (1, 2), (2, 1), (2, 2)] {
        let case = |seconds: &str| named(version, Vehicle { rule_set, ..EIGHT }, seconds);
        let words = format!("rule set {rule_set}, version {version}");
        let first = if rule_set == 1 { "2" } else { "1" };
        cases.gears(&format!("{words}, cruise at a standstill"), case("c1*8"), &format!("{first}*8"));
        cases.gears(&format!("{words}, deceleration to a stop"), case("c3*2 d1*6 s*6"), &format!("3*2 2 {first}*5 0 1*5"));
        cases.gears(&format!("{words}, after a stop"), case("s*6 c1*7"), &format!("0 1*5 {first}*7"));
    }
}
