//! Times plans: sixteen vehicles side by side against the same rows one by one.

use std::hint::black_box;
use std::time::Instant;

use bench::inputs::{traces, vehicles};
use compare::plan::{numbers_of, vehicles_of};
use ylhovesko::plan::SHEET;
use ylhovesko::Refusal;

/// A planning run, as the table of rows has it.
const VEHICLES: usize = 1000;
const SECONDS: u16 = 1800;
/// The vehicles on which the programs take turns, three blocks of sixteen, and the rounds of all vehicles.
const CHUNK: usize = 48;
const ROUNDS: usize = 15;

/// Writes the rows of a list of sheets on a trace, and what is said of each vehicle.
type Write = fn(&[u8], &[u32], &mut [u8], &mut [u32]) -> Result<(), Refusal>;

/// The core's gear sheet, a call for each vehicle.
fn one_by_one(trace: &[u8], sheets: &[u32], rows: &mut [u8], answers: &mut [u32]) -> Result<(), Refusal> {
    let a_row = (trace.len() - 8) / 2;
    for (i, (vehicle, answer)) in vehicles_of(sheets).zip(answers.as_chunks_mut().0).enumerate() {
        let told = ylhovesko::gear::gears(trace, vehicle, rows, a_row * i);
        *answer = told.map_or_else(|refusal| [refusal.number, refusal.at], |()| [0, 0]);
    }
    Ok(())
}

const PROGRAMS: [(&str, Write); 5] = [
    ("`quick`", bench::plan::write_rows),
    ("core, a row a call", one_by_one),
    ("core, plan", ylhovesko::plan::write_numbers),
    ("the core's passes in Rust", bench::passes::write_rows),
    ("Rust lanes, plan", bench::lanes::write_rows),
];

/// What is lent for so many vehicles.
fn lent(trace: &[u8], count: usize) -> (Vec<u8>, Vec<u32>) {
    (vec![0; (trace.len() - 8) / 2 * count], vec![0; 2 * count])
}

/// Nanoseconds of one run.
fn timed(write: Write, trace: &[u8], sheets: &[u32], (rows, answers): &mut (Vec<u8>, Vec<u32>)) -> f64 {
    let start = Instant::now();
    write(black_box(trace), black_box(sheets), black_box(rows), black_box(answers)).unwrap();
    start.elapsed().as_nanos() as f64
}

/// Nanoseconds of each program for all vehicles: the least of all rounds of each chunk, summed. All give the same rows.
fn summed<const N: usize>(programs: [Write; N], trace: &[u8], sheets: &[u32], rounds: usize) -> [f64; N] {
    let mut lent = [(); N].map(|()| lent(trace, CHUNK));
    let mut total = [0.0; N];
    for chunk in sheets.chunks(SHEET * CHUNK) {
        let mut least = [f64::MAX; N];
        for _ in 0..rounds {
            for (program, (least, lent)) in programs.iter().zip(least.iter_mut().zip(&mut lent)) {
                *least = least.min(timed(*program, trace, chunk, lent));
            }
        }
        assert!(lent.iter().all(|each| *each == lent[0]), "the rows differ");
        total.iter_mut().zip(least).for_each(|(total, least)| *total += least);
    }
    total
}

/// Nanoseconds of each program for all vehicles in one call, the least of some rounds. The programs take turns, in one buffer.
fn in_one_call<const N: usize>(programs: [Write; N], trace: &[u8], sheets: &[u32], rounds: usize) -> [f64; N] {
    let mut lent = lent(trace, sheets.len() / SHEET);
    let mut least = [f64::MAX; N];
    for _ in 0..rounds {
        for (program, least) in programs.iter().zip(&mut least) {
            *least = least.min(timed(*program, trace, sheets, &mut lent));
        }
    }
    least
}

/// The table of one trace: by chunks, in turns, and in one call of all vehicles, where the processor learns the branches that the trace decides.
fn time_programs(trace: &[u8], sheets: &[u32]) {
    let programs = PROGRAMS.map(|(_, write)| write);
    let (times, whole) = (summed(programs, trace, sheets, ROUNDS), in_one_call(programs, trace, sheets, ROUNDS));
    println!("| program | ns a second | rows/s | to `quick` | in one call, ns a second | to `quick` |");
    println!("|---|---|---|---|---|---|");
    let rows = (sheets.len() / SHEET) as f64;
    let a_second = |time: f64| time / (rows * f64::from(SECONDS));
    for ((program, _), (time, whole_time)) in PROGRAMS.iter().zip(times.into_iter().zip(whole)) {
        let by_chunks = format!("{:.2} | {:.0} | {:.3}", a_second(time), 1e9 * rows / time, time / times[0]);
        println!("| {program} | {by_chunks} | {:.2} | {:.3} |", a_second(whole_time), whole_time / whole[0]);
    }
    println!("\nCore to its own passes in Rust: {:.2}, in one call {:.2}.", times[2] / times[3], whole[2] / whole[3]);
    println!("Core to Rust lanes: {:.2}, in one call {:.2}.\n", times[2] / times[4], whole[2] / whole[4]);
}

/// So many sheets, over and over.
fn repeated(sheets: &[u32], count: usize) -> Vec<u32> {
    sheets.iter().copied().cycle().take(SHEET * count).collect()
}

/// A line of a table: the core's plan and that of the lanes in one call, the least of some rounds, in nanoseconds a second of a vehicle.
fn print_size(size: usize, trace: &[u8], sheets: &[u32]) {
    let count = sheets.len() / SHEET;
    let programs: [Write; 2] = [ylhovesko::plan::write_numbers, bench::lanes::write_rows];
    let times = in_one_call(programs, trace, sheets, (20_000 / count).clamp(8, 200));
    let [core, lanes] = times.map(|time| time / (count * (trace.len() - 8) / 4) as f64);
    println!("| {size} | {core:.2} | {lanes:.2} |");
}

/// How the core's plan grows with the vehicles and with the seconds.
fn time_sizes() {
    for (kind, files) in traces(1, SECONDS) {
        let sheets = sheets_on(1, &[&files[0]]);
        println!("| {kind}, vehicles | ns a second of a vehicle, core | Rust lanes |\n|---|---|---|");
        for count in [16, 160, 1600, 16_000] {
            print_size(count, &files[0], &repeated(&sheets, count));
        }
        println!();
    }
    println!("| cycle, seconds | ns a second of a vehicle, core | Rust lanes |\n|---|---|---|");
    for count in [250, 500, 1000, 2000] {
        let [(_, files), _] = traces(1, count);
        print_size(count.into(), &files[0], &repeated(&sheets_on(1, &[&files[0]]), 160));
    }
    println!();
}

/// Plans of few vehicles against a row a call.
fn time_few() {
    println!("| vehicles | plan to a row a call, cycle | restless |\n|---|---|---|");
    let kinds = traces(1, SECONDS).map(|(_, files)| files[0].clone());
    let sheets = sheets_on(1, &kinds.each_ref().map(|trace| &trace[..]));
    for count in [1, 2, 3, 4, 8, 16, 48] {
        let ratios = kinds.each_ref().map(|trace| {
            let [alone, plan] = summed([one_by_one, ylhovesko::plan::write_numbers], trace, &sheets[..SHEET * count], 10 * ROUNDS);
            plan / alone
        });
        println!("| {count} | {:.2} | {:.2} |", ratios[0], ratios[1]);
    }
}

/// The sheets of vehicles that are refused on none of the traces.
fn sheets_on(rule_set: u32, traces: &[&[u8]]) -> Vec<u32> {
    vehicles(VEHICLES, rule_set, traces).iter().flat_map(numbers_of).collect()
}

pub fn time_all() {
    for rule_set in [1, 2] {
        let kinds = traces(rule_set, SECONDS);
        let sheets = sheets_on(rule_set, &kinds.each_ref().map(|(_, files)| &files[0][..]));
        for (kind, files) in &kinds {
            println!("\nPlans in lanes, set {rule_set}, {kind}:\n");
            time_programs(&files[0], &sheets);
        }
    }
    time_sizes();
    time_few();
}
