//! What is timed.

use compare::lot::FARTHEST;
use compare::random::Random;
use compare::trace::{house_file, in_version, unmarked};
use ylhovesko::bags::{petrol, result, Bag, Efficiencies, Ends, Gases, Part, Reading, Sheet};
use ylhovesko::gear::{gears, Vehicle};
use ylhovesko::lot::{Record, MOST};

/// The machine of Annex 13.
pub const MACHINE: Vehicle =
    Vehicle { power: 720, mass: 199, rated: 11_800, idle: 1150, gears: 6, ndv: [13_366, 9491, 7616, 6569, 5885, 5404, 0, 0], rule_set: 1 };

/// How many seconds all traces of a kind and length have together.
const SECONDS: usize = 36_000;

/// The cycle's three parts, one after the other and from the start again.
fn cycle() -> impl Iterator<Item = u8> {
    let parts: [&[u8]; 3] = [
        include_bytes!("../../../demo/part1_normal.wtr"),
        include_bytes!("../../../demo/part2_normal.wtr"),
        include_bytes!("../../../demo/part3_normal.wtr"),
    ];
    parts.map(|file| &file[8..]).concat().into_iter().cycle()
}

/// Seconds with no order to them: any phase, any speed, any mark, so that no branch can be foreseen and every correction has work.
fn restless() -> impl Iterator<Item = u8> {
    let mut random = Random::new(1);
    let second = move || {
        let [low, high] = (random.from(0, 2000) as u16).to_le_bytes();
        Some([low, high, random.below(16) as u8, 0])
    };
    std::iter::from_fn(second).flatten()
}

/// House files of so many seconds each, from one source of seconds.
fn files(count: u16, mut seconds: impl Iterator<Item = u8>) -> Vec<Vec<u8>> {
    let mut file = || house_file(&seconds.by_ref().take(4 * usize::from(count)).collect::<Vec<u8>>());
    (0..SECONDS / usize::from(count)).map(|_| file()).collect()
}

/// The kinds of traces, with the house files of a length: of version 1 with their marks for rule set 1, and of version 2 with the phases alone for rule set 2,
/// which takes no mark.
pub fn traces(rule_set: u32, count: u16) -> [(&'static str, Vec<Vec<u8>>); 2] {
    let of_set = |files: Vec<Vec<u8>>| match rule_set {
        1 => files,
        _ => files.into_iter().map(|file| in_version(2, unmarked(file))).collect(),
    };
    [("cycle", of_set(files(count, cycle()))), ("restless", of_set(files(count, restless())))]
}

/// The same kinds as the lists that the writer takes, of so many seconds each.
pub fn lists(count: u16) -> [(&'static str, Vec<Vec<u16>>); 2] {
    let numbers = |second: &[u8]| [u16::from_le_bytes([second[0], second[1]]), second[2].into()];
    let list = |file: &Vec<u8>| file[8..].chunks(4).flat_map(numbers).collect();
    traces(2, count).map(|(kind, files)| (kind, files.iter().map(list).collect()))
}

/// A machine as planners try them: 80 to 350 kg, 3 to 150 kW or as much as the mass takes, 3 to 8 gears, each ratio 8 to 50 percent above the next.
fn planned(random: &mut Random, rule_set: u32) -> Vehicle {
    let mass = random.from(80, 350);
    let power = random.from(30, (150 * (mass + 75) / 19).min(1500));
    let mut ndv = [random.from(12_000, 30_000); 8];
    for gear in 1..8 {
        ndv[gear] = 100 * ndv[gear - 1] / random.from(108, 150);
    }
    Vehicle { power, mass, rated: random.from(5000, 14_000), idle: random.from(800, 1500), gears: random.from(3, 8), ndv, rule_set }
}

/// So many machines that are refused on none of the traces. What is too close is so under both rule sets, so that each has the same machines.
pub fn vehicles(count: usize, rule_set: u32, traces: &[&[u8]]) -> Vec<Vehicle> {
    let accepted = |vehicle: &Vehicle| traces.iter().all(|trace| gears(trace, *vehicle, &mut vec![0; trace.len()], 0).is_ok());
    let mut random = Random::new(1);
    std::iter::repeat_with(|| planned(&mut random, rule_set)).filter(accepted).take(count).collect()
}

/// Tests as a bench has them: HC, also behind the cutter, CO and NOx in ppm and CO2 in percent, dilution air that is nearly clean, and every field near its
/// usual value.
fn ordinary(random: &mut Random) -> Sheet {
    let fuel = petrol(random.from(720, 775));
    let class = random.from(1, 3);
    let mut part = || {
        let mut ppm = |most: u32| Reading::ppm(random.from(0, 100 * most) as f32 / 100.0);
        let [hc, co, nox, cutter] = [300, 4000, 120, 60].map(&mut ppm);
        let bag = Bag { hc, co, nox, co2: Reading::percent(random.from(30, 300) as f32 / 100.0), cutter };
        let mut ppm = |most: u32| Reading::ppm(random.from(0, 100 * most) as f32 / 100.0);
        let [hc, co, nox, cutter] = [5, 4, 1, 2].map(&mut ppm);
        let air = Bag { hc, co, nox, co2: Reading::percent(random.from(3, 5) as f32 / 100.0), cutter };
        Part {
            pump: random.from(1000, 4000),
            revolutions: random.from(10_000, 40_000),
            barometer: random.from(98_000, 103_000),
            depression: random.from(500, 3000),
            temperature: random.from(200, 400) as i32,
            humidity: random.from(300, 600),
            saturation: random.from(2000, 3500),
            distance: random.from(4000, 16_000),
            density: Gases { nmhc: 577_000, ..fuel.density },
            bag,
            air,
        }
    };
    let parts = [part(), part(), part()];
    let limits = Gases { hc: 1_000_000, co: 5_500_000, nox: 300_000, co2: 100_000_000, nmhc: 800_000 };
    let efficiencies = Efficiencies { methane: random.from(20, 150), ethane: random.from(950, 1000) };
    Sheet { class, count: if class == 3 { 3 } else { 2 }, triple: fuel.triple, fuel: fuel.fuel, limits, efficiencies, parts }
}

/// The kinds of sheets, with the first so many that are accepted.
pub fn sheets(count: usize) -> [(&'static str, Vec<Sheet>); 2] {
    let accepted = |sheet: &Sheet| result(*sheet).is_ok();
    let mut random = Random::new(1);
    let usual = std::iter::repeat_with(|| ordinary(&mut random)).filter(accepted).take(count).collect();
    let odd = (0..).map(compare::bags::case).filter(accepted).take(count).collect();
    [("ordinary", usual), ("random", odd)]
}

/// So many reference masses and rotating masses that are accepted, from the whole of both ranges.
pub fn masses(count: usize) -> Vec<(u32, u32)> {
    let mut random = Random::new(1);
    (0..count).map(|_| (random.from(951, 10_000), random.from(0, 50_000))).collect()
}

/// Ends from the whole of their range and verdicts with no order to them, so that no branch can be foreseen.
fn random_record(random: &mut Random) -> Record {
    let mut end = || random.below(2 * FARTHEST as u64 + 1) as i64 - FARTHEST;
    let weighted = [(); 5].map(|()| {
        let (one, other) = (end(), end());
        Ends { lower: one.min(other), upper: one.max(other) }
    });
    Record { weighted: Gases::of(weighted), verdicts: Gases::of([(); 5].map(|()| random.from(1, 3))), has_nmhc: random.from(0, 1) }
}

/// So many lots of the greatest size, from one source of records.
fn full_lots(count: usize, mut records: impl Iterator<Item = Record>) -> Vec<Vec<Record>> {
    (0..count).map(|_| records.by_ref().take(MOST).collect()).collect()
}

/// The kinds of records, with so many lots: the results of ordinary tests, and any that are accepted.
pub fn lots(count: usize) -> [(&'static str, Vec<Vec<Record>>); 2] {
    let (mut tests, mut random) = (Random::new(1), Random::new(1));
    let results = std::iter::repeat_with(|| result(ordinary(&mut tests))).flatten();
    let usual = full_lots(count, results.map(|result| Record::of(&result)));
    let odd = full_lots(count, std::iter::repeat_with(|| random_record(&mut random)));
    [("ordinary", usual), ("random", odd)]
}
