//! Cases of plans, one trace and many vehicles: as stored, as made at random, and what each implementation says of one.

use std::fmt;

use ylhovesko::gear::{gears, Vehicle};
use ylhovesko::plan::{write_numbers, SHEET};

use crate::gear::{accepted_vehicle, close_speed_vehicle, damage_vehicle, trace_for, vehicle_of};
use crate::random::Random;
use crate::{core_told, hex, plain_told, unhex, Told};

/// What is lent beside a trace and the sheets: the rows and the answers. Before the call they are noise.
#[derive(Clone, Debug, PartialEq, Eq)]
pub struct Lent {
    pub rows: Vec<u8>,
    pub answers: Vec<u32>,
}

impl Lent {
    /// Noise in so many bytes and numbers.
    pub fn noise(random: &mut Random, [rows, answers]: [usize; 2]) -> Lent {
        Lent { rows: random.bytes(rows), answers: (0..answers).map(|_| random.word() as u32).collect() }
    }

    pub fn rooms(&self) -> [usize; 2] {
        [self.rows.len(), self.answers.len()]
    }

    /// Puts what is said of each vehicle to its place.
    fn put(&mut self, a_row: usize, planned: &[Planned]) {
        for (i, Planned { told, row }) in planned.iter().enumerate() {
            self.answers[2 * i..2 * i + 2].copy_from_slice(told);
            if let Some(row) = row {
                self.rows[a_row * i..a_row * (i + 1)].copy_from_slice(row);
            }
        }
    }
}

/// A call of a plan. The sheets may end within a vehicle.
#[derive(Clone, Debug, PartialEq, Eq)]
pub struct Case {
    pub trace: Vec<u8>,
    pub sheets: Vec<u32>,
    pub lent: Lent,
}

/// The numbers of a vehicle, in the order of the sheet.
pub fn numbers_of(v: &Vehicle) -> [u32; SHEET] {
    let [a, b, c, d, e, f, g, h] = v.ndv;
    [v.power, v.mass, v.rated, v.idle, v.gears, a, b, c, d, e, f, g, h, v.rule_set]
}

/// The whole vehicles of a list of sheets.
pub fn vehicles_of(sheets: &[u32]) -> impl Iterator<Item = Vehicle> + '_ {
    sheets.as_chunks().0.iter().map(|numbers| vehicle_of(*numbers))
}

impl Case {
    pub fn vehicles(&self) -> Vec<Vehicle> {
        vehicles_of(&self.sheets).collect()
    }

    /// How many bytes a row takes, of a trace that is accepted.
    pub fn a_row(&self) -> usize {
        a_row(&self.trace)
    }
}

fn a_row(trace: &[u8]) -> usize {
    trace.len().saturating_sub(8) / 4 * 2
}

/// The case as a line of vectors/directed_plan.txt has it, up to its answer.
impl fmt::Display for Case {
    fn fmt(&self, f: &mut fmt::Formatter) -> fmt::Result {
        let sheets: String = self.sheets.iter().map(|number| format!(" {number}")).collect();
        let [rows, answers] = self.lent.rooms();
        write!(f, "{} {}{sheets} {rows} {answers}", hex(&self.trace), self.sheets.len())
    }
}

/// What is said of one vehicle: the number and the place of its refusal, and its row where it is accepted.
#[derive(Clone, Debug, PartialEq, Eq)]
pub struct Planned {
    pub told: [u32; 2],
    pub row: Option<Vec<u8>>,
}

/// The outcome of the whole call, and what was lent as it is after it.
#[derive(Clone, Debug, PartialEq, Eq)]
pub struct Answer {
    pub told: Told,
    pub lent: Lent,
}

impl Answer {
    /// The refusal of a whole call, which leaves all as it was lent.
    pub fn refused(case: &Case, number: u32, at: u32) -> Answer {
        Answer { told: [number, at, 0, 0], lent: case.lent.clone() }
    }

    /// What a case is answered where this is said of its vehicles.
    pub fn written(case: &Case, planned: &[Planned]) -> Answer {
        let mut lent = case.lent.clone();
        lent.put(case.a_row(), planned);
        Answer { told: [0; 4], lent }
    }

    /// What is said of each vehicle; nothing where the whole call is refused.
    pub fn planned(&self, case: &Case) -> Vec<Planned> {
        let count = if self.told[0] == 0 { case.sheets.len() / SHEET } else { 0 };
        let row = |i: usize| self.lent.rows[case.a_row() * i..case.a_row() * (i + 1)].to_vec();
        let of = |(i, told): (usize, &[u32; 2])| Planned { told: *told, row: (told[0] == 0).then(|| row(i)) };
        self.lent.answers.as_chunks().0.iter().take(count).enumerate().map(of).collect()
    }
}

/// The answer as a line of vectors/directed_plan.txt has it after the case.
pub fn answer_text(case: &Case, answer: &Answer) -> String {
    let each = |planned: Planned| format!(" {} {} {}", planned.told[0], planned.told[1], hex(&planned.row.unwrap_or_default()));
    let planned: String = answer.planned(case).into_iter().map(each).collect();
    format!("{} {}{planned}", answer.told[0], answer.told[1])
}

/// The case and the answer of a line of vectors/directed_plan.txt. The line's number is the seed of the noise.
pub fn read(line: u64, text: &str) -> (Case, Answer) {
    let mut words = text.split(' ');
    let trace = unhex(words.next().unwrap());
    let mut number = || words.next().unwrap().parse::<usize>().unwrap();
    let length = number();
    let sheets = (0..length).map(|_| number() as u32).collect();
    let lent = Lent::noise(&mut Random::new(line), [number(), number()]);
    let case = Case { trace, sheets, lent };
    let told = [number() as u32, number() as u32];
    let rest: Vec<&str> = words.collect();
    let each = |words: &[&str; 3]| {
        let told = [0, 1].map(|at| words[at].parse().unwrap());
        Planned { told, row: (told[0] == 0).then(|| unhex(words[2])) }
    };
    let (planned, within) = rest.as_chunks::<3>();
    assert!(within.is_empty(), "line {line}");
    let answer = match told {
        [0, 0] => Answer::written(&case, &planned.iter().map(each).collect::<Vec<_>>()),
        [number, at] => Answer::refused(&case, number, at),
    };
    assert_eq!(planned.len(), if told[0] == 0 { case.sheets.len() / SHEET } else { 0 }, "line {line}");
    (case, answer)
}

/// Writes the rows of a plan: the trace, the sheets, the rows and the answers.
pub type Write<R> = fn(&[u8], &[u32], &mut [u8], &mut [u32]) -> Result<(), R>;

/// What an implementation in numbers of the core says.
pub fn by_way(way: Write<ylhovesko::Refusal>, case: &Case) -> Answer {
    let mut lent = case.lent.clone();
    let told = core_told(way(&case.trace, &case.sheets, &mut lent.rows, &mut lent.answers));
    Answer { told, lent }
}

/// What the proved core says.
pub fn by_core(case: &Case) -> Answer {
    by_way(write_numbers, case)
}

/// What the second implementation says.
pub fn by_plain(case: &Case) -> Answer {
    let mut lent = case.lent.clone();
    let told = plain_told(plain::plan::write_rows(&case.trace, &case.sheets, &mut lent.rows, &mut lent.answers));
    Answer { told, lent }
}

/// What the proved core's gear sheet says where each vehicle of an accepted call is asked for by itself, in the same buffer.
pub fn one_by_one(case: &Case) -> Answer {
    let mut lent = case.lent.clone();
    for (i, vehicle) in case.vehicles().into_iter().enumerate() {
        let [number, at, ..] = core_told(gears(&case.trace, vehicle, &mut lent.rows, case.a_row() * i));
        lent.answers[2 * i..2 * i + 2].copy_from_slice(&[number, at]);
    }
    Answer { told: [0; 4], lent }
}

/// How many vehicles: few, or about the sixteen that are worked on beside each other and their multiples.
fn count(random: &mut Random) -> usize {
    match random.below(16) {
        0 => 0,
        1 => random.from(33, 70) as usize,
        2..=5 => random.one_of(&[15, 16, 17, 31, 32, 33, 47, 48, 49]),
        _ => random.from(1, 16) as usize,
    }
}

/// The same machine with other ratios, as a planner tries them: each a little more or less, in falling order still.
fn tried(random: &mut Random, vehicle: &Vehicle) -> Vehicle {
    let mut tried = *vehicle;
    for gear in 0..8 {
        let above = if gear == 0 { 100_001 } else { tried.ndv[gear - 1] };
        let near = u64::from(vehicle.ndv[gear]) * u64::from(random.from(95, 105)) / 100;
        tried.ndv[gear] = (near as u32).clamp(1000, above.saturating_sub(1).max(1000));
    }
    tried
}

/// The vehicles of a list, with the speeds that are too close for some of them, or only just not. They are of one rule set or of both, and how many are damaged
/// is the list's own.
fn list(random: &mut Random, count: usize) -> (Vec<Vehicle>, Vec<u32>) {
    let (kind, damage, set) = (random.below(3), random.one_of(&[0, 0, 1, 8]), random.one_of(&[0, 1, 2]));
    let (mut vehicles, mut close, mut last) = (Vec::new(), Vec::new(), None);
    for _ in 0..count {
        let mut next = match last {
            Some(before) if kind == 0 && !random.once_in(8) => tried(random, &before),
            _ if random.once_in(6) => {
                let (vehicle, speed) = close_speed_vehicle(random);
                close.push(speed);
                vehicle
            }
            _ => accepted_vehicle(random.word()),
        };
        last = Some(next);
        next.rule_set = if set == 0 { random.from(1, 2) } else { set };
        if random.below(16) < damage {
            damage_vehicle(random, &mut next);
        }
        if random.once_in(64) {
            next.rule_set = random.one_of(&[0, 3, 258, u32::MAX]);
        }
        vehicles.push(next);
    }
    (vehicles, close)
}

/// Room for so much, one more or fewer, far more, less or none.
fn room(random: &mut Random, exact: usize) -> usize {
    match random.below(32) {
        0 => exact.saturating_sub(1),
        1 => random.below(exact as u64 + 1) as usize,
        2 => 0,
        3..=6 => exact + random.from(1, 3) as usize,
        7 | 8 => exact + random.from(0, 200) as usize,
        _ => exact,
    }
}

/// The random case of a seed.
pub fn case(seed: u64) -> Case {
    let mut random = Random::new(seed);
    let random = &mut random;
    let count = count(random);
    let (vehicles, close) = list(random, count);
    let trace = trace_for(random, &vehicles, &close);
    let mut sheets: Vec<u32> = vehicles.iter().flat_map(numbers_of).collect();
    let exact = [a_row(&trace) * count, 2 * count];
    if random.once_in(32) && count > 0 {
        sheets.truncate(sheets.len() - random.from(1, 13) as usize);
    }
    // so that valgrind sees a number that is read past the last
    sheets.shrink_to_fit();
    let rooms = exact.map(|exact| room(random, exact));
    Case { trace, sheets, lent: Lent::noise(random, rooms) }
}
