//! Cases of the gear sheet: as stored, as made at random, and what each implementation says of one.

use std::fmt;
use std::ops::RangeInclusive;

use plain::gear::{speeds, three_per_cent, Speeds};
use ylhovesko::gear::Vehicle;

use crate::pairs::Pair;
use crate::random::Random;
use crate::trace::{house_file, with_version};
use crate::{core_told, hex, plain_told, stored, unhex, Told};

/// A call of the gear sheet. The buffer's bytes are noise, so that a byte written where none should be is seen.
#[derive(Clone, PartialEq, Eq)]
pub struct Case {
    pub trace: Vec<u8>,
    pub vehicle: Vehicle,
    pub buffer: Vec<u8>,
    pub start: usize,
}

/// The case as a line of vectors/M-101-gear.txt or vectors/M-109-gear.txt has it, up to its answer.
impl fmt::Display for Case {
    fn fmt(&self, f: &mut fmt::Formatter) -> fmt::Result {
        write!(f, "{} {} {} {}", hex(&self.trace), vehicle_text(&self.vehicle), self.buffer.len(), self.start)
    }
}

/// The vehicle as a line of the stored cases has it.
pub fn vehicle_text(v: &Vehicle) -> String {
    let ratios: String = v.ndv.iter().map(|each| format!(" {each}")).collect();
    format!("{} {} {} {} {}{ratios} {}", v.power, v.mass, v.rated, v.idle, v.gears, v.rule_set)
}

/// The vehicle of the numbers of [`vehicle_text`].
pub fn vehicle_of([power, mass, rated, idle, gears, ndv @ .., rule_set]: [u32; 14]) -> Vehicle {
    Vehicle { power, mass, rated, idle, gears, ndv, rule_set }
}

/// What an implementation says of a case, and the buffer after it.
pub type Answer = (Told, Vec<u8>);

/// The words of a line that has a rule set. Those from before there were two, as vectors/gear.txt has them, name none and are of set 1.
fn words_with_rule_set(text: &str) -> Vec<&str> {
    let mut words: Vec<&str> = text.split(' ').collect();
    if words.len() == 19 {
        words.insert(14, "1");
    }
    words
}

/// The case and the answer of a line of vectors/M-101-gear.txt or vectors/gear.txt, or of a file of their forms; the line's number is the seed of the buffer's
/// noise.
pub fn read(line: u64, text: &str) -> (Case, Answer) {
    let words = words_with_rule_set(text);
    assert_eq!(words.len(), 20, "line {line}");
    let n: Vec<usize> = words[1..19].iter().map(|word| word.parse().unwrap()).collect();
    let vehicle = vehicle_of(std::array::from_fn(|at| n[at] as u32));
    let case = Case { trace: unhex(words[0]), vehicle, buffer: Random::new(line).bytes(n[14]), start: n[15] };
    let row = unhex(words[19]);
    let mut written = case.buffer.clone();
    if n[16] == 0 {
        written[case.start..case.start + row.len()].copy_from_slice(&row);
        assert_eq!(row.len(), (case.trace.len() - 8) / 2, "line {line}");
    }
    (case, ([n[16] as u32, n[17] as u32, 0, 0], written))
}

/// The answer as a line of vectors/gear.txt has it after the case.
pub fn answer_text(case: &Case, (told, written): &Answer) -> String {
    let row = if told[0] == 0 { &written[case.start..case.start + (case.trace.len() - 8) / 2] } else { &[] };
    format!("{} {} {}", told[0], told[1], hex(row))
}

/// A file of stored cases, each as it stands there, with what the second implementation says of it.
pub fn answered_anew(text: &str) -> String {
    let anew = |(line, text): (u64, &str)| {
        let (case, _) = read(line, text);
        let [_, _, _, as_stored] = text.rsplitn(4, ' ').collect::<Vec<_>>()[..] else { panic!("no answer: {text}") };
        format!("{as_stored} {}\n", answer_text(&case, &by_plain(&case)))
    };
    let head = text.lines().take_while(|line| line.starts_with('#')).map(|line| format!("{line}\n"));
    head.chain(stored(text).map(anew)).collect()
}

/// What the proved core says, and the buffer after it.
pub fn by_core(case: &Case) -> Answer {
    let mut buffer = case.buffer.clone();
    let told = ylhovesko::gear::gears(&case.trace, case.vehicle, &mut buffer, case.start);
    (core_told(told), buffer)
}

/// What the second implementation says, and the buffer after it. It compares every second with the ends.
pub fn by_plain(case: &Case) -> Answer {
    by_way(plain::gear::write_gears, case)
}

/// What the second implementation says where it chooses gears from whole tenths (02, M-106), and the buffer after it.
pub fn by_tenths(case: &Case) -> Answer {
    by_way(plain::tenths::write_gears, case)
}

/// What the second implementation says in one of its ways to write gears, and the buffer after it.
pub(crate) fn by_way(way: impl Fn(&[u8], &plain::gear::Vehicle, &mut [u8], usize) -> Result<(), plain::Refusal>, case: &Case) -> Answer {
    let mut buffer = case.buffer.clone();
    let told = way(&case.trace, &plain_vehicle(&case.vehicle), &mut buffer, case.start);
    (plain_told(told), buffer)
}

/// The vehicle as the second implementation takes it.
pub fn plain_vehicle(v: &Vehicle) -> plain::gear::Vehicle {
    plain::gear::Vehicle { p: v.power, m: v.mass, s: v.rated, n: v.idle, ng: v.gears, ndv: v.ndv, rule_set: v.rule_set }
}

/// The largest power that a mass takes: 19 P <= 150 (m + 75).
fn most_power(mass: u32) -> u32 {
    (150 * (mass + 75) / 19).min(3000)
}

/// Strictly falling ratios: far apart, next to each other, or from one end of the range to the other.
fn falling(random: &mut Random) -> [u32; 8] {
    let kind = random.below(4);
    let mut ndv = [0; 8];
    let mut above = if kind == 0 { 100_001 } else { random.edged(1009, 100_001) };
    for (gear, each) in ndv.iter_mut().enumerate() {
        let least = 1000 + (7 - gear as u32);
        let next = match kind {
            1 => above - 1,
            2 => above * random.from(60, 95) / 100,
            _ => random.edged(least, above - 1),
        };
        above = next.clamp(least, above - 1);
        *each = above;
    }
    ndv
}

/// A sheet of rule set 1 that is accepted, with many of its numbers at or next to a limit.
fn vehicle(random: &mut Random) -> Vehicle {
    let mass = random.edged(30, 1000);
    let power = random.edged(1, most_power(mass));
    let rated = random.edged(1000, 20_000);
    let idle = random.edged(300, (rated - 500).min(3000));
    Vehicle { power, mass, rated, idle, gears: random.from(3, 8), ndv: falling(random), rule_set: 1 }
}

/// The speeds that a second of a trace can have.
const HELD: RangeInclusive<u32> = 1..=2000;

/// The speeds past those, as far as shift speeds reach.
const FAR: RangeInclusive<u32> = 2001..=12_766;

/// A ratio of a gear with which some speed, the second number, is too close to the gear's upshift speed, or only just not, where there is one: the engine
/// speed must come near a whole number that is a speed times a ratio. Near is by 64 units of the exponential more than its ends say, so that an end that is
/// wrong by less is seen whichever implementation has it.
fn close_ratio(random: &mut Random, v: &Vehicle, gear: usize, among: RangeInclusive<u32>) -> Option<(u32, u32)> {
    let shift = speeds(&plain_vehicle(v));
    let near = 64 * 5753 * i128::from(v.rated - v.idle);
    let unit = 10_i128 << 32;
    let product = (shift.upper[gear] + near) / unit;
    if product * unit < shift.lower[gear] - near {
        return None;
    }
    let product = product as u32;
    let fits = |speed: &u32| product.is_multiple_of(*speed) && (1000..=100_000).contains(&(product / speed));
    let speeds: Vec<u32> = among.filter(fits).collect();
    if speeds.is_empty() {
        return None;
    }
    let speed = random.one_of(&speeds);
    Some((product / speed, speed))
}

/// A sheet on which one of some speeds, the second number, is too close to the upshift speed of one of its gears, or only just not. It is searched for.
fn close_vehicle(random: &mut Random, among: RangeInclusive<u32>) -> (Vehicle, u32) {
    loop {
        let mut found = vehicle(random);
        found.rated = random.from(8000, 20_000);
        let gear = random.below(u64::from(found.gears) - 1) as usize;
        let Some((ndv, speed)) = close_ratio(random, &found, gear, among.clone()) else { continue };
        let (before, after) = (gear as u32, found.gears - 1 - gear as u32);
        if ndv + before > 100_000 || ndv < 1000 + after {
            continue;
        }
        for i in 0..found.gears {
            found.ndv[i as usize] = ndv + before - i;
        }
        return (found, speed);
    }
}

/// The same of the speeds that a trace can have.
pub(crate) fn close_speed_vehicle(random: &mut Random) -> (Vehicle, u32) {
    close_vehicle(random, HELD)
}

/// A sheet on which the downshift 2 to 1 lies above 3 to 2, with a speed that is below the former and too close to the latter, or only just not.
fn first_gear_vehicle(random: &mut Random) -> (Vehicle, u32) {
    loop {
        let mut found = vehicle(random);
        found.rated = random.from(8000, 20_000);
        let Some((first, speed)) = close_ratio(random, &found, 0, HELD) else { continue };
        // the greatest ratio of gear 2 with which the speed is below 2 to 1
        let most = ((three_per_cent(&plain_vehicle(&found)) - 1) / speed).min(first - 1);
        if most >= 1006 {
            let second = random.edged(1006, most);
            found.ndv = [0, 1, 2, 3, 4, 5, 6, 7].map(|gear| if gear == 0 { first } else { second - (gear - 1) });
            return (found, speed);
        }
    }
}

/// A sheet whose every ratio is over some speed the same engine speed: n + 0.03 (s - n) itself, or 0.001 per minute below or above it.
fn three_per_cent_vehicle(random: &mut Random) -> Vehicle {
    loop {
        let mut found = vehicle(random);
        let product = three_per_cent(&plain_vehicle(&found)) - 1 + random.one_of(&[0, 1, 1, 2]);
        let over = |speed: u32| product.is_multiple_of(speed).then_some(product / speed);
        let mut ratios: Vec<u32> = (1..=2000).filter_map(over).filter(|ndv| (1000..=100_000).contains(ndv)).collect();
        while ratios.len() > 8 {
            ratios.remove(random.below(ratios.len() as u64) as usize);
        }
        if ratios.len() >= 3 {
            found.gears = random.from(3, ratios.len() as u32);
            found.ndv[..ratios.len()].copy_from_slice(&ratios);
            return found;
        }
    }
}

/// One number of the sheet out of its range, out of order, or anything.
pub(crate) fn damage_vehicle(random: &mut Random, v: &mut Vehicle) {
    let gear = random.below(8) as usize;
    match random.below(12) {
        0 => v.power = random.one_of(&[0, 3001, u32::MAX]),
        1 => v.mass = random.one_of(&[0, 29, 1001, u32::MAX]),
        2 => v.rated = random.one_of(&[0, 999, 20_001, u32::MAX]),
        3 => v.idle = random.one_of(&[0, 299, 3001, u32::MAX]),
        4 => v.idle = random.one_of(&[v.rated.saturating_sub(500), v.rated.saturating_sub(499), v.rated]),
        5 => v.gears = random.one_of(&[0, 2, 9, u32::MAX]),
        6 => v.ndv[gear] = random.one_of(&[0, 999, 100_001, u32::MAX]),
        7 => v.ndv[gear] = v.ndv[gear.max(1) - 1],
        8 => v.ndv.swap(gear, (gear + 1) % 8),
        9 => v.power = (150 * (v.mass + 75) / 19).saturating_add(random.from(0, 2)),
        10 => v.ndv[gear] = random.one_of(&[1000, 100_000]),
        _ => {
            let word = random.word() as u32;
            let fields = [&mut v.power, &mut v.mass, &mut v.rated, &mut v.idle, &mut v.gears, &mut v.ndv[gear]];
            *fields.into_iter().nth(random.below(6) as usize).unwrap() = word;
        }
    }
}

/// The tenths just below, at and just above every shift speed, as far as a trace can hold them.
fn tenths_beside_shifts(shift: &Speeds) -> Vec<u32> {
    let last_below = |gear: usize| (shift.lower[gear] - 1).max(0) / (10 * (shift.ndv[gear] << 32));
    let around = |gear: usize| (-1..=2).map(move |step| last_below(gear) + step);
    let all = (0..shift.ndv.len()).flat_map(around);
    all.filter(|tenth| (0..=2000).contains(tenth)).map(|tenth| tenth as u32).collect()
}

/// The tenths just below, at and just above n + 0.03 (s - n) in every gear, from 10.0 km/h on and as far as a trace can hold them.
fn three_per_cent_tenths(v: &Vehicle) -> Vec<u32> {
    let first_at = |ndv: &u32| three_per_cent(&plain_vehicle(v)).div_ceil(*ndv);
    let around = v.ndv[..v.gears as usize].iter().map(first_at).flat_map(|tenth| [tenth - 1, tenth, tenth + 1]);
    around.filter(|tenth| (100..=2000).contains(tenth)).collect()
}

/// How the seconds of a case are made: which speeds it prefers, how often they change, and how many marks it has.
struct Style {
    preferred: Vec<u32>,
    steady: u64,
    marks: u64,
}

fn speed(random: &mut Random, style: &Style, last: u32) -> u32 {
    match random.below(8) {
        0 => random.one_of(&[0, 1, 99, 100, 101, 1999, 2000]),
        1 => random.from(0, 2000),
        2 => (last + random.from(0, 40)).saturating_sub(20).min(2000),
        _ if style.preferred.is_empty() => random.from(0, 300),
        _ => random.one_of(&style.preferred),
    }
}

/// The four bytes of each second: runs of one phase, stop runs around 5 and 6 seconds, and speeds that stay for runs of 1 to 6.
fn seconds(random: &mut Random, style: &Style, count: usize) -> Vec<u8> {
    let mut bytes = Vec::with_capacity(4 * count);
    let (mut phase, mut phase_left, mut pace, mut pace_left) = (0, 0, 0, 0);
    while bytes.len() < 4 * count {
        if phase_left == 0 {
            phase = random.one_of(&[0, 1, 1, 2, 2, 3, 3]);
            phase_left = if phase == 0 { random.from(1, 12) } else { random.one_of(&[1, 2, 3, 4, 5, 6, 9, 20, 60]) };
        }
        if pace_left == 0 {
            pace = speed(random, style, pace);
            pace_left = if random.below(8) < style.steady { random.from(1, 6) } else { 1 };
        }
        let mark = |random: &mut Random, bit: u8| if random.below(16) < style.marks { bit } else { 0 };
        let flags = phase | mark(random, 4) | mark(random, 8);
        bytes.extend([pace as u8, (pace >> 8) as u8, flags, 0]);
        phase_left -= 1;
        pace_left -= 1;
    }
    bytes
}

fn count(random: &mut Random) -> usize {
    let most = random.one_of(&[3, 12, 12, 40, 40, 40, 120, 120]);
    match random.below(400) {
        0 => 2000,
        1 => 1999,
        2 => random.from(1, 2000) as usize,
        _ => random.from(1, most) as usize,
    }
}

/// A house file with one thing wrong, or more.
fn damage_trace(random: &mut Random, trace: &mut Vec<u8>) {
    let second = 8 + 4 * random.below((trace.len() as u64 - 8) / 4) as usize;
    let mut set = |at: usize, bytes: [u8; 2]| trace[at..at + 2].copy_from_slice(&bytes);
    match random.below(14) {
        0 => trace.truncate(random.below(9) as usize),
        1 => trace[random.below(6) as usize] ^= 1 << random.below(8),
        2 => set(4, random.one_of(&[[0, 0], [2, 0], [1, 1], [0, 1]])),
        3 => set(6, random.one_of(&[[0, 0], [0xd1, 7], [0xd0, 7], [255, 255]])),
        4 => trace[6] = trace[6].wrapping_add(1),
        5 => trace.truncate(trace.len() - 1 - random.below(4) as usize),
        6 => {
            let longer = random.from(1, 5) as usize;
            trace.extend(random.bytes(longer));
        }
        7 | 8 => set(second, random.one_of(&[[0xd1, 7], [0xd0, 7], [0, 8], [255, 255]])),
        9 | 10 => trace[second + 2] |= 16 << random.below(4),
        11 | 12 => trace[second + 3] = 1 << random.below(8),
        _ => {
            let at = random.below(trace.len() as u64) as usize;
            trace[at] = random.word() as u8;
        }
    }
}

/// A start and a buffer with the exact room, a little more, or too little; starts past the buffer, and so far that no sum holds them.
fn room(random: &mut Random, seconds: usize) -> (usize, usize) {
    let start = random.one_of(&[0, 0, 1, 2, 7, 1000]);
    let exact = start + 2 * seconds;
    match random.below(16) {
        0 => (start, exact.saturating_sub(1)),
        1 => (start, random.below(exact as u64 + 1) as usize),
        2 => (random.one_of(&[exact, exact + 1, usize::MAX, usize::MAX - 2 * seconds + 1]), exact),
        3..=5 => (start, exact),
        6 => (start, exact + 1),
        _ => (start, exact + random.below(20) as usize),
    }
}

/// A case of a vehicle, with seconds that prefer some speeds and one that has the close speed, if there is one; now and then with damage.
fn case_of(random: &mut Random, mut vehicle: Vehicle, close: Option<u32>, preferred: Vec<u32>) -> Case {
    let style = Style { preferred, steady: random.below(9), marks: random.one_of(&[0, 0, 2, 8]) };
    let count = count(random);
    let mut seconds = seconds(random, &style, count);
    if let Some(speed) = close {
        let at = 4 * random.below(count as u64) as usize;
        seconds[at..at + 2].copy_from_slice(&(speed as u16).to_le_bytes());
    }
    let mut trace = house_file(&seconds);
    if random.once_in(8) {
        damage_trace(random, &mut trace);
    }
    if random.once_in(8) {
        damage_vehicle(random, &mut vehicle);
    }
    let (start, length) = room(random, count);
    Case { trace, vehicle, buffer: random.bytes(length), start }
}

/// The rule set of a seed: half of them have 2, and one in 32 has one that is refused. It has numbers of its own, so that the rest of a case is what it was
/// when there was one set.
fn rule_set(seed: u64) -> u32 {
    let mut random = Random::new(!seed);
    if random.once_in(32) {
        return random.one_of(&[0, 3, 4, 257, 258, 65_538, u32::MAX]);
    }
    random.from(1, 2)
}

/// The numbers for the version of a seed. They are its own, so that the rest of a case is what it was when there was one version.
fn for_version(seed: u64) -> Random {
    Random::new(!seed.reverse_bits())
}

/// The random case of a seed.
pub fn case(seed: u64) -> Case {
    let Case { trace, vehicle, buffer, start } = case_of_before(seed);
    let vehicle = Vehicle { rule_set: rule_set(seed), ..vehicle };
    Case { trace: with_version(&mut for_version(seed), trace), vehicle, buffer, start }
}

/// The random case of a seed as it was before there were two rule sets and two versions: rule set 1, and version 1 unless that is damaged.
pub fn case_of_before(seed: u64) -> Case {
    let mut random = Random::new(seed);
    let random = &mut random;
    let (vehicle, close) = match random.below(20) {
        0 | 1 => {
            let (vehicle, speed) = close_vehicle(random, HELD);
            (vehicle, Some(speed))
        }
        2..=4 => (three_per_cent_vehicle(random), None),
        _ => (vehicle(random), None),
    };
    let mut preferred = tenths_beside_shifts(&speeds(&plain_vehicle(&vehicle)));
    if random.once_in(4) {
        preferred.truncate(4);
    }
    if random.once_in(2) {
        preferred.extend(three_per_cent_tenths(&vehicle));
    }
    case_of(random, vehicle, close, preferred)
}

/// The random case of a seed on a machine on which 2 to 1 lies above 3 to 2, with speeds beside both; most have rule set 2.
pub fn first_gear_case(seed: u64) -> Case {
    let mut random = Random::new(seed);
    let random = &mut random;
    let (vehicle, speed) = first_gear_vehicle(random);
    let first_at = three_per_cent(&plain_vehicle(&vehicle)).div_ceil(vehicle.ndv[1]);
    let to_second = tenths_beside_shifts(&speeds(&plain_vehicle(&vehicle))).into_iter().take(4);
    let preferred = to_second.chain(first_at - 1..=first_at + 1).filter(|&tenth| tenth <= 2000).collect();
    let close = random.once_in(2).then_some(speed);
    let mut case = case_of(random, vehicle, close, preferred);
    case.vehicle.rule_set = random.one_of(&[1, 2, 2, 2]);
    case.trace = with_version(&mut for_version(seed), case.trace);
    case
}

/// A random trace for a list of vehicles, with speeds beside the shift speeds of some of them and some of the close ones; now and then with damage.
pub(crate) fn trace_for(random: &mut Random, vehicles: &[Vehicle], close: &[u32]) -> Vec<u8> {
    let accepted = || vehicles.iter().filter(|vehicle| plain::gear::shift_speeds(&plain_vehicle(vehicle)).is_ok());
    let mut preferred: Vec<u32> = accepted().take(4).flat_map(|vehicle| tenths_beside_shifts(&speeds(&plain_vehicle(vehicle)))).collect();
    if random.once_in(2) {
        preferred.extend(accepted().take(1).flat_map(three_per_cent_tenths));
    }
    let style = Style { preferred, steady: random.below(9), marks: random.one_of(&[0, 0, 0, 2, 8]) };
    let count = count(random);
    let mut seconds = seconds(random, &style, count);
    for speed in close {
        if random.once_in(3) {
            let at = 4 * random.below(count as u64) as usize;
            seconds[at..at + 2].copy_from_slice(&(*speed as u16).to_le_bytes());
        }
    }
    let mut trace = house_file(&seconds);
    if random.once_in(16) {
        damage_trace(random, &mut trace);
    }
    with_version(random, trace)
}

/// The random pair of traces of a seed, often of the same count.
pub fn pair(seed: u64) -> Pair {
    let mut random = Random::new(seed);
    let random = &mut random;
    let style = Style { preferred: Vec::new(), steady: 4, marks: 2 };
    let first = count(random);
    let second = if random.once_in(4) { count(random) } else { first };
    let [mut normal, mut reduced] = [first, second].map(|count| house_file(&seconds(random, &style, count)));
    if random.once_in(4) {
        damage_trace(random, &mut normal);
    }
    if random.once_in(4) {
        damage_trace(random, &mut reduced);
    }
    let random = &mut for_version(seed);
    let [normal, reduced] = [normal, reduced].map(|trace| with_version(random, trace));
    Pair { normal, reduced }
}

/// The random vehicle of a seed, often with damage.
pub fn any_vehicle(seed: u64) -> Vehicle {
    let mut random = Random::new(seed);
    let random = &mut random;
    let mut any = match random.below(10) {
        0 => close_vehicle(random, HELD).0,
        1 => three_per_cent_vehicle(random),
        _ => vehicle(random),
    };
    if random.once_in(4) {
        damage_vehicle(random, &mut any);
    }
    Vehicle { rule_set: rule_set(seed), ..any }
}

/// The random vehicle of a seed, as [`any_vehicle`]; but one in 16 has a speed that no trace holds too close to an upshift speed, or only just not.
pub fn vehicle_for_tenths(seed: u64) -> Vehicle {
    if !seed.is_multiple_of(16) {
        return any_vehicle(seed);
    }
    Vehicle { rule_set: rule_set(seed), ..close_vehicle(&mut Random::new(seed), FAR).0 }
}

/// The random vehicle of a seed, accepted: half of them have a speed of a trace too close to an upshift speed, or only just not.
pub fn accepted_vehicle(seed: u64) -> Vehicle {
    let mut random = Random::new(seed);
    let random = &mut random;
    match random.below(8) {
        0..=3 => close_vehicle(random, HELD).0,
        4 => three_per_cent_vehicle(random),
        5 => first_gear_vehicle(random).0,
        _ => vehicle(random),
    }
}
