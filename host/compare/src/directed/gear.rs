//! Directed cases of the gear sheet.

use ylhovesko::gear::Vehicle;

use super::{rule_sets, tenths, versions};
use crate::gear::{answer_text, by_plain, by_tenths, Case};
use crate::random::Random;
use crate::trace::house_file;
use crate::Told;

/// A case, what is to be seen in it, and what 01 and 02 say of it: the refusal, and the row where its gears are worked out by hand.
pub struct Directed {
    pub words: String,
    pub case: Case,
    pub told: Told,
    pub row: Option<Vec<u8>>,
}

/// Eight gears whose upshift speeds are 14.4, 25.0, 33.8, 42.2, 51.9, 61.4 and 71.1 km/h, so that at 10 g km/h an acceleration second has gear g and
/// a cruise or deceleration second one more, up to the eighth.
pub(super) const EIGHT: Vehicle = Vehicle {
    power: 1,
    mass: 1000,
    rated: 11_000,
    idle: 1000,
    gears: 8,
    ndv: [40_000, 27_000, 20_000, 16_000, 13_000, 11_000, 9500, 8000],
    rule_set: 1,
};

/// The four bytes of a second in short: the phase (s stop, a acceleration, c cruise, d deceleration); the gear that [`EIGHT`] has there before
/// corrections, or @ and the speed in 0.1 km/h; = for "no gear-shift", ^ for "no 1. gear". 1 in cruise or deceleration is a standstill, which has gear 1 under
/// rule set 2 alone.
pub(super) fn second(short: &str) -> [u8; 4] {
    let phase = "sacd".find(&short[..1]).unwrap() as u8;
    let digits: String = short.chars().filter(char::is_ascii_digit).collect();
    let number: u16 = digits.parse().unwrap_or(0);
    let speed = match phase {
        _ if short.contains('@') => number,
        0 | 1 => 100 * number,
        _ => 100 * (number - 1),
    };
    let mark = |sign: char, bit: u8| if short.contains(sign) { bit } else { 0 };
    let [low, high] = speed.to_le_bytes();
    [low, high, phase | mark('=', 4) | mark('^', 8), 0]
}

pub(super) fn trace(seconds: &str) -> Vec<u8> {
    house_file(&seconds.split(' ').flat_map(second).collect::<Vec<u8>>())
}

/// As many seconds as asked for: every phase and mark, and speeds from one end to the other.
pub(super) fn long(count: u32) -> Vec<u8> {
    let second = |k: u32| {
        let [low, high] = (37 * k % 2001).to_le_bytes()[..2] else { unreachable!() };
        [low, high, (k % 16) as u8, 0]
    };
    house_file(&(0..count).flat_map(second).collect::<Vec<u8>>())
}

/// A trace that has every phase, with exactly its room.
pub(super) fn usual() -> Case {
    lent(trace("s a1 a2 a3 c4 d3 d@99 s@23"), EIGHT)
}

/// A trace and a vehicle with exactly the room they need.
pub(super) fn lent(trace: Vec<u8>, vehicle: Vehicle) -> Case {
    let room = trace.len().saturating_sub(8) / 2;
    Case { trace, vehicle, buffer: vec![0; room], start: 0 }
}

/// A row of the table, and its place where it names one.
pub(super) fn row(number: u32, at: u32) -> String {
    if at == 0 {
        number.to_string()
    } else {
        format!("{number} at {at}")
    }
}

/// At a stop the clutch is out; else "exactly below 10.0 km/h" (01), and below n + 0.03 (s - n) in the final gear (02, M-100), which is 100 n + 3 (s - n) in
/// 0.01 per minute.
pub(super) fn clutch(v: &Vehicle, second: &[u8], gear: u8) -> u8 {
    let speed = u32::from(second[0]) + 256 * u32::from(second[1]);
    let below = |gear: u8| speed * v.ndv[usize::from(gear) - 1] < 10 * (100 * v.idle + 3 * (v.rated - v.idle));
    u8::from(second[2] & 3 == 0 || speed < 100 || below(gear))
}

#[derive(Default)]
pub(super) struct Cases(pub(super) Vec<Directed>);

impl Cases {
    pub(super) fn refused(&mut self, number: u32, at: u32, words: &str, case: Case) {
        self.0.push(Directed { words: format!("{}: {words}", row(number, at)), case, told: [number, at, 0, 0], row: None });
    }

    pub(super) fn taken(&mut self, words: &str, case: Case) {
        self.0.push(Directed { words: format!("taken: {words}"), case, told: [0; 4], row: None });
    }

    /// A case whose gears are worked out by hand. Its clutch follows from them.
    pub(super) fn gears(&mut self, words: &str, case: Case, gears: &str) {
        let seconds = gears.split(' ').map(|gear| gear.parse().unwrap()).zip(case.trace[8..].chunks(4));
        let row = seconds.flat_map(|(gear, second)| [gear, clutch(&case.vehicle, second, gear)]).collect();
        self.0.push(Directed { words: format!("{words}: {gears}"), case, told: [0; 4], row: Some(row) });
    }

    /// Seconds whose clutch is worked out by hand too: each has its gear and then `in` or `out`.
    pub(super) fn row_with_clutch(&mut self, words: &str, vehicle: Vehicle, seconds: &str, row: &str) {
        self.case_with_clutch(&format!("{words}: {seconds}"), lent(trace(seconds), vehicle), row);
    }

    /// The same of a case.
    pub(super) fn case_with_clutch(&mut self, words: &str, case: Case, row: &str) {
        let bytes = |each: &str| match each.split_once('/').unwrap() {
            (gear, "in") => [gear.parse().unwrap(), 0],
            (gear, "out") => [gear.parse().unwrap(), 1],
            _ => panic!("{each}"),
        };
        let bytes: Vec<u8> = row.split(' ').flat_map(bytes).collect();
        self.0.push(Directed { words: format!("clutch, {words} gives: {row}"), case, told: [0; 4], row: Some(bytes) });
    }

    fn row(&mut self, words: &str, seconds: &str, gears: &str) {
        self.gears(&format!("{words}: {seconds} gives"), lent(trace(seconds), EIGHT), gears);
    }

    /// The usual case with one thing of its trace changed.
    fn file(&mut self, number: u32, at: u32, words: &str, change: impl Fn(&mut Vec<u8>)) {
        let mut case = usual();
        change(&mut case.trace);
        self.refused(number, at, words, case);
    }
}

/// Refusals 1, 2 and 3.
fn house_files(cases: &mut Cases) {
    for length in 0..8 {
        cases.file(1, 0, &format!("a file of {length} bytes"), |file| file.truncate(length));
    }
    for byte in 0..6 {
        cases.file(1, 0, &format!("byte {byte} is another"), |file| file[byte] ^= 1);
    }
    let set_count = |file: &mut Vec<u8>, count: u16| file[6..8].copy_from_slice(&count.to_le_bytes());
    cases.file(2, 0, "count 0 before no second", |file| {
        file.truncate(8);
        set_count(file, 0);
    });
    for count in [0, 2001, 65_535] {
        cases.file(2, 0, &format!("count {count} before 8 seconds"), |file| set_count(file, count));
    }
    cases.refused(2, 0, "count 2001 before so many seconds", lent(long(2001), EIGHT));
    for count in [1, 1999, 2000] {
        cases.taken(&format!("count {count}"), lent(long(count), EIGHT));
    }
    for count in [1, 7, 9, 2000] {
        cases.file(3, 0, &format!("count {count} before 8 seconds"), |file| set_count(file, count));
    }
    cases.file(3, 0, "one byte more", |file| file.push(0));
    cases.file(3, 0, "one byte fewer", |file| file.truncate(39));
    cases.file(3, 0, "one second more", |file| file.extend([0; 4]));
    cases.file(3, 0, "the head alone", |file| file.truncate(8));
}

/// Refusal 4, at the first second, one within, and the last.
fn seconds(cases: &mut Cases) {
    for at in [1, 2, 8] {
        let first_byte = 4 + 4 * at as usize;
        for speed in [2001, 2048, 65_535] {
            let set = |file: &mut Vec<u8>| file[first_byte..first_byte + 2].copy_from_slice(&u16::to_le_bytes(speed));
            cases.file(4, at, &format!("speed {speed}"), set);
        }
        for bit in [16, 32, 64, 128] {
            cases.file(4, at, &format!("{bit} among the flags"), |file| file[first_byte + 2] |= bit);
        }
        for byte in [1, 128, 255] {
            cases.file(4, at, &format!("fourth byte {byte}"), |file| file[first_byte + 3] = byte);
        }
    }
    let mut last = lent(long(2000), EIGHT);
    last.trace[8 + 4 * 1999 + 3] = 1;
    cases.refused(4, 2000, "the last of 2,000 seconds", last);
    cases.taken("speed 2000 in every phase", lent(trace("a@2000 c@2000 d@2000 s@2000"), EIGHT));
    cases.taken("speeds of which the two bytes differ", lent(trace("a@1 a@256 c@255 d@511 c@513"), EIGHT));
}

/// The usual case with a vehicle for which every number can go to the ends of its range.
pub(super) fn vehicle(change: impl Fn(&mut Vehicle)) -> Case {
    let mut case = usual();
    case.vehicle = Vehicle { power: 100, mass: 400, rated: 10_000, idle: 400, ..EIGHT };
    change(&mut case.vehicle);
    case
}

/// Refusal 5, and both sides of every range.
fn vehicle_ranges(cases: &mut Cases) {
    type Field = fn(&mut Vehicle) -> &mut u32;
    let fields: [(&str, Field, u32, u32); 5] = [
        ("power", |v| &mut v.power, 1, 3000),
        ("mass", |v| &mut v.mass, 30, 1000),
        ("rated speed", |v| &mut v.rated, 1000, 20_000),
        ("idle", |v| &mut v.idle, 300, 3000),
        ("gears", |v| &mut v.gears, 3, 8),
    ];
    for (at, (name, field, least, most)) in (1..).zip(fields) {
        let of = |value: u32| (format!("{name} {value}"), vehicle(|v| *field(v) = value));
        for value in [least - 1, most + 1, u32::MAX] {
            let (words, case) = of(value);
            cases.refused(5, at, &words, case);
        }
        for value in [least, most] {
            let (words, case) = of(value);
            cases.taken(&words, case);
        }
    }
    for (rated, idle) in [(1000, 500), (1800, 1300), (3500, 3000)] {
        cases.taken(&format!("idle {idle} is {rated} - 500"), vehicle(|v| (v.rated, v.idle) = (rated, idle)));
    }
    for (rated, idle) in [(1000, 501), (1800, 1301), (3499, 3000)] {
        cases.refused(5, 4, &format!("idle {idle} is {rated} - 499"), vehicle(|v| (v.rated, v.idle) = (rated, idle)));
    }
}

/// Refusals 5 and 6 of the ratios.
fn ratios(cases: &mut Cases) {
    for gear in 1..=8 {
        for ndv in [0, 999, 100_001, u32::MAX] {
            cases.refused(5, 5 + gear, &format!("ndv {ndv} of gear {gear}"), vehicle(|v| v.ndv[gear as usize - 1] = ndv));
        }
    }
    for gear in 2..=8 {
        for more in [0, 1] {
            let set = |v: &mut Vehicle| v.ndv[gear as usize - 1] = v.ndv[gear as usize - 2] + more;
            cases.refused(6, gear, &format!("ndv of gear {gear} above that before by {more}"), vehicle(set));
        }
    }
    cases.taken("ndv from 100,000 down by one", vehicle(|v| v.ndv = std::array::from_fn(|gear| 100_000 - gear as u32)));
    cases.taken("ndv down by one to 1,000", vehicle(|v| v.ndv = std::array::from_fn(|gear| 1007 - gear as u32)));
    for gears in 3..=8 {
        let last = gears as usize - 1;
        cases.taken(&format!("ndv 1,000 of gear {gears}, the last"), vehicle(|v| (v.gears, v.ndv[last]) = (gears, 1000)));
    }
    for gears in 3..=7 {
        for ndv in [0, u32::MAX] {
            let set = |v: &mut Vehicle| {
                v.gears = gears;
                v.ndv[gears as usize..].fill(ndv);
            };
            cases.taken(&format!("ndv {ndv} past the last of {gears} gears"), vehicle(set));
        }
    }
}

/// Refusal 7: 19 P against 150 (m + 75).
fn power_to_mass(cases: &mut Cases) {
    for (power, mass, words) in [(900, 39, "both 17,100"), (3000, 305, "both 57,000"), (828, 30, "15,732 and 15,750")] {
        cases.taken(&format!("power {power} of mass {mass}, {words}"), vehicle(|v| (v.power, v.mass) = (power, mass)));
    }
    for (power, mass, words) in [(829, 30, "15,751 and 15,750"), (901, 39, "17,119 and 17,100"), (3000, 304, "57,000 and 56,850")] {
        cases.refused(7, 0, &format!("power {power} of mass {mass}, {words}"), vehicle(|v| (v.power, v.mass) = (power, mass)));
    }
}

/// Refusal 8; the usual trace needs 16 bytes.
fn room(cases: &mut Cases) {
    let of = |length: usize, start: usize| {
        let words = format!("{length} bytes from {start} on");
        (words, Case { buffer: vec![0; length], start, ..usual() })
    };
    for (length, start) in [(16, 0), (17, 0), (17, 1), (21, 5), (30, 5)] {
        let (words, case) = of(length, start);
        cases.taken(&words, case);
    }
    let far = [usize::MAX, usize::MAX - 14, usize::MAX - 15, usize::MAX - 16];
    let near = [(0, 0), (0, 1), (15, 0), (16, 1), (16, 16), (16, 17), (21, 6)];
    for (length, start) in near.into_iter().chain(far.map(|start| (16, start))) {
        let (words, case) = of(length, start);
        cases.refused(8, 0, &words, case);
    }
}

/// A speed beside or at an end of a shift speed. `away` is how far the engine speed is from that end, in 1/(10,000 x 2^32) per minute.
pub(super) struct Beside {
    pub(super) vehicle: [u32; 4],
    pub(super) first: bool,
    pub(super) ndv: u32,
    pub(super) speed: u32,
    pub(super) end: &'static str,
    pub(super) away: i32,
}

/// Found by search: the engine speed is so near an end that one unit of any constant, of the idle speed's factor or of the last term of the series puts
/// it on the other side. No accepted sheet reaches an upper end exactly: 5,753 (s - n) times the upper end of e is never a multiple of 10 x 2^32.
pub(super) const BESIDE: [Beside; 10] = [
    Beside { vehicle: [144, 102, 13_299, 1000], first: true, ndv: 3233, speed: 1804, end: "lower", away: -4510 },
    Beside { vehicle: [1612, 428, 10_543, 303], first: true, ndv: 46_857, speed: 53, end: "lower", away: 0 },
    Beside { vehicle: [1356, 100, 7979, 1050], first: true, ndv: 6143, speed: 207, end: "lower", away: 816 },
    Beside { vehicle: [941, 100, 4256, 1100], first: true, ndv: 6947, speed: 207, end: "upper", away: -2192 },
    Beside { vehicle: [225, 101, 9705, 1050], first: true, ndv: 13_151, speed: 311, end: "upper", away: 895 },
    Beside { vehicle: [629, 104, 4752, 1100], first: false, ndv: 2753, speed: 791, end: "lower", away: -1044 },
    Beside { vehicle: [1612, 428, 10_540, 300], first: false, ndv: 2833, speed: 1237, end: "lower", away: 0 },
    Beside { vehicle: [1356, 100, 7929, 1000], first: false, ndv: 4283, speed: 447, end: "lower", away: 816 },
    Beside { vehicle: [1401, 107, 7940, 1000], first: false, ndv: 17_659, speed: 109, end: "upper", away: -640 },
    Beside { vehicle: [225, 101, 9655, 1000], first: false, ndv: 6281, speed: 781, end: "upper", away: 895 },
];

impl Beside {
    /// The ratio is that of gear 1, or of gear 2, among so many.
    pub(super) fn vehicle(&self, gears: u32) -> Vehicle {
        let [power, mass, rated, idle] = self.vehicle;
        let ndv = |gear: u32| match gear {
            _ if self.first => self.ndv - 100 * gear,
            0 => self.ndv + 1000,
            _ => self.ndv - 100 * (gear - 1),
        };
        Vehicle { power, mass, rated, idle, gears, ndv: [0, 1, 2, 3, 4, 5, 6, 7].map(ndv), rule_set: 1 }
    }

    pub(super) fn case(&self, phase: &str, gears: u32) -> Case {
        lent(trace(&format!("{phase}@{}", self.speed)), self.vehicle(gears))
    }

    pub(super) fn words(&self) -> String {
        let side = match self.away {
            0 => "at".to_string(),
            1.. => format!("by {} past", self.away),
            _ => format!("by {} short of", -self.away),
        };
        format!("{side} the {} end of upshift {}", self.end, if self.first { "1 to 2" } else { "2 to 3" })
    }

    /// Below the shift speed, above it, or too close to call.
    pub(super) fn call(&self) -> Option<bool> {
        match self.end {
            "lower" => (self.away < 0).then_some(false),
            _ => (self.away > 0).then_some(true),
        }
    }
}

/// Refusal 9, and speeds that are only just not too close.
fn close(cases: &mut Cases) {
    for beside in &BESIDE {
        let words = beside.words();
        match beside.call() {
            None => cases.refused(9, 1, &words, beside.case("a", 3)),
            Some(above) => {
                let gear = 1 + u8::from(!beside.first) + u8::from(above);
                cases.gears(&format!("{words} gives gear"), beside.case("a", 3), &gear.to_string());
            }
        }
    }
    let [first, later] = [&BESIDE[1], &BESIDE[6]];
    cases.refused(9, 1, "cruise is held against upshift 1 to 2", first.case("c", 3));
    cases.refused(9, 1, "deceleration too", first.case("d", 3));
    cases.gears("of 3 gears cruise is not held against upshift 2 to 3", later.case("c", 3), "3");
    cases.gears("nor is deceleration", later.case("d", 3), "3");
    cases.refused(9, 1, "of 4 gears cruise is held against upshift 2 to 3", later.case("c", 4));
    cases.refused(9, 1, "of 4 gears deceleration too", later.case("d", 4));
    cases.gears("a stop is held against nothing", later.case("s", 3), "1");
    cases.gears("one tenth below the too close speed", lent(trace("a@1236"), later.vehicle(3)), "2");
    cases.gears("one tenth above the too close speed", lent(trace("a@1238"), later.vehicle(3)), "3");
    cases.refused(9, 3, "the last of three seconds", lent(trace("a@100 c@100 a@1237"), later.vehicle(3)));
    cases.refused(9, 2, "the first of two too close", lent(trace("s a@1237 a@1237"), later.vehicle(3)));
    let mut last = lent(long(2000), later.vehicle(8));
    last.trace[8 + 4 * 1999..].copy_from_slice(&second("a@1237"));
    cases.refused(9, 2000, "the last of 2,000 seconds", last);
}

/// The gear of each second before corrections, and the clutch below 10.0 km/h.
pub(super) fn phases(cases: &mut Cases) {
    cases.row("a run of five stops", "s s s s s", "1 1 1 1 1");
    cases.row("a run of six stops", "s s s s s s", "0 1 1 1 1 1");
    cases.row("a run of seven stops between others", "a1 s s s s s s s a1", "1 0 0 1 1 1 1 1 1");
    cases.row("two runs of stops", "s s s s s s c2 s s s s s s s", "0 1 1 1 1 1 2 0 0 1 1 1 1 1");
    cases.row("stops with marks and speeds", "s@23= s@500^ s=^", "1 1 1");
    cases.row("each gear of an acceleration", "a1 a2 a3 a4 a5 a6 a7 a8", "1 2 3 4 5 6 7 8");
    cases.row("cruise starts at 2, and the eighth is the last", "c2 c3 c4 c5 c6 c7 c8 c@800 c@2000", "2 3 4 5 6 7 8 8 8");
    cases.row("so does deceleration", "d@2000 d8 d7 d6 d5 d4 d3 d2 d@0", "8 8 7 6 5 4 3 2 2");
    for gear in ["a8", "c8", "d8", "a1", "c2", "d2"] {
        cases.row("a first second is not corrected", gear, &gear[1..]);
    }
    for phase in ["a", "c", "d"] {
        let gear = if phase == "a" { "1 1 1" } else { "2 2 2" };
        cases.row("the clutch is out below 10.0 km/h", &format!("{phase}@0 {phase}@99 {phase}@100"), gear);
    }
    for gears in 3..=7 {
        let vehicle = Vehicle { gears, ..EIGHT };
        let row: Vec<String> = (1..=8).map(|gear: u32| gear.min(gears).to_string()).collect();
        cases.gears(&format!("{gears} gears"), lent(trace("a1 a2 a3 a4 a5 a6 a7 a8"), vehicle), &row.join(" "));
    }
}

/// Four gears in which n + 0.03 (s - n), here 1,300 per minute, is 12.5, 13.0, 20.0 and 25.0 km/h. The upshift speeds are 55.3, 67.5 and 103.9 km/h.
pub(super) const TALL: Vehicle = Vehicle { gears: 4, ndv: [10_400, 10_000, 6500, 5200, 0, 0, 0, 0], ..EIGHT };

/// Table A13-1, and table Ap8-2 of 004.
pub(super) const ANNEX_13: Vehicle =
    Vehicle { power: 720, mass: 199, rated: 11_800, idle: 1150, gears: 6, ndv: [13_366, 9491, 7616, 6569, 5885, 5404, 0, 0], rule_set: 1 };

/// The clutch by engine speed in each phase, below 10.0 km/h and at a stop.
fn clutches(cases: &mut Cases) {
    let rows = [
        ("cruise in gear 2, in at equality", "c@129 c@130 c@131", "2/out 2/in 2/in"),
        ("deceleration in gear 2", "d@131 d@130 d@129", "2/in 2/in 2/out"),
        ("acceleration in gear 1", "a@124 a@125 a@126", "1/out 1/in 1/in"),
        ("acceleration in gear 2", "a@129^ a@130^ a@131^", "2/out 2/in 2/in"),
        ("one speed in two gears", "a@127 c@127 c@127", "1/in 2/out 2/out"),
        ("out at a stop, however fast the engine", "s@2000 s s@2000 s s s@130", "0/out 1/out 1/out 1/out 1/out 1/out"),
    ];
    for (words, seconds, row) in rows {
        cases.row_with_clutch(words, TALL, seconds, row);
    }
    let words = "out below 10.0 km/h, however fast the engine";
    cases.row_with_clutch(words, EIGHT, "a@33 a@99 a@100 c@99 c@100", "1/out 1/out 1/in 2/out 2/in");
}

/// The clutch by engine speed in each gear, which the seconds before hold: 1,300,000 is each ratio times the tenths beside it.
fn clutches_by_gear(cases: &mut Cases) {
    let ratios = [
        (13_000, 100, "a@400"),
        (12_500, 104, "a@500"),
        (10_400, 125, "a@600"),
        (10_000, 130, "a@660"),
        (8125, 160, "a@800"),
        (6500, 200, "a@1000"),
        (6250, 208, "a@1060"),
        (5200, 250, "a@1200"),
    ];
    let vehicle = Vehicle { ndv: ratios.map(|(ndv, ..)| ndv), ..EIGHT };
    for (gear, (_, tenth, before)) in (1..).zip(ratios) {
        let seconds = format!("{before} c@{}= c@{tenth}= c@{}=", tenth - 1, tenth + 1);
        let row = format!("{gear}/in {gear}/out {gear}/in {gear}/in");
        cases.row_with_clutch(&format!("held in gear {gear}"), vehicle, &seconds, &row);
    }
}

/// The clutch by engine speed for the least and the greatest n and s.
fn clutches_by_vehicle(cases: &mut Cases) {
    // n, s, the ratios of gears 1 and 2, and the tenths at which gear 2 has n + 0.03 (s - n)
    let vehicles = [
        ("s is n + 500: 515,000 is 103 x 5,000", 500, 1000, 6000, 5000, 103),
        ("s is n + 500: 3,015,000 is 134 x 22,500", 3000, 3500, 23_000, 22_500, 134),
        ("the least, 321,000, is 107 x 3,000", 300, 1000, 3100, 3000, 107),
        ("the greatest, 3,510,000, is 135 x 26,000", 3000, 20_000, 30_000, 26_000, 135),
        ("the greatest is also 1,950 x 1,800", 3000, 20_000, 1801, 1800, 1950),
        ("12.0 km/h: 1,404,000 is 120 x 11,700", 1200, 8000, 20_000, 11_700, 120),
    ];
    for (words, idle, rated, first, second, tenth) in vehicles {
        let vehicle = Vehicle { idle, rated, gears: 3, ndv: [first, second, 1000, 0, 0, 0, 0, 0], ..EIGHT };
        let seconds = format!("c@{} c@{tenth} c@{}", tenth - 1, tenth + 1);
        cases.row_with_clutch(words, vehicle, &seconds, "2/out 2/in 2/in");
    }
    cases.row_with_clutch("table A13-3, 15.5 km/h", ANNEX_13, "c@154 c@155", "2/out 2/in");
    // 1,292,500 is 110 x 11,750, and 117 x 11,047 + 1, and 203 x 6,367 - 1
    let beside = Vehicle { rated: 10_750, gears: 3, ndv: [11_750, 11_047, 6367, 0, 0, 0, 0, 0], ..EIGHT };
    let words = "at equality, and 0.001 per minute below and above it";
    cases.row_with_clutch(words, beside, "a@110 c@117 c@600 c@203=", "1/in 2/out 3/in 3/in");
}

/// The gear whose engine speed decides is the final one.
pub(super) fn clutches_after_corrections(cases: &mut Cases) {
    let rows = [
        ("correction 1 puts gear 1 for 2", "a@127 d@127", "1/in 1/in"),
        ("correction 1, not after a cruise", "c@127 d@127", "2/out 2/out"),
        ("correction 2 puts gear 2 for 1", "a@127^ a@130^", "2/out 2/in"),
        ("correction 3 keeps gear 1", "a@127 c@127= c@127=", "1/in 1/in 1/in"),
        ("correction 3 keeps gear 3", "c@600 c@199= c@200=", "3/in 3/out 3/in"),
        ("correction 4 keeps gear 2", "a@600 a@127 a@130", "2/in 2/out 2/in"),
        ("correction 5 cuts to gear 3", "c@700 c@199 c@199", "4/in 3/out 2/in"),
        ("correction 5 cuts to gear 3, which has equality", "c@700 c@200 c@129", "4/in 3/in 2/out"),
        ("correction 6 puts gear 3 for 2", "c@600 c@199 c@200 c@600", "3/in 3/out 3/in 3/in"),
        ("correction 6 puts gear 1 for 2", "a@127 c@127 c@125 c@124 a@127", "1/in 1/in 1/in 1/out 1/in"),
    ];
    for (words, seconds, row) in rows {
        cases.row_with_clutch(words, TALL, seconds, row);
    }
    // 9.6 km/h is the upshift 1 to 2, so that gear 3 goes down to where it has 1,200 per minute
    let wide = Vehicle { gears: 3, ndv: [60_000, 50_000, 10_000, 0, 0, 0, 0, 0], ..EIGHT };
    cases.row_with_clutch("gear 3 uncorrected", wide, "c@120 c@130 d@129", "3/out 3/in 3/out");
    cases.row_with_clutch("correction 5 cuts to gear 2 after a stop", wide, "s c@120 c@120", "1/out 2/in 3/out");
}

/// Corrections 1 to 6, and their order.
pub(super) fn corrections(cases: &mut Cases) {
    let rows = [
        ("1, the smaller gear", "a3 d5 d4 d2", "3 3 3 2"),
        ("1, the run's last gear", "a2 a3 d5 d5 d5 d4", "2 3 3 3 3 3"),
        ("1, not past a cruise", "a2 a3 d4 d4 c4 d4 d5", "2 3 3 3 4 4 5"),
        ("1, not past a stop", "a3 s d5", "3 1 2"),
        ("1, not without an acceleration", "c5 d5 d4", "5 5 4"),
        ("1 before 2", "a1^ d2", "2 1"),
        ("1 before 4", "a4 a3 d5", "4 4 3"),
        ("2", "a1^ a2^ c2^", "2 2 2"),
        ("3, second after second", "c3 c5= c6=", "3 3 3"),
        ("3, not after a stop", "s c2= s= c2=", "1 2 1 2"),
        ("3, not at the first second", "c3= c3", "3 3"),
        ("3, 2 in place of 1", "a1 c2=^ c4=", "1 2 2"),
        ("3, 1 without the mark", "a1 c3= a2=", "1 1 1"),
        ("2 before 3", "a1^ c3=", "2 2"),
        ("4, second after second", "a3 a2 a1", "3 3 3"),
        ("4, not past another phase", "a3 c2 a2 s a1", "3 2 2 1 1"),
        ("2 before 4", "a1^ a1", "2 2"),
        ("3 before 4", "c4 a8= a6 a6 a6", "4 4 5 6 6"),
        ("5, second after second", "c2 c8 c8 c8 c8 c8 c8", "2 3 4 5 6 7 8"),
        ("5, downwards", "c8 c2 c2 c2 c2 c2 c2", "8 7 6 5 4 3 2"),
        ("5, after a stop too", "s a8 a8 s c5 c5", "1 2 3 1 2 3"),
        ("4 before 5, an acceleration falls", "c8 d2 a2 a2", "8 7 6 5"),
        ("3 before 5", "c2 c5 c7=", "2 3 4"),
        ("6, a run of one", "c2 c3 c2", "2 2 2"),
        ("6, downwards", "c3 c2 c3", "3 3 3"),
        ("6, a run of three", "c2 c3 c3 c3 c2", "2 2 2 2 2"),
        ("6, a run of four", "c2 c3 c3 c3 c3 c2", "2 2 2 2 2 2"),
        ("6, a run of five stays", "c2 c3 c3 c3 c3 c3 c2", "2 3 3 3 3 3 2"),
        ("6, gears 7 and 8", "c8 c7 c7 c8 c7", "8 8 8 8 7"),
        ("6, other gears on its sides", "c2 c3 c4 c4 c4 c4 c4", "2 3 4 4 4 4 4"),
        ("6, one side alone", "c3 c2 c2", "3 2 2"),
        ("6, a merged run counts as judged", "c2 c3 c4 c3 c2", "2 3 3 3 2"),
        ("6, run after run", "c2 c3 c2 c3 c2 c3", "2 2 2 2 2 3"),
        ("6, with the whole of its right neighbour", "c3 c2 c3 c3 c2 c3 c4", "3 3 3 3 3 3 4"),
        ("6, a stop on the left", "s c2 a1 a1 a1 a1 a1", "1 2 1 1 1 1 1"),
        ("6, a stop on the right", "a1 c2 s", "1 2 1"),
        ("6, a run after a stop", "s c2 c3 c2", "1 2 2 2"),
        ("6, a stop is no run", "c2 s c2", "2 1 2"),
        ("6, a run ends at a stop", "c2 c3 c3 s c2 c3 c2", "2 3 3 1 2 2 2"),
        ("6, gear 1", "a1 c2 a1", "1 1 1"),
        ("6, not gear 1 where its use is forbidden", "a1 c2 c2^ c2 a1", "1 2 2 2 1"),
        ("6, another gear where that is forbidden", "c2 c3^ c2", "2 2 2"),
        ("6, the mark of a neighbour", "a1 c2 a1 a1^", "1 1 1 2"),
        ("5 before 6", "c2 c5 c5 c2 c2", "2 3 3 3 2"),
    ];
    for (words, seconds, gears) in rows {
        cases.row(&format!("correction {words}"), seconds, gears);
    }
}

/// A number and a place, and what puts the fault into a case.
pub(super) type Fault = (u32, u32, Box<dyn Fn(&mut Case)>);

/// Every fault that a case can have, the first in the papers' order first.
pub(super) fn faults() -> Vec<Fault> {
    let mut all: Vec<Fault> = vec![
        (1, 0, Box::new(|case| case.trace[4] = 3)),
        (2, 0, Box::new(|case| case.trace[6..8].copy_from_slice(&[0xd1, 7]))),
        (3, 0, Box::new(|case| case.trace.push(0))),
    ];
    for at in 1..=4 {
        all.push((4, at, Box::new(move |case| case.trace[7 + 4 * at as usize] = 1)));
    }
    all.push((5, 1, Box::new(|case| case.vehicle.power = 3001)));
    all.push((5, 2, Box::new(|case| case.vehicle.mass = 29)));
    all.push((5, 3, Box::new(|case| case.vehicle.rated = 999)));
    all.push((5, 4, Box::new(|case| case.vehicle.idle = 299)));
    all.push((5, 5, Box::new(|case| case.vehicle.gears = 9)));
    for gear in 1..=8 {
        all.push((5, 5 + gear, Box::new(move |case| case.vehicle.ndv[gear as usize - 1] = 999)));
    }
    all.push((5, 14, Box::new(|case| case.vehicle.rule_set = 3)));
    for gear in 2..=8 {
        let rise = move |ndv: &mut [u32; 8]| (gear as usize - 1..8).for_each(|each| ndv[each] = ndv[each - 1] + 1);
        all.push((6, gear, Box::new(move |case| rise(&mut case.vehicle.ndv))));
    }
    all.push((7, 0, Box::new(|case| (case.vehicle.power, case.vehicle.mass) = (3000, 304))));
    for at in 1..=4 {
        let mark = if at % 2 == 0 { 8 } else { 4 };
        let put = move |case: &mut Case| {
            case.vehicle.rule_set = 2;
            case.trace[6 + 4 * at as usize] |= mark;
        };
        all.push((20, at, Box::new(put)));
    }
    all.push((8, 0, Box::new(|case| case.start = 1)));
    for at in 1..=4 {
        all.push((9, at, Box::new(move |case| case.trace[4 + 4 * at as usize..][..4].copy_from_slice(&second("a@1237")))));
    }
    all
}

/// What the faults are put into.
pub(super) fn faultless() -> Case {
    lent(trace("s a@100 c@200 d@100"), BESIDE[6].vehicle(8))
}

/// "Lowest number first; within a number the first place" (01), and 20 "directly after 7" (02, M-109): each of the faults with the next, and with all that come
/// after it.
fn in_order(cases: &mut Cases, faults: &[Fault]) {
    let base = faultless();
    cases.taken("the case that gets the faults below", base.clone());
    for first in 0..faults.len() - 1 {
        let (number, at, _) = faults[first];
        let with = |some: &[Fault]| {
            let mut case = base.clone();
            // the last first, so that a fault which takes the place of a later one stands
            some.iter().rev().for_each(|(_, _, put)| put(&mut case));
            case
        };
        let (next, place, _) = faults[first + 1];
        cases.refused(number, at, &format!("before {}", row(next, place)), with(&faults[first..first + 2]));
        cases.refused(number, at, "before all after it", with(&faults[first..]));
    }
}

fn order(cases: &mut Cases) {
    in_order(cases, &faults());
}

/// The cases that the vehicle alone decides: its ranges, its ratios, its power, and the order of its faults.
pub(super) fn of_vehicle() -> Vec<Directed> {
    let mut cases = Cases::default();
    [vehicle_ranges, ratios, power_to_mass, rule_sets::ranges].iter().for_each(|group| group(&mut cases));
    let faults: Vec<Fault> = faults().into_iter().filter(|(number, ..)| (5..=7).contains(number)).collect();
    in_order(&mut cases, &faults);
    cases.0
}

/// All of them, in the order of the file; each buffer's noise has the number of its line there.
pub fn cases() -> Vec<Directed> {
    let mut cases = Cases::default();
    let groups: [fn(&mut Cases); 15] = [
        house_files,
        seconds,
        vehicle_ranges,
        ratios,
        power_to_mass,
        room,
        close,
        phases,
        corrections,
        order,
        clutches,
        clutches_by_gear,
        clutches_by_vehicle,
        clutches_after_corrections,
        rule_sets::ranges,
    ];
    groups.iter().chain(&rule_sets::GROUPS).chain(&tenths::GROUPS).chain(&versions::GROUPS).for_each(|group| group(&mut cases));
    for (line, directed) in (3..).step_by(2).zip(&mut cases.0) {
        directed.case.buffer = Random::new(line).bytes(directed.case.buffer.len());
    }
    cases.0
}

/// The text of vectors/directed_gear.txt. Stops where the second implementation does not say what is expected.
pub fn text() -> String {
    let mut text = super::head(include_str!("../../../vectors/M-101-gear.txt"));
    for Directed { words, case, told, row } in cases() {
        let answer = by_plain(&case);
        assert_eq!(by_tenths(&case), answer, "by tenths, {words}");
        assert_eq!(answer.0, told, "{words}");
        if let Some(row) = row {
            assert_eq!(answer.1, row, "{words}");
        }
        text += &format!("# {words}\n{case} {}\n", answer_text(&case, &answer));
    }
    text
}
