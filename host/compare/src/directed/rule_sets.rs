//! Directed cases of the two rule sets (02, M-101).

use ylhovesko::gear::Vehicle;

use super::gear::{faultless, faults, lent, long, trace, vehicle, Beside, Cases, ANNEX_13, BESIDE, EIGHT, TALL};
use crate::trace::unmarked;

/// All but the ranges, which the shift speeds have too.
pub(super) const GROUPS: [fn(&mut Cases); 8] =
    [order, to_first, to_first_by_vehicle, to_first_above_3_to_2, close, too_close_below_2_to_1, corrections, clutches];

fn by_set_2(vehicle: Vehicle) -> Vehicle {
    Vehicle { rule_set: 2, ..vehicle }
}

/// Refusal 5 at place 14, however many gears there are, and the two sets that are taken.
pub(super) fn ranges(cases: &mut Cases) {
    for rule_set in [0, 3, 4, 256, 257, 258, 65_537, 65_538, u32::MAX - 1, u32::MAX] {
        cases.refused(5, 14, &format!("rule set {rule_set}"), vehicle(|v| v.rule_set = rule_set));
    }
    for gears in 3..=8 {
        cases.refused(5, 14, &format!("rule set 0 of {gears} gears"), vehicle(|v| (v.gears, v.rule_set) = (gears, 0)));
        cases.taken(&format!("rule set 2 of {gears} gears"), vehicle(|v| (v.gears, v.rule_set) = (gears, 2)));
    }
    cases.taken("rule set 1", vehicle(|v| v.rule_set = 1));
}

/// "Refusals: 5 with place 14 for any other set": after every other place of 5, before 6, and so before 7, 8 and 9 too.
fn order(cases: &mut Cases) {
    for (rule_set, (number, at, put)) in [0, 3, u32::MAX].into_iter().cycle().zip(faults()) {
        let mut case = faultless();
        put(&mut case);
        case.vehicle.rule_set = rule_set;
        let first = (number, at).min((5, 14));
        cases.refused(first.0, first.1, &format!("rule set {rule_set}, and {number} at {at}"), case);
    }
}

impl Cases {
    /// One trace under rule set 1 and under rule set 2. Both rows, with their clutch, are worked out by hand.
    fn both_sets(&mut self, words: &str, vehicle: Vehicle, seconds: &str, [by_1, by_2]: [&str; 2]) {
        self.row_with_clutch(&format!("rule set 1, {words}"), Vehicle { rule_set: 1, ..vehicle }, seconds, by_1);
        self.row_with_clutch(&format!("rule set 2, {words}"), by_set_2(vehicle), seconds, by_2);
    }

    /// A trace that is refused under both sets.
    fn both_refused(&mut self, number: u32, at: u32, words: &str, vehicle: Vehicle, seconds: &str) {
        for rule_set in [1, 2] {
            self.refused(number, at, &format!("rule set {rule_set}, {words}"), lent(trace(seconds), Vehicle { rule_set, ..vehicle }));
        }
    }
}

/// [`TALL`] goes from 2 to 1 at 13.0 km/h exactly. Its 3 to 2 is 55.3 km/h, its 4 to 3 67.5.
fn to_first(cases: &mut Cases) {
    cases.both_sets("cruise, gear 2 at equality", TALL, "c@129 c@130 c@131", ["2/out 2/in 2/in", "1/in 2/in 2/in"]);
    cases.both_sets("deceleration", TALL, "d@131 d@130 d@129", ["2/in 2/in 2/out", "2/in 2/in 1/in"]);
    for (speed, by_1, by_2) in [
        (0, "2/out", "1/out"),
        (129, "2/out", "1/in"),
        (130, "2/in", "2/in"),
        (131, "2/in", "2/in"),
        (553, "2/in", "2/in"),
        (554, "3/in", "3/in"),
        (675, "3/in", "3/in"),
        (676, "4/in", "4/in"),
        (2000, "4/in", "4/in"),
    ] {
        cases.both_sets("a cruise second alone", TALL, &format!("c@{speed}"), [by_1, by_2]);
        cases.both_sets("a deceleration second alone", TALL, &format!("d@{speed}"), [by_1, by_2]);
    }
    cases.both_sets("acceleration", TALL, "a@0 a@129 a@130 a@553 a@554", ["1/out 1/in 1/in 1/in 2/in"; 2]);
    cases.both_sets("a stop is gear 1 or neutral", TALL, "s@129 s s s s s", ["0/out 1/out 1/out 1/out 1/out 1/out"; 2]);
    let seconds = "c@700 c@600 c@140 c@120 c@120 s d@140 d@120";
    let rows = ["4/in 3/in 2/in 2/out 2/out 1/out 2/in 2/out", "4/in 3/in 2/in 1/out 1/out 1/out 2/in 1/out"];
    cases.both_sets("down to a stop and from it", TALL, seconds, rows);
    cases.refused(20, 5, "rule set 2, 2,000 seconds with marks", lent(long(2000), by_set_2(TALL)));
    cases.taken("rule set 2, 2,000 seconds without marks", lent(unmarked(long(2000)), by_set_2(TALL)));
}

/// The line 1,000 n + 30 (s - n) for the least and the greatest n and s, and 0.001 per minute beside it.
fn to_first_by_vehicle(cases: &mut Cases) {
    // n, s, the ratios of gears 1 and 2, and the tenths at which gear 2 has n + 0.03 (s - n)
    let vehicles = [
        ("s is n + 500: 515,000 is 103 x 5,000", 500, 1000, 6000, 5000, 103),
        ("s is n + 500: 3,015,000 is 134 x 22,500", 3000, 3500, 23_000, 22_500, 134),
        ("the least, 321,000, is 107 x 3,000", 300, 1000, 3100, 3000, 107),
        ("the greatest, 3,510,000, is 135 x 26,000", 3000, 20_000, 30_000, 26_000, 135),
        ("the greatest is also 1,950 x 1,800", 3000, 20_000, 1801, 1800, 1950),
        ("12.0 km/h: 1,404,000 is 120 x 11,700", 1200, 8000, 20_000, 11_700, 120),
    ];
    for (words, idle, rated, first, second, tenth) in vehicles {
        let vehicle = Vehicle { idle, rated, gears: 3, ndv: [first, second, 1000, 0, 0, 0, 0, 0], ..EIGHT };
        let (below, above) = (tenth - 1, tenth + 1);
        let rows = ["2/out 2/in 2/in", "1/in 2/in 2/in"];
        cases.both_sets(words, vehicle, &format!("c@{below} c@{tenth} c@{above}"), rows);
        let rows = ["2/in 2/in 2/out", "2/in 2/in 1/in"];
        cases.both_sets(words, vehicle, &format!("d@{above} d@{tenth} d@{below}"), rows);
    }
    // 1,292,500 is 110 x 11,750, and 117 x 11,047 + 1, and 203 x 6,367 - 1
    for (words, second, tenth, rows) in [
        ("at 2 to 1", 11_750, 110, ["2/in", "2/in"]),
        ("0.001 per minute below 2 to 1", 11_047, 117, ["2/out", "1/in"]),
        ("0.001 per minute above 2 to 1", 6367, 203, ["2/in", "2/in"]),
    ] {
        let vehicle = Vehicle { rated: 10_750, gears: 3, ndv: [12_000, second, 1000, 0, 0, 0, 0, 0], ..EIGHT };
        cases.both_sets(words, vehicle, &format!("c@{tenth}"), rows);
        cases.both_sets(words, vehicle, &format!("d@{tenth}"), rows);
    }
    // 1,300,000 over 27,000 is 48.1, and the clutch is out by the speed
    cases.both_sets("below 10.0 km/h", EIGHT, "c@48 c@49", ["2/out 2/out", "1/out 2/out"]);
    cases.both_sets("below 10.0 km/h", EIGHT, "d@49 d@48", ["2/out 2/out", "2/out 1/out"]);
    // 1,469,500 over 9,491 is 154.8
    let rows = ["2/out 2/in 2/in 3/in 4/in 5/in 6/in", "1/in 2/in 2/in 3/in 4/in 5/in 6/in"];
    cases.both_sets("table Ap8-4, 15.5 28.5 51.3 63.9 74.1", ANNEX_13, "c@154 c@155 c@284 c@285 c@514 c@640 c@742", rows);
}

/// x is 1.5: 3 to 2 is 13.12 km/h, below 2 to 1, which is 14.78; 4 to 3 is 26.80 and 5 to 4 30.15. n + 0.03 (s - n) is 13.3 km/h in gear 1 and 16.6 in
/// gear 3.
const STRONG: Vehicle =
    Vehicle { power: 1500, mass: 115, rated: 12_000, idle: 1000, gears: 5, ndv: [10_000, 9000, 8000, 7000, 6000, 0, 0, 0], rule_set: 1 };

/// "It can lie above the 3 to 2 speed on a strong machine; then gear 1 still goes first."
fn to_first_above_3_to_2(cases: &mut Cases) {
    for phase in ["c", "d"] {
        for (speed, by_1, by_2) in [
            (131, "2/out", "1/out"),
            (132, "3/out", "1/out"),
            (133, "3/out", "1/in"),
            (147, "3/out", "1/in"),
            (148, "3/out", "3/out"),
            (269, "4/in", "4/in"),
            (302, "5/in", "5/in"),
        ] {
            cases.both_sets("2 to 1 above 3 to 2", STRONG, &format!("{phase}@{speed}"), [by_1, by_2]);
        }
    }
    // 1,330,000 is 140 x 9,500
    let equal = Vehicle { ndv: [10_000, 9500, 8000, 7000, 6000, 0, 0, 0], ..STRONG };
    for phase in ["c", "d"] {
        cases.both_sets("a tenth below 2 to 1, above 3 to 2", equal, &format!("{phase}@139"), ["3/out", "1/in"]);
        cases.both_sets("at 2 to 1, above 3 to 2", equal, &format!("{phase}@140"), ["3/out"; 2]);
        let seconds = format!("{phase}@140^");
        cases.row_with_clutch("rule set 1, gear 1 is forbidden, which goes first by set 2", STRONG, &seconds, "3/out");
        cases.refused(20, 1, "rule set 2, gear 1 is forbidden, which goes first", lent(trace(&seconds), by_set_2(STRONG)));
    }
    cases.both_sets("acceleration below 2 to 1", STRONG, "a@131 a@132 a@147 a@148", ["1/out 2/out 2/out 2/in"; 2]);
    cases.both_sets("from 1 to 3, a step each second", STRONG, "c@147 c@148 c@148", ["3/out 3/out 3/out", "1/in 2/in 3/out"]);
    cases.both_sets("from 3 to 1, a step each second", STRONG, "d@148 d@147 d@147", ["3/out 3/out 3/out", "3/out 2/out 1/in"]);
    cases.both_sets("a deceleration after an acceleration", STRONG, "a@200 d@200 d@140", ["2/in 2/in 2/out", "2/in 2/in 1/in"]);
}

/// Refusal 9 under rule set 2, and speeds that are only just not too close: in acceleration as under set 1, in cruise and deceleration by the ng - 2
/// downshifts.
fn close(cases: &mut Cases) {
    let close = |beside: &Beside, phase: &str, gears: u32| {
        let mut case = beside.case(phase, gears);
        case.vehicle.rule_set = 2;
        case
    };
    for beside in &BESIDE {
        let words = format!("rule set 2, {}", beside.words());
        match beside.call() {
            None => cases.refused(9, 1, &words, close(beside, "a", 3)),
            Some(above) => {
                let gear = 1 + u8::from(!beside.first) + u8::from(above);
                cases.gears(&format!("{words} gives gear"), close(beside, "a", 3), &gear.to_string());
            }
        }
    }
    for phase in ["c", "d"] {
        for (beside, gear) in BESIDE.iter().zip(["2", "", "", "", "3"]) {
            let words = format!("rule set 2, {phase}, {}", beside.words());
            match gear {
                "" => cases.refused(9, 1, &words, close(beside, phase, 3)),
                _ => cases.gears(&format!("{words} gives gear"), close(beside, phase, 3), gear),
            }
        }
        let later = &BESIDE[6];
        cases.gears(&format!("rule set 2, of 3 gears {phase} is not held against upshift 2 to 3"), close(later, phase, 3), "3");
        cases.refused(9, 1, &format!("rule set 2, of 4 gears {phase} is held against upshift 2 to 3"), close(later, phase, 4));
    }
    cases.gears("rule set 2, a stop is held against nothing", close(&BESIDE[6], "s", 3), "1");
}

/// "A second too close to any of the other speeds is still refused." Of those only 3 to 2 can lie below 2 to 1. 5.3 km/h is at the lower end of 3 to 2 here.
fn too_close_below_2_to_1(cases: &mut Cases) {
    let [power, mass, rated, idle] = [1612, 428, 10_543, 303];
    // the line is 610,200: 53 x 11,513 is 610,189, 53 x 11,514 is 610,242
    let of = |second: u32| Vehicle { power, mass, rated, idle, gears: 3, ndv: [46_857, second, 1000, 0, 0, 0, 0, 0], rule_set: 1 };
    for second in [1001, 11_000, 11_513, 11_514] {
        for phase in ["c", "d"] {
            let words = format!("too close to 3 to 2, ndv of gear 2 {second}");
            cases.both_refused(9, 1, &words, of(second), &format!("{phase}@53"));
        }
    }
    // 55 x 11,000 is 605,000, 56 x 11,000 is 616,000
    for (speed, by_1, by_2) in [(52, "2/out", "1/out"), (54, "3/out", "1/out"), (55, "3/out", "1/out"), (56, "3/out", "3/out")] {
        for phase in ["c", "d"] {
            cases.both_sets("beside a too close speed", of(11_000), &format!("{phase}@{speed}"), [by_1, by_2]);
        }
    }
    cases.both_refused(9, 3, "the third second is too close and below 2 to 1", of(11_000), "s c@52 d@53");
    cases.both_refused(9, 2, "the first of two", of(11_000), "c@52 c@53 d@53");
    // by 895 past the upper end of 3 to 2; the line is 1,309,650, and 311 x 4,200 is 1,306,200
    let past = Vehicle { ndv: [13_151, 4200, 1000, 0, 0, 0, 0, 0], ..BESIDE[4].vehicle(3) };
    cases.both_sets("only just above 3 to 2, and below 2 to 1", past, "c@311", ["3/out", "1/in"]);
}

/// Rows of [`EIGHT`] in which cruise and deceleration seconds have gear 1, which under set 1 is 2 before corrections.
const CORRECTED: [(&str, &str, &str); 18] = [
    ("1, the smaller is the second's own", "a3 d2 d1 d1", "3 2 1 1"),
    ("1, the smaller is the run's last", "a1 d3 d1 d2", "1 1 1 1"),
    ("1, not past a cruise", "a1 c1 d2", "1 1 2"),
    ("4, not after a cruise", "a2 a1 c1 a1", "2 2 1 1"),
    ("4 before 5", "c1 a3 a2", "1 2 3"),
    ("5, upwards from 1", "c1 c3 c3", "1 2 3"),
    ("5, downwards to 1", "c4 c1 c1 c1", "4 3 2 1"),
    ("5, from the last gear down to 1", "c8 d1 d1 d1 d1 d1 d1 d1", "8 7 6 5 4 3 2 1"),
    ("5, after a stop", "s c1 c3 c3", "1 1 2 3"),
    ("5, after a stop, and down again", "s c3 c1", "1 2 1"),
    ("6, a run takes 1", "c1 c2 c1", "1 1 1"),
    ("6, a run of four takes 1", "c1 c2 c2 c2 c2 d1", "1 1 1 1 1 1"),
    ("6, a run of five does not", "c1 c2 c2 c2 c2 c2 d1", "1 2 2 2 2 2 1"),
    ("6, a run of 1 goes", "c2 c1 c1 c1 c1 c2", "2 2 2 2 2 2"),
    ("6, a run of five 1 stays", "c2 c1 c1 c1 c1 c1 c2", "2 1 1 1 1 1 2"),
    ("6, run after run", "c2 c1 c2 c1 c2 c1", "2 2 2 2 2 1"),
    ("6, between stops", "s c1 c2 c1 s", "1 1 1 1 1"),
    ("5 before 6", "c1 c4 c4 c1 c1", "1 2 2 2 1"),
];

/// Rows with marks, on which corrections 2, 3 and 6 acted under set 2 until M-109, with the first marked second.
const MARKED: [(&str, &str, u32); 16] = [
    ("1 before 2", "a2 d1^ d1", 2),
    ("2, cruise", "c1^ c1", 1),
    ("2, deceleration", "d1^ d1^", 1),
    ("2, after a stop", "s c1^ c1", 2),
    ("2, not at another gear", "c2^ c1", 1),
    ("3, gear 1 stays", "c1 c2= c3=", 2),
    ("3, gear 1 comes late", "c2 c1= c1", 2),
    ("3, 2 in place of 1", "c1 c3=^ c2", 2),
    ("3, 2 in place of 1, and from there on", "c1 c1=^ c1=", 2),
    ("3, not after a stop", "s c1= c1=", 2),
    ("3, not at the first second", "c1= c2", 1),
    ("2 before 3", "c1^ c1=", 1),
    ("2 at the first second, 3 not", "c1=^", 1),
    ("6, not 1 where its use is forbidden", "c1 c2^ c1", 2),
    ("6, the mark of a neighbour", "c1 c2 c1 c1^", 4),
    ("2 before 6", "c2 c1^ c2", 2),
];

/// Corrections see no set.
fn corrections(cases: &mut Cases) {
    for (words, seconds, gears) in CORRECTED {
        let words = format!("rule set 2, correction {words}: {seconds} gives");
        cases.gears(&words, lent(trace(seconds), by_set_2(EIGHT)), gears);
    }
    for (words, seconds, at) in MARKED {
        cases.refused(20, at, &format!("rule set 2, correction {words}: {seconds}"), lent(trace(seconds), by_set_2(EIGHT)));
    }
}

/// The clutch goes by the final gear under set 2 too. In [`TALL`] 12.7 km/h has it in in gear 1 and out in gear 2, 12.4 km/h out in both.
fn clutches(cases: &mut Cases) {
    let rows = [
        ("gear 1, in at equality", "c@124 c@125 d@126", "1/out 1/in 1/in"),
        ("correction 1 leaves gear 1", "a@600 d@127", "2/in 1/in"),
        ("correction 4 after a cruise in gear 1", "c@127 a@127", "1/in 1/in"),
        ("correction 5 cuts to gear 2", "c@600 c@127 c@127", "3/in 2/out 1/in"),
        ("correction 6 puts gear 2 for 1", "c@140 c@127 c@140", "2/in 2/out 2/in"),
        ("correction 6 puts gear 1 for 2", "c@127 c@130 c@127", "1/in 1/in 1/in"),
    ];
    for (words, seconds, row) in rows {
        cases.row_with_clutch(&format!("rule set 2, {words}"), by_set_2(TALL), seconds, row);
    }
}
