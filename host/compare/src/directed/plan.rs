//! Directed cases of plans: one trace, many vehicles.

use ylhovesko::gear::Vehicle;
use ylhovesko::plan::SHEET;

use super::gear::{clutch, corrections, faultless, faults, long, phases, row, second, trace, ANNEX_13, BESIDE, EIGHT, TALL};
use crate::plan::{answer_text, by_plain, numbers_of, Answer, Case, Lent, Planned};
use crate::random::Random;
use crate::trace::in_version;

/// What is known of a vehicle in a plan: its refusal, its gears, or only that it is accepted.
#[derive(Clone)]
enum Known {
    Refused(u32, u32),
    Gears(String),
    Taken,
}

/// A vehicle, with what is worked out by hand of it.
type Machine = (Vehicle, Known);

/// A case, what is to be seen in it, and what the request says of it: the refusal of the whole, or what is known of each vehicle.
pub struct Directed {
    pub words: String,
    pub case: Case,
    expected: Result<Vec<Known>, [u32; 2]>,
}

#[derive(Default)]
struct Cases(Vec<Directed>);

/// A trace and vehicles with so much room; the noise comes with its line.
fn lent(trace: &[u8], sheets: Vec<u32>, [rows, answers]: [usize; 2]) -> Case {
    Case { trace: trace.to_vec(), sheets, lent: Lent { rows: vec![0; rows], answers: vec![0; answers] } }
}

fn sheets(machines: &[Machine]) -> Vec<u32> {
    machines.iter().flat_map(|(vehicle, _)| numbers_of(vehicle)).collect()
}

/// The room that a plan takes.
fn exact(trace: &[u8], machines: &[Machine]) -> [usize; 2] {
    [(trace.len() - 8) / 2 * machines.len(), 2 * machines.len()]
}

impl Cases {
    fn refused(&mut self, number: u32, at: u32, words: &str, case: Case) {
        self.0.push(Directed { words: format!("{}: {words}", row(number, at)), case, expected: Err([number, at]) });
    }

    /// A plan with so much room more than it takes.
    fn with_room(&mut self, words: &str, trace: &[u8], machines: &[Machine], more: [usize; 2]) {
        let taken = exact(trace, machines);
        let case = lent(trace, sheets(machines), [taken[0] + more[0], taken[1] + more[1]]);
        let expected = machines.iter().map(|(_, known)| known.clone()).collect();
        self.0.push(Directed { words: words.to_string(), case, expected: Ok(expected) });
    }

    /// The same with exactly the room that it takes.
    fn planned(&mut self, words: &str, trace: &[u8], machines: &[Machine]) {
        self.with_room(words, trace, machines, [0, 0]);
    }
}

/// Every phase, a step of more than one gear up and down, and a run that correction 6 takes away.
fn short() -> Vec<u8> {
    trace("s a@109 a@300 a@600 c@600 d@300 c@53 s@23")
}

/// The same with "no gear-shift" at second 7.
fn marked() -> Vec<u8> {
    trace("s a@109 a@300 a@600 c@600 d@300 c@53= s@23")
}

/// Upshift speeds that no trace reaches: gear 1 in acceleration, and 2 in cruise and deceleration, by rule set 2 also 1.
const SLOW: Vehicle = Vehicle { ndv: [1007, 1006, 1005, 1004, 1003, 1002, 1001, 1000], ..EIGHT };
const THREE: Vehicle = Vehicle { gears: 3, ..EIGHT };
const TALL_BY_SET_2: Vehicle = Vehicle { rule_set: 2, ..TALL };
const SLOW_BY_SET_2: Vehicle = Vehicle { rule_set: 2, ..SLOW };

fn known(vehicle: Vehicle, gears: &str) -> Machine {
    (vehicle, Known::Gears(gears.to_string()))
}

/// Seven machines of both rule sets on [`short`], no two of which have the same row. Before correction 6 the first has 1 1 2 3 4 4 3 1, the second
/// 1 1 1 2 3 2 2 1, the third 1 1 2 3 4 3 2 1, the fifth 1 1 2 3 3 3 2 1.
fn machines() -> [Machine; 7] {
    [
        known(EIGHT, "1 1 2 3 3 3 3 1"),
        known(TALL, "1 1 1 2 2 2 2 1"),
        known(ANNEX_13, "1 1 2 3 3 3 2 1"),
        known(SLOW_BY_SET_2, "1 1 1 1 1 1 1 1"),
        known(THREE, "1 1 2 2 2 2 2 1"),
        known(TALL_BY_SET_2, "1 1 1 2 2 2 1 1"),
        known(SLOW, "1 1 1 1 2 2 2 1"),
    ]
}

/// Those of rule set 1 on [`marked`], where second 7 keeps the gear before it: 4, 2, 3, 3 and 2.
fn machines_of_marked() -> [Machine; 5] {
    [
        known(EIGHT, "1 1 2 3 4 4 4 1"),
        known(TALL, "1 1 1 2 2 2 2 1"),
        known(ANNEX_13, "1 1 2 3 3 3 3 1"),
        known(THREE, "1 1 2 3 3 3 3 1"),
        known(SLOW, "1 1 1 1 2 2 2 1"),
    ]
}

/// So many vehicles, in turn.
fn list(machines: &[Machine], count: usize) -> Vec<Machine> {
    machines.iter().cycle().take(count).cloned().collect()
}

/// One machine at a place of a list.
fn with(mut list: Vec<Machine>, at: usize, machine: &Machine) -> Vec<Machine> {
    list[at] = machine.clone();
    list
}

fn refused(vehicle: Vehicle, number: u32, at: u32) -> Machine {
    (vehicle, Known::Refused(number, at))
}

/// Too close at second 7 of [`short`], and at second 2.
fn close() -> [Machine; 2] {
    [refused(BESIDE[1].vehicle(3), 9, 7), refused(BESIDE[8].vehicle(3), 9, 2)]
}

/// A vehicle for each place of refusals 5, 6 and 7.
fn damaged() -> Vec<Machine> {
    let of_vehicle = faults().into_iter().filter(|(number, ..)| (5..=7).contains(number));
    let machine = |(number, at, put): super::gear::Fault| {
        let mut case = faultless();
        put(&mut case);
        refused(case.vehicle, number, at)
    };
    of_vehicle.map(machine).collect()
}

/// Of a number, vehicles that are refused with it.
fn damaged_by(number: u32) -> Vec<Machine> {
    damaged().into_iter().filter(|(_, known)| matches!(known, Known::Refused(by, _) if *by == number)).collect()
}

/// A mark under rule set 2.
fn by_mark() -> Machine {
    refused(TALL_BY_SET_2, 20, 7)
}

/// "A lane's row in the neighbour's part; the last block's empty lanes written": every count about the blocks of sixteen, none among them.
fn counts(cases: &mut Cases) {
    for count in [0, 1, 2, 3, 7, 8, 14, 15, 16, 17, 18, 30, 31, 32, 33, 47, 48, 49, 64, 65] {
        cases.planned(&format!("{count} vehicles"), &short(), &list(&machines(), count));
        cases.with_room(&format!("{count} vehicles, room for a block more"), &short(), &list(&machines(), count), [16 * 16, 2 * 16]);
    }
    for (at, machine) in machines().iter().enumerate() {
        cases.planned(&format!("machine {at} alone"), &short(), std::slice::from_ref(machine));
        cases.planned(&format!("machine {at} sixteen times"), &short(), &list(std::slice::from_ref(machine), 16));
        let two = [machine.clone(), machines()[(at + 1) % 7].clone()];
        cases.planned(&format!("machine {at} and the next in turn"), &short(), &list(&two, 17));
    }
}

/// "One vehicle's refusal refusing all; 9 of one lane stopping the others": one refused at every place of a block and of the next, by each number.
fn one_refused(cases: &mut Cases) {
    for at in 0..18 {
        for number in [5, 6, 7] {
            let damaged = damaged_by(number);
            let machine = &damaged[at % damaged.len()];
            cases.planned(&format!("one of 18, at {at}, is refused with {number}"), &short(), &with(list(&machines(), 18), at, machine));
        }
        for (second, machine) in [7, 2].iter().zip(&close()) {
            let words = format!("one of 18, at {at}, is refused with 9 for second {second}");
            cases.planned(&words, &short(), &with(list(&machines(), 18), at, machine));
        }
        let of_marked = list(&machines_of_marked(), 18);
        cases.planned(&format!("one of 18, at {at}, is refused with 20"), &marked(), &with(of_marked, at, &by_mark()));
    }
}

/// The other way round: one that is accepted, at every place.
fn one_accepted(cases: &mut Cases) {
    for at in 0..17 {
        let machine = &machines()[at % 7];
        let words = format!("one of 17, at {at}, is accepted");
        cases.planned(&format!("{words}, the others too close"), &short(), &with(list(&close(), 17), at, machine));
        cases.planned(&format!("{words}, the others damaged"), &short(), &with(list(&damaged(), 17), at, machine));
        let of_marked = &machines_of_marked()[at % 5];
        cases.planned(&format!("{words}, the others by set 2"), &marked(), &with(list(&[by_mark()], 17), at, of_marked));
    }
}

/// Many refused, by one number and by many side by side.
fn many_refused(cases: &mut Cases) {
    for count in [1, 2, 15, 16, 17, 33] {
        for number in [5, 6, 7] {
            cases.planned(&format!("all of {count} refused with {number}"), &short(), &list(&damaged_by(number), count));
        }
        cases.planned(&format!("all of {count} refused with 9"), &short(), &list(&close(), count));
        cases.planned(&format!("all of {count} refused with 20"), &marked(), &list(&[by_mark()], count));
    }
    let all: Vec<Machine> = damaged().into_iter().chain(close()).collect();
    cases.planned("every place of 5 to 7, and 9, side by side", &short(), &all);
    let between: Vec<Machine> = all.iter().zip(machines().iter().cycle()).flat_map(|(one, other)| [one.clone(), other.clone()]).collect();
    cases.planned("every place of 5 to 7, and 9, between accepted ones", &short(), &between);
    let by_all: Vec<Machine> = [damaged_by(5)[3].clone(), damaged_by(6)[2].clone(), damaged_by(7)[0].clone(), by_mark()]
        .into_iter()
        .chain(machines_of_marked())
        .chain([close()[1].clone()])
        .collect();
    cases.planned("5, 6, 7, 20, accepted ones and 9", &marked(), &list(&by_all, 35));
}

/// "5, 6, 7, 20, 9" in this order, of one vehicle beside others that have one of its faults alone.
fn order(cases: &mut Cases) {
    let close_by_set_2 = Vehicle { rule_set: 2, ..close()[1].0 };
    let strong = Vehicle { power: 3000, mass: 304, ..close_by_set_2 };
    let rising = Vehicle { ndv: [1000, 1001, 1002, 0, 0, 0, 0, 0], ..strong };
    let light = Vehicle { mass: 29, ..rising };
    let by_all = [
        refused(light, 5, 2),
        refused(Vehicle { rule_set: 3, ..rising }, 5, 14),
        refused(rising, 6, 2),
        refused(strong, 7, 0),
        refused(close_by_set_2, 20, 7),
        close()[1].clone(),
        machines_of_marked()[0].clone(),
    ];
    for count in [7, 16, 20] {
        cases.planned("each the first of its faults, on a marked trace", &marked(), &list(&by_all, count));
    }
    let unmarked: Vec<Machine> = by_all[..4].iter().cloned().chain([refused(close_by_set_2, 9, 2), close()[1].clone()]).collect();
    cases.planned("each the first of its faults, on one without marks", &short(), &list(&unmarked, 19));
    let in_version_2 = in_version(2, short());
    cases.planned("each the first of its faults, in version 2", &in_version_2, &list(&unmarked, 19));
}

/// Which speeds a second is held against, and which second is named where several are too close.
fn held(cases: &mut Cases) {
    let [first, later] = [&BESIDE[1], &BESIDE[6]];
    let (eight, slow) = (|gears: &str| known(EIGHT, gears), |gears: &str| known(SLOW, gears));
    let rows = [
        ("acceleration against upshift 1 to 2", "a@53", vec![refused(first.vehicle(3), 9, 1), eight("1"), slow("1")]),
        ("a stop against nothing", "s@53", vec![known(first.vehicle(3), "1"), eight("1"), slow("1")]),
        ("acceleration against the last upshift", "a@1237", vec![refused(later.vehicle(3), 9, 1), eight("8"), slow("1")]),
        (
            "cruise not against the last",
            "c@1237",
            vec![known(later.vehicle(3), "3"), refused(later.vehicle(4), 9, 1), eight("8"), slow("2")],
        ),
        ("deceleration neither", "d@1237", vec![known(later.vehicle(3), "3"), refused(later.vehicle(4), 9, 1), eight("8"), slow("2")]),
        ("the first of two too close", "a@109 c@600 a@109", vec![refused(BESIDE[8].vehicle(3), 9, 1), eight("1 1 1"), slow("1 1 1")]),
        ("the last of three", "a@600 c@600 a@109", vec![refused(BESIDE[8].vehicle(3), 9, 3), eight("6 6 6"), slow("1 1 1")]),
    ];
    for (words, seconds, machines) in rows {
        for count in [machines.len(), 17] {
            cases.planned(&format!("{words}: {seconds}"), &trace(seconds), &list(&machines, count));
        }
    }
}

/// The tenths beside the downshift 2 to 1 of rule set 2: 4.815, 13.0 and 15.483 km/h.
fn to_first(cases: &mut Cases) {
    let by_set_2 = |vehicle: Vehicle, gear: &str| known(Vehicle { rule_set: 2, ..vehicle }, gear);
    for phase in ["c", "d"] {
        for (tenth, gears) in [
            (48, ["1", "1", "1"]),
            (49, ["2", "1", "1"]),
            (129, ["2", "1", "1"]),
            (130, ["2", "2", "1"]),
            (154, ["3", "2", "1"]),
            (155, ["3", "2", "2"]),
        ] {
            let three: Vec<Machine> =
                [EIGHT, TALL, ANNEX_13].into_iter().zip(gears).map(|(vehicle, gear)| by_set_2(vehicle, gear)).collect();
            cases.planned(&format!("rule set 2 at {phase}@{tenth}"), &trace(&format!("{phase}@{tenth}")), &list(&three, 17));
        }
    }
}

/// The first marked second is named, a stop too; and a mark is that of its own second and run.
fn marks(cases: &mut Cases) {
    let rows = [
        ("two marks", "s a@109^ a@300 a@600 c@600 d@300 c@53= s@23", 2, ["1 2 3 4 4 4 4 1", "1 2 2 2 2 2 2 1"]),
        ("a mark at a stop", "s^ a@109 s=", 1, ["1 1 1", "1 1 1"]),
        ("a mark at the last stop", "s a@109 s=", 3, ["1 1 1", "1 1 1"]),
        ("the mark of a run before", "c3^ c2 a1 a1 a1 a1 a1 c2 a1", 1, ["3 2 1 1 1 1 1 1 1", "2 2 1 1 1 1 1 1 1"]),
        ("the mark of the run itself", "c3 c2 a1 a1 a1 a1 a1 c2^ a1", 8, ["3 2 1 1 1 1 1 2 1", "2 2 1 1 1 1 1 2 1"]),
    ];
    for (words, seconds, at, [eight, slow]) in rows {
        let machines = [known(EIGHT, eight), refused(TALL_BY_SET_2, 20, at), known(SLOW, slow), refused(SLOW_BY_SET_2, 20, at)];
        for count in [4, 17] {
            cases.planned(&format!("{words}: {seconds}"), &trace(seconds), &list(&machines, count));
        }
    }
}

/// Both versions: what has no mark is the same in both, and a mark in version 2 is refused with 4.
fn versions(cases: &mut Cases) {
    for count in [1, 16, 21] {
        cases.planned("version 2", &in_version(2, short()), &list(&machines(), count));
        cases.planned("version 1 with a mark", &marked(), &list(&machines_of_marked(), count));
        let (marked, machines) = (in_version(2, marked()), list(&machines(), count));
        let rooms = exact(&marked, &machines);
        cases.refused(4, 7, "version 2 with a mark", lent(&marked, sheets(&machines), rooms));
    }
}

/// Single seconds at 60.0 km/h: a first second is not corrected. The first machine has gear 6 in acceleration and 7 in cruise.
fn few_seconds(cases: &mut Cases) {
    let of =
        |gears: [&str; 7]| -> Vec<Machine> { machines().iter().zip(gears).map(|((vehicle, _), gears)| known(*vehicle, gears)).collect() };
    let each = |seconds: &str, gears: &str| (trace(seconds), of([gears; 7]));
    let rows = [
        (trace("a@600"), of(["6", "2", "3", "1", "3", "2", "1"])),
        (trace("c@600"), of(["7", "3", "4", "1", "3", "3", "2"])),
        (trace("a@600 c@600"), of(["6 7", "2 3", "3 4", "1 1", "3 3", "2 3", "1 2"])),
        (trace("a@600 d@600"), of(["6 6", "2 2", "3 3", "1 1", "3 3", "2 2", "1 1"])),
        (trace("c@53 c@600"), of(["2 3", "2 3", "2 3", "1 1", "2 3", "1 2", "2 2"])),
        (trace("a@600 c@600 s s s"), of(["6 7 1 1 1", "2 3 1 1 1", "3 4 1 1 1", "1 1 1 1 1", "3 3 1 1 1", "2 3 1 1 1", "1 2 1 1 1"])),
        each("s", "1"),
        each("s s", "1 1"),
        each("s s s s s", "1 1 1 1 1"),
        each("s s s s s s", "0 1 1 1 1 1"),
    ];
    for (trace, machines) in rows {
        for count in [1, 7, 16, 17] {
            cases.planned(&format!("{} seconds, {count} vehicles", (trace.len() - 8) / 4), &trace, &list(&machines, count));
        }
    }
}

/// The longest traces: cruise at 60.0 km/h, which has one gear throughout; stops, all but the last five of which are neutral; and every phase and mark.
fn many_seconds(cases: &mut Cases) {
    let repeated = |gear: &str, count: usize| vec![gear; count].join(" ");
    for count in [1999, 2000] {
        let gears = ["7", "3", "4", "1", "3", "3", "2"];
        let steady: Vec<Machine> =
            machines().iter().zip(gears).map(|((vehicle, _), gear)| known(*vehicle, &repeated(gear, count))).collect();
        let cruise = trace(&repeated("c@600", count));
        cases.planned(&format!("{count} seconds of cruise, 17 vehicles"), &cruise, &list(&steady, 17));
        let stops = repeated("0", count - 5) + " 1 1 1 1 1";
        let standing: Vec<Machine> = machines()[..3].iter().map(|(vehicle, _)| known(*vehicle, &stops)).collect();
        cases.planned(&format!("{count} stops"), &trace(&repeated("s", count)), &standing);
        let any: Vec<Machine> = machines_of_marked().iter().map(|(vehicle, _)| (*vehicle, Known::Taken)).collect();
        cases.planned(&format!("{count} seconds of every phase and mark"), &long(count as u32), &any);
        // the last second: too close, or marked
        let last = |short: &str| {
            let mut trace = cruise.clone();
            trace[8 + 4 * (count - 1)..].copy_from_slice(&second(short));
            trace
        };
        let at = count as u32;
        let close = [refused(BESIDE[8].vehicle(3), 9, at), (EIGHT, Known::Taken), refused(BESIDE[8].vehicle(4), 9, at)];
        cases.planned(&format!("too close at second {at}"), &last("a@109"), &close);
        let marked = [refused(TALL_BY_SET_2, 20, at), (EIGHT, Known::Taken), refused(SLOW_BY_SET_2, 20, at)];
        cases.planned(&format!("a mark at second {at}"), &last("c@600^"), &marked);
    }
}

/// "With a buffer too small (8)": rows that take 16 bytes and answers that take two numbers for each vehicle, refused or not.
fn rooms(cases: &mut Cases) {
    let lists = [("all accepted", list(&machines(), 3)), ("17", list(&machines(), 17)), ("all refused", list(&damaged(), 3))];
    for (words, machines) in &lists {
        let [rows, answers] = exact(&short(), machines);
        for more in [[0, 0], [1, 0], [0, 1], [15, 1], [16, 2], [17, 3], [1000, 0], [0, 1000], [3000, 300]] {
            cases.with_room(&format!("{words}, room for {more:?} more than it takes"), &short(), machines, more);
        }
        let few_rows = [0, 1, 15, 16, 17, rows - 17, rows - 16, rows - 15, rows - 2, rows - 1];
        let few_answers = [0, 1, 2, answers - 2, answers - 1];
        for room in few_rows {
            cases.refused(8, 0, &format!("{words}, {room} of {rows} bytes"), lent(&short(), sheets(machines), [room, answers]));
            cases.refused(
                8,
                0,
                &format!("{words}, {room} of {rows} bytes, many answers"),
                lent(&short(), sheets(machines), [room, answers + 90]),
            );
        }
        for room in few_answers {
            cases.refused(8, 0, &format!("{words}, {room} of {answers} answers"), lent(&short(), sheets(machines), [rows, room]));
            cases.refused(
                8,
                0,
                &format!("{words}, {room} of {answers} answers, many rows"),
                lent(&short(), sheets(machines), [rows + 900, room]),
            );
            cases.refused(8, 0, &format!("{words}, {room} of {answers} answers, no rows"), lent(&short(), sheets(machines), [0, room]));
        }
    }
    for more in [[0, 0], [1, 0], [0, 1], [100, 100]] {
        cases.with_room(&format!("no vehicles, room for {more:?}"), &short(), &[], more);
    }
}

/// Sheets that end within a vehicle, at every number of it.
fn cut(cases: &mut Cases) {
    for (whole, within) in [0, 1, 2, 15, 16].into_iter().flat_map(|whole| (1..SHEET).map(move |within| (whole, within))) {
        let machines = list(&machines(), whole + 1);
        let mut cut = sheets(&machines);
        cut.truncate(SHEET * whole + within);
        let room = exact(&short(), &machines);
        let words = format!("{within} numbers behind {whole} vehicles");
        cases.refused(8, 0, &words, lent(&short(), cut.clone(), room));
        if whole < 3 {
            let [rows, answers] = exact(&short(), &machines[..whole]);
            cases.refused(8, 0, &format!("{words}, room for those"), lent(&short(), cut.clone(), [rows, answers]));
            cases.refused(8, 0, &format!("{words}, much room"), lent(&short(), cut, [1000, 100]));
        }
    }
}

/// "The whole call is refused for what is wrong with the trace (1 to 4)", also before 8 and before what is wrong with a vehicle.
fn damaged_traces(cases: &mut Cases) {
    let of_trace =
        super::gear::cases().into_iter().filter(|directed| (1..=4).contains(&directed.told[0]) && directed.case.trace.len() < 60);
    // all of the house file's own, and some of those of the versions
    let some = of_trace.enumerate().filter(|(at, _)| *at < 80 || at % 16 == 0).map(|(_, directed)| directed);
    for (at, directed) in some.enumerate() {
        let ([number, place, ..], trace) = (directed.told, directed.case.trace);
        let machines = if at % 3 == 0 { list(&damaged(), 2) } else { list(&machines(), 3) };
        let (sheets, words) = (sheets(&machines), directed.words);
        cases.refused(number, place, &format!("{words}, room for all"), lent(&trace, sheets.clone(), [200, 20]));
        match at % 4 {
            0 => cases.refused(number, place, &format!("{words}, no room"), lent(&trace, sheets, [0, 0])),
            1 => cases.refused(number, place, &format!("{words}, sheets cut"), lent(&trace, sheets[..20].to_vec(), [200, 20])),
            2 => cases.refused(number, place, &format!("{words}, no vehicles"), lent(&trace, Vec::new(), [0, 0])),
            _ => cases.refused(number, place, &format!("{words}, no answers"), lent(&trace, sheets, [200, 0])),
        }
    }
}

/// The rows of each correction, by hand for the machine with eight gears, beside machines to which the same correction does something else or nothing.
fn corrected(cases: &mut Cases) {
    let mut rows = super::gear::Cases::default();
    [phases, corrections].iter().for_each(|group| group(&mut rows));
    let four = Vehicle { gears: 4, ..EIGHT };
    for directed in rows.0.into_iter().filter(|directed| directed.case.vehicle == EIGHT) {
        let gears: Vec<String> = directed.row.unwrap().iter().step_by(2).map(u8::to_string).collect();
        let eight = known(EIGHT, &gears.join(" "));
        let others = [THREE, SLOW, four, TALL, ANNEX_13].map(|vehicle| (vehicle, Known::Taken));
        let machines: Vec<Machine> = others.into_iter().flat_map(|other| [eight.clone(), other]).collect();
        cases.planned(&format!("{}, every other vehicle", directed.words), &directed.case.trace, &machines);
    }
}

/// Each correction by itself on three machines, to each of which it gives other gears.
fn by_correction(cases: &mut Cases) {
    let rows = [
        ("1: not above the acceleration's last gear", "a@600 d@600 d@600 d@600 d@600", ["6 6 6 6 6", "2 2 2 2 2", "3 3 3 3 3"]),
        ("2: 1 becomes 2", "a@109^ a@109^ a@109^ a@300 a@300", ["2 2 2 3 3", "2 2 2 2 2", "2 2 2 2 2"]),
        ("3: the gear before", "a@300 c@600= c@600= c@53= c@300", ["3 3 3 3 4", "1 1 1 1 2", "2 2 2 2 3"]),
        ("4: not below the gear before", "a@600 a@300 a@109 a@300 a@600", ["6 6 6 6 6", "2 2 2 2 2", "3 3 3 3 3"]),
        ("5: one step", "c@53 c@600 c@600 c@600 c@53", ["2 3 4 4 4", "2 2 2 2 2", "2 3 3 3 3"]),
        ("6: a run between two of one gear", "c@600 c@300 c@300 c@600 c@600", ["7 6 6 6 7", "3 3 3 3 3", "4 4 4 4 4"]),
    ];
    for (words, seconds, gears) in rows {
        let row = |(vehicle, gears): (Vehicle, &str)| known(vehicle, gears);
        let three: Vec<Machine> = [EIGHT, TALL, ANNEX_13].into_iter().zip(gears).map(row).collect();
        cases.planned(&format!("correction {words}"), &trace(seconds), &list(&three, 17));
    }
}

/// All of them, in the order of the file; the noise of what is lent has the number of its line there.
pub fn cases() -> Vec<Directed> {
    let mut cases = Cases::default();
    let groups = [
        counts,
        one_refused,
        one_accepted,
        many_refused,
        order,
        held,
        to_first,
        marks,
        versions,
        few_seconds,
        by_correction,
        corrected,
        rooms,
        cut,
        damaged_traces,
        many_seconds,
    ];
    groups.iter().for_each(|group| group(&mut cases));
    for (line, directed) in (3..).step_by(2).zip(&mut cases.0) {
        directed.case.lent = Lent::noise(&mut Random::new(line), directed.case.lent.rooms());
    }
    cases.0
}

/// Whether a vehicle is answered as is known of it. Of gears that are known the clutch follows.
fn holds(trace: &[u8], vehicle: &Vehicle, known: &Known, planned: &Planned) -> bool {
    let bytes = |gears: &str| -> Vec<u8> {
        let seconds = gears.split(' ').map(|gear| gear.parse().unwrap()).zip(trace[8..].chunks(4));
        seconds.flat_map(|(gear, second)| [gear, clutch(vehicle, second, gear)]).collect()
    };
    match known {
        Known::Refused(number, at) => planned.told == [*number, *at] && planned.row.is_none(),
        Known::Gears(gears) => planned.told == [0, 0] && planned.row == Some(bytes(gears)),
        Known::Taken => planned.told == [0, 0],
    }
}

/// The first line of the file, which says what a line has.
const HEAD: &str = "# trace(hex) n numbers(n, 14 a vehicle: P m s n ng ndv1..ndv8 rule_set) room_rows(bytes) room_answers(numbers) number place; then, where number is \
                    0, of each vehicle: number place row(hex: gear clutch, - after a refusal)\n";

/// The text of vectors/directed_plan.txt. Stops where the second implementation does not say what is expected.
pub fn text() -> String {
    let mut text = String::from(HEAD);
    for Directed { words, case, expected } in cases() {
        let answer = by_plain(&case);
        let planned = answer.planned(&case);
        match expected {
            Err([number, at]) => assert_eq!(answer, Answer::refused(&case, number, at), "{words}"),
            Ok(all) => {
                assert_eq!((answer.told, planned.len()), ([0; 4], all.len()), "{words}");
                for (at, ((vehicle, known), planned)) in case.vehicles().iter().zip(&all).zip(&planned).enumerate() {
                    assert!(holds(&case.trace, vehicle, known, planned), "{words}: vehicle {at}, {planned:?}");
                }
                assert_eq!(answer, Answer::written(&case, &planned), "{words}");
            }
        }
        text += &format!("# {words}\n{case} {}\n", answer_text(&case, &answer));
    }
    text
}
