//! Directed vehicles, for their shift speeds in whole tenths (02, M-106), and cases of the gear sheet with many speeds that are too close.

use ylhovesko::gear::Vehicle;

use super::gear::{lent, of_vehicle, trace, Beside, Cases, BESIDE};
use super::speeds::{to_first_vehicles, vehicle_with, Worked, WORKED};
use crate::gear::vehicle_text;
use crate::tenths::{answer_text, by_plain, Tenths};
use crate::Told;

/// A vehicle, what is to be seen in it, and what 01 and 02 say of it: the refusal, and the tenths of an upshift speed where they are worked out apart, with the
/// gear it is from; so that of the downshift 2 to 1.
pub struct Directed {
    pub words: String,
    pub vehicle: Vehicle,
    pub told: Told,
    pub upshifts: Vec<(usize, Tenths)>,
    pub to_first: Option<u32>,
}

/// The least tenth above an upshift speed where no tenth is too close: the one before is below it.
const fn clear(tenth: u32) -> Tenths {
    (tenth, tenth)
}

/// An upshift speed to which a tenth is too close: the one after it is the least above.
const fn marked(tenth: u32) -> Tenths {
    (tenth + 1, tenth)
}

/// A vehicle that is taken, with the tenths of its upshifts from gear 1 on.
fn taken(words: &str, vehicle: Vehicle, upshifts: &[Tenths]) -> Directed {
    assert_eq!(upshifts.len() as u32, vehicle.gears - 1, "{words}");
    let upshifts = (1..).zip(upshifts.iter().copied()).collect();
    Directed { words: format!("taken: {words}"), vehicle, told: [0; 4], upshifts, to_first: None }
}

/// The same vehicle under both rule sets, with the tenth of 2 to 1 that set 2 has.
fn both_sets(words: &str, vehicle: Vehicle, upshifts: &[Tenths], to_first: u32) -> [Directed; 2] {
    [(1, None), (2, Some(to_first))].map(|(rule_set, to_first)| {
        let words = format!("rule set {rule_set}, {words}");
        Directed { to_first, ..taken(&words, Vehicle { rule_set, ..vehicle }, upshifts) }
    })
}

fn worked(worked: &Worked) -> Directed {
    let tenths: Vec<Tenths> = worked.tenths.iter().copied().map(clear).collect();
    taken(worked.words, worked.vehicle(), &tenths)
}

/// A speed that is only just below a shift speed leaves the next tenth above it, one that is only just above it is itself the least, and one between the two
/// ends is the mark.
fn beside(speed: &Beside) -> [Directed; 2] {
    let gear = if speed.first { 1 } else { 2 };
    let tenths = match speed.call() {
        Some(false) => clear(speed.speed + 1),
        Some(true) => clear(speed.speed),
        None => marked(speed.speed),
    };
    [1, 2].map(|rule_set| {
        let words = format!("taken: rule set {rule_set}, {}.{} km/h is {}", speed.speed / 10, speed.speed % 10, speed.words());
        let vehicle = Vehicle { rule_set, ..speed.vehicle(3) };
        Directed { words, vehicle, told: [0; 4], upshifts: vec![(gear, tenths)], to_first: None }
    })
}

/// Found by search over every s - n of all accepted pairs of P and m: no engine speed is nearer to a lower end that it is short of, nor to an upper end that it
/// is past. In 64-bit floats it is at the end.
const NEAREST: [Beside; 4] = [
    Beside { vehicle: [2464, 426, 16_974, 1000], first: true, ndv: 16_643, speed: 181, end: "lower", away: -4 },
    Beside { vehicle: [1579, 730, 19_137, 1100], first: true, ndv: 18_789, speed: 343, end: "upper", away: 4 },
    Beside { vehicle: [2464, 426, 17_174, 1200], first: false, ndv: 19_011, speed: 253, end: "lower", away: -4 },
    Beside { vehicle: [1579, 730, 19_337, 1300], first: false, ndv: 17_937, speed: 471, end: "upper", away: 4 },
];

/// P, m, s and n with which every upshift speed can be too close to a tenth. With the ends of e to the power -x as fractions the engine speed of the upshift 1 to
/// 2 lies between 4,306,499.982 and 4,306,500.004 in 0.001 per minute, that of the others between 4,989,599.982 and 4,989,600.004. The line of 2 to 1 is 1,604,930.
const SEVEN: [u32; 4] = [143, 225, 8231, 1400];

/// 4,306,500 is 28,710 x 150; 4,989,600 is each of the next six ratios times the tenth beside it.
const CLOSE: [(u32, u32); 7] = [(28_710, 150), (24_948, 200), (16_800, 297), (12_600, 396), (10_080, 495), (8400, 594), (7200, 693)];

/// 4,989,600 is 22,275 x 224 and 22,176 x 225.
const TWO_CLOSE: [u32; 4] = [30_000, 22_275, 22_176, 9000];

/// So many gears with the ratios of [`CLOSE`], and the eighth 63.00.
fn seven(gears: u32) -> Vehicle {
    let [first, second, third, fourth, fifth, sixth, seventh] = CLOSE.map(|(ndv, _)| ndv);
    Vehicle { gears, ..vehicle_with(SEVEN, &[first, second, third, fourth, fifth, sixth, seventh, 6300]) }
}

/// The tenths of the upshift from a gear of [`seven`] where its ratio is one more or one less: then the engine speed of the tenth is above or below both ends.
fn stepped(gear: usize, step: i32) -> Tenths {
    let tenth = CLOSE[gear].1;
    match step {
        1 => clear(tenth),
        -1 => clear(tenth + 1),
        _ => marked(tenth),
    }
}

/// A mark in every upshift, of three to eight gears. The ratios past the last gear would give some too. 1,604,930 is 24,948 x 64 + 8,258.
fn all_marked() -> Vec<Directed> {
    let of = |gears: usize| {
        let tenths: Vec<Tenths> = CLOSE[..gears - 1].iter().map(|(_, tenth)| marked(*tenth)).collect();
        both_sets(&format!("{gears} gears, a tenth too close to each upshift"), seven(gears as u32), &tenths, 65)
    };
    (3..=8).flat_map(of).collect()
}

/// [`seven`] with a step in the ratio of each gear but the eighth.
fn with_steps(words: &str, steps: [i32; 7]) -> Directed {
    let mut vehicle = seven(8);
    vehicle.ndv.iter_mut().zip(steps).for_each(|(ndv, step)| *ndv = ndv.wrapping_add_signed(step));
    let tenths: Vec<Tenths> = (0..).zip(steps).map(|(gear, step)| stepped(gear, step)).collect();
    taken(words, vehicle, &tenths)
}

/// A mark in one upshift alone, and in all but one.
fn one_marked() -> Vec<Directed> {
    let mut all = Vec::new();
    for (gear, (step, side)) in (0..7).flat_map(|gear| [(gear, (1, "above")), (gear, (-1, "below"))]) {
        let upshift = format!("upshift {} to {}", gear + 1, gear + 2);
        let steps = std::array::from_fn(|of| if of == gear { 0 } else { step });
        all.push(with_steps(&format!("a tenth too close to {upshift} alone, and just {side} the others"), steps));
        let steps = std::array::from_fn(|of| if of == gear { step } else { 0 });
        all.push(with_steps(&format!("a tenth just {side} {upshift}, and too close to the others"), steps));
    }
    all
}

/// A vehicle whose tenths are worked out apart from both implementations, with the ends of e to the power -x as fractions; the tenth of 2 to 1 is rule set 2's.
/// Engine speeds are in 0.001 per minute.
struct Marked {
    words: &'static str,
    vehicle: [u32; 4],
    ndv: &'static [u32],
    upshifts: &'static [Tenths],
    to_first: u32,
}

const MARKED: [Marked; 10] = [
    Marked {
        words: "two tenths next to each other, 4,989,600 is 22,275 x 224 and 22,176 x 225",
        vehicle: SEVEN,
        ndv: &TWO_CLOSE,
        upshifts: &[clear(144), marked(224), marked(225)],
        to_first: 73,
    },
    Marked {
        words: "two tenths next to each other, 4,989,600 is 62,370 x 80 and 61,600 x 81",
        vehicle: SEVEN,
        ndv: &[80_000, 62_370, 61_600, 9000],
        upshifts: &[clear(54), marked(80), marked(81)],
        to_first: 26,
    },
    Marked {
        words: "2 to 1 at the tenth that is too close, 1,604,930 is 10,700 x 150 - 70",
        vehicle: SEVEN,
        ndv: &[28_710, 10_700, 9000],
        upshifts: &[marked(150), clear(467)],
        to_first: 150,
    },
    Marked {
        words: "2 to 1 at the tenth after it, 1,604,930 is 10,699 x 150 + 80",
        vehicle: SEVEN,
        ndv: &[28_710, 10_699, 9000],
        upshifts: &[marked(150), clear(467)],
        to_first: 151,
    },
    Marked {
        words: "4 x 94,091 lies between 376,363.9997 and 376,364.0088",
        vehicle: [899, 40, 2823, 300],
        ndv: &[94_091, 50_000, 1000],
        upshifts: &[marked(4), clear(13)],
        to_first: 8,
    },
    Marked {
        words: "1,999 x 3,665 lies between 7,326,334.971 and 7,326,335.010",
        vehicle: [143, 225, 13_039, 1000],
        ndv: &[9000, 3665, 1000],
        upshifts: &[clear(681), marked(1999)],
        to_first: 372,
    },
    Marked {
        words: "the last tenth of a trace, 2,000 x 1,446 lies between 2,891,999.973 and 2,892,000.025",
        vehicle: [899, 40, 15_524, 1000],
        ndv: &[5000, 1446, 1000],
        upshifts: &[clear(288), marked(2000)],
        to_first: 993,
    },
    Marked {
        words: "one that no trace holds, 2,001 x 3,732 lies between 7,467,731.976 and 7,467,732.038",
        vehicle: [720, 199, 19_522, 1000],
        ndv: &[5000, 3732, 1000],
        upshifts: &[clear(1124), marked(2001)],
        to_first: 417,
    },
    Marked {
        words: "12,755 x 1,001 lies between 12,767,754.987 and 12,767,755.041",
        vehicle: [4, 976, 19_996, 2993],
        ndv: &[1002, 1001, 1000],
        upshifts: &[clear(11_046), marked(12_755)],
        to_first: 3500,
    },
    Marked {
        words: "the highest, 1,276.56 and 350.65 km/h",
        vehicle: [1, 1000, 20_000, 3000],
        ndv: &[1002, 1001, 1000],
        upshifts: &[clear(11_057), clear(12_766)],
        to_first: 3507,
    },
];

impl Marked {
    fn directed(&self) -> [Directed; 2] {
        both_sets(self.words, vehicle_with(self.vehicle, self.ndv), self.upshifts, self.to_first)
    }
}

/// Where 2 to 1 is a tenth, or 0.001 per minute beside it: n, s, the ratios of gears 1 and 2, and the least tenth at or above.
const AT_OR_ABOVE: [(&str, [u32; 2], [u32; 2], u32); 12] = [
    ("1,292,500 is 110 x 11,750", [1000, 10_750], [12_000, 11_750], 110),
    ("1,292,500 is 117 x 11,047 + 1", [1000, 10_750], [12_000, 11_047], 118),
    ("1,292,500 is 203 x 6,367 - 1", [1000, 10_750], [12_000, 6367], 203),
    ("the least, 321,000, is 107 x 3,000", [300, 1000], [3100, 3000], 107),
    ("s is n + 500: 515,000 is 103 x 5,000", [500, 1000], [6000, 5000], 103),
    ("s is n + 500: 3,015,000 is 134 x 22,500", [3000, 3500], [23_000, 22_500], 134),
    ("the greatest, 3,510,000, is 135 x 26,000", [3000, 20_000], [30_000, 26_000], 135),
    ("the greatest is also 1,950 x 1,800", [3000, 20_000], [1801, 1800], 1950),
    ("the greatest is also 2,000 x 1,755", [3000, 20_000], [1801, 1755], 2000),
    ("the greatest is also 2,001 x 1,754 + 246", [3000, 20_000], [1801, 1754], 2002),
    ("the greatest is also 3,375 x 1,040", [3000, 20_000], [1801, 1040], 3375),
    ("the greatest is also 3,506 x 1,001 + 494", [3000, 20_000], [1801, 1001], 3507),
];

/// Under rule set 2 the tenth by hand, under set 1 none.
fn to_first() -> Vec<Directed> {
    let more = AT_OR_ABOVE.into_iter().flat_map(|(words, [idle, rated], [first, second], tenth)| {
        [1, 2].map(|rule_set| {
            let vehicle = Vehicle { rule_set, ..vehicle_with([720, 199, rated, idle], &[first, second, 1000]) };
            (format!("taken: rule set {rule_set}, {words}"), vehicle, tenth)
        })
    });
    let all = to_first_vehicles().into_iter().map(|(words, vehicle, _, tenth)| (words, vehicle, tenth)).chain(more);
    all.map(|(words, vehicle, tenth)| {
        let to_first = (vehicle.rule_set == 2).then_some(tenth);
        Directed { words, vehicle, told: [0; 4], upshifts: Vec::new(), to_first }
    })
    .collect()
}

/// All of them, in the order of the file.
pub fn cases() -> Vec<Directed> {
    let judged = of_vehicle().into_iter().map(|directed| Directed {
        words: directed.words,
        vehicle: directed.case.vehicle,
        told: directed.told,
        upshifts: Vec::new(),
        to_first: None,
    });
    let beside = BESIDE.iter().chain(&NEAREST).flat_map(beside);
    let marked = all_marked().into_iter().chain(one_marked()).chain(MARKED.iter().flat_map(Marked::directed));
    WORKED.iter().map(worked).chain(beside).chain(marked).chain(to_first()).chain(judged).collect()
}

/// The text of vectors/directed_tenths.txt. Stops where the second implementation does not say what is expected.
pub fn text() -> String {
    let mut text = String::from(
        "# P m s n ng ndv1..ndv8 rule_set number place; then, of each upshift speed from gear 1 on, the least tenth of a km/h above it and \
         the least that is not below it; then, under rule set 2, the least at or above the downshift 2 to 1\n",
    );
    for Directed { words, vehicle, told, upshifts, to_first } in cases() {
        let answer = by_plain(&vehicle);
        assert_eq!(answer.told, told, "{words}");
        upshifts.iter().for_each(|(gear, tenths)| assert_eq!(answer.upshifts[gear - 1], *tenths, "{words}, gear {gear}"));
        assert_eq!(answer.to_first.is_some(), told[0] == 0 && vehicle.rule_set == 2, "{words}");
        assert!(to_first.is_none() || answer.to_first == to_first, "{words}");
        text += &format!("# {words}\n{} {}\n", vehicle_text(&vehicle), answer_text(&answer));
    }
    text
}

/// Cases of the gear sheet.
pub(super) const GROUPS: [fn(&mut Cases); 3] = [beside_each, one_after_the_other, nearest];

/// The close tenth of an upshift of [`seven`] and the tenths beside it. Cruise and deceleration have one gear more, up to the eighth, and are not held against the
/// seventh upshift.
fn beside_upshift(cases: &mut Cases, vehicle: Vehicle, phase: &str, gear: usize) {
    let tenth = CLOSE[gear - 1].1;
    let lowest = if phase == "a" { gear } else { gear + 1 };
    let words = format!("rule set {}, beside upshift {gear} to {}", vehicle.rule_set, gear + 1);
    let seconds = format!("{phase}@{} {phase}@{}", tenth - 1, tenth + 1);
    cases.gears(&format!("{words}: {seconds} gives"), lent(trace(&seconds), vehicle), &format!("{lowest} {}", (lowest + 1).min(8)));
    let seconds = format!("{phase}@{} {phase}@{tenth}", tenth - 1);
    if gear == 7 && phase != "a" {
        cases.gears(&format!("{words}: {seconds} gives"), lent(trace(&seconds), vehicle), "8 8");
    } else {
        cases.refused(9, 2, &format!("{words}: {seconds}"), lent(trace(&seconds), vehicle));
    }
}

fn beside_each(cases: &mut Cases) {
    for vehicle in [1, 2].map(|rule_set| Vehicle { rule_set, ..seven(8) }) {
        for gear in 1..=7 {
            ["a", "c", "d"].iter().for_each(|phase| beside_upshift(cases, vehicle, phase, gear));
        }
    }
}

/// 22.4 km/h is too close to the upshift 2 to 3 and 22.5 to 3 to 4.
fn one_after_the_other(cases: &mut Cases) {
    let vehicle = vehicle_with(SEVEN, &TWO_CLOSE);
    for (speed, gear) in [(223, "2"), (226, "4")] {
        cases.gears("beside two close tenths", lent(trace(&format!("a@{speed}")), vehicle), gear);
    }
    for (seconds, at) in [("a@224", 1), ("a@225", 1), ("a@223 a@226 a@225", 3), ("c@225 d@223 c@224", 3)] {
        cases.refused(9, at, &format!("two close tenths: {seconds}"), lent(trace(seconds), vehicle));
    }
    cases.gears("of 4 gears cruise is not held against upshift 3 to 4", lent(trace("c@225 d@226"), vehicle), "4 4");
}

/// An acceleration at a speed of [`NEAREST`] has the gear below the upshift or the one above it; a cruise second is held against 1 to 2 alone.
fn nearest(cases: &mut Cases) {
    for beside in &NEAREST {
        let above = beside.call() == Some(true);
        let gear = 1 + u8::from(!beside.first) + u8::from(above);
        cases.gears(&format!("{} gives gear", beside.words()), beside.case("a", 3), &gear.to_string());
        let gear = if beside.first && !above { "2" } else { "3" };
        cases.gears(&format!("in cruise, {} gives gear", beside.words()), beside.case("c", 3), gear);
    }
}
