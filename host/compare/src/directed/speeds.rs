//! Directed vehicles, for their shift speeds.

use ylhovesko::gear::Vehicle;

use super::gear::{of_vehicle, Beside, BESIDE};
use crate::gear::vehicle_text;
use crate::speeds::{answer_text, by_plain, Speed};
use crate::Told;

/// A vehicle, what is to be seen in it, and what 01 and 02 say of it: the refusal, and the ends of an upshift speed where they are worked out by hand, with
/// the gear it is from; so those of the downshift 2 to 1.
pub struct Directed {
    pub words: String,
    pub vehicle: Vehicle,
    pub told: Told,
    pub ends: Vec<(usize, Speed)>,
    pub to_first: Option<Speed>,
}

/// A vehicle whose speeds are worked out apart from both implementations, with e to the power -x to 60 decimals, or with its ends as fractions where a
/// speed is near a whole number of 0.001 km/h; and its tenths, all with the ends as fractions: the least above each speed, which is the least that is not below
/// it, as no tenth is too close here. Annex 13's: x = 19 x 720 / (100 x 274) = 0.499270, e to the power -x is 0.606973544, times 0.5753 it is
/// 0.349191880; 0.249191880 x 10,650 + 1,150 = 3,803.893523 over 133.66 is 28.459475, and 0.349191880 x 10,650 + 1,150 = 4,868.893523 over 94.91 is
/// 51.300110, over 76.16 63.929799, over 65.69 74.119249 and over 58.85 82.733959.
pub(super) struct Worked {
    pub(super) words: &'static str,
    vehicle: [u32; 4],
    ndv: &'static [u32],
    ends: &'static [Speed],
    pub(super) tenths: &'static [u32],
}

pub(super) const WORKED: [Worked; 20] = [
    Worked {
        words: "Annex 13's machine, table A13-3: 28.5, 51.3, 63.9, 74.1 and 82.7 km/h",
        vehicle: [720, 199, 11_800, 1150],
        ndv: &[13_366, 9491, 7616, 6569, 5885, 5404],
        ends: &[(28_459, 28_460), (51_300, 51_301), (63_929, 63_930), (74_119, 74_120), (82_733, 82_734)],
        tenths: &[285, 514, 640, 742, 828],
    },
    Worked {
        words: "three gears",
        vehicle: [300, 200, 8000, 1200],
        ndv: &[20_000, 12_000, 9000],
        ends: &[(18_498, 18_499), (36_497, 36_498)],
        tenths: &[185, 365],
    },
    Worked {
        words: "the highest speeds",
        vehicle: [1, 1000, 20_000, 3000],
        ndv: &[1002, 1001, 1000],
        ends: &[(1_105_625, 1_105_626), (1_276_560, 1_276_561)],
        tenths: &[11_057, 12_766],
    },
    Worked {
        words: "the highest speeds of eight gears",
        vehicle: [1, 1000, 20_000, 3000],
        ndv: &[1007, 1006, 1005, 1004, 1003, 1002, 1001, 1000],
        ends: &[
            (1_100_136, 1_100_137),
            (1_270_215, 1_270_216),
            (1_271_479, 1_271_480),
            (1_272_746, 1_272_747),
            (1_274_015, 1_274_016),
            (1_275_286, 1_275_287),
            (1_276_560, 1_276_561),
        ],
        tenths: &[11_002, 12_703, 12_715, 12_728, 12_741, 12_753, 12_766],
    },
    Worked {
        words: "the lowest speeds, x 1.5",
        vehicle: [900, 39, 1000, 300],
        ndv: &[100_000, 99_999, 99_998, 99_997, 99_996, 99_995, 99_994, 99_993],
        ends: &[(319, 320), (389, 390), (389, 390), (389, 390), (389, 390), (389, 390), (389, 390)],
        tenths: &[4, 4, 4, 4, 4, 4, 4],
    },
    Worked {
        words: "the widest band, the least x",
        vehicle: [1, 1000, 20_000, 300],
        ndv: &[100_000, 99_999, 1000],
        ends: &[(9661, 9662), (11_631, 11_632)],
        tenths: &[97, 117],
    },
    Worked {
        words: "the widest band, x 1.5",
        vehicle: [3000, 305, 20_000, 300],
        ndv: &[100_000, 99_999, 1000],
        ends: &[(858, 859), (2828, 2829)],
        tenths: &[9, 29],
    },
    Worked {
        words: "the narrowest band above the highest idle, the least x",
        vehicle: [1, 1000, 3500, 3000],
        ndv: &[100_000, 50_000, 1000],
        ends: &[(3237, 3238), (6575, 6576)],
        tenths: &[33, 66],
    },
    Worked {
        words: "the narrowest band above the highest idle, x 1.5",
        vehicle: [3000, 305, 3500, 3000],
        ndv: &[100_000, 50_000, 1000],
        ends: &[(3014, 3015), (6128, 6129)],
        tenths: &[31, 62],
    },
    Worked {
        words: "the lowest rated speed, the least mass",
        vehicle: [1, 30, 1000, 500],
        ndv: &[1002, 1001, 1000],
        ends: &[(73_565, 73_566), (78_634, 78_635)],
        tenths: &[736, 787],
    },
    Worked {
        words: "the least mass with most power",
        vehicle: [828, 30, 1000, 500],
        ndv: &[1002, 1001, 1000],
        ends: &[(51_326, 51_327), (56_372, 56_373)],
        tenths: &[514, 564],
    },
    Worked {
        words: "the most mass with most power",
        vehicle: [3000, 1000, 20_000, 3000],
        ndv: &[100_000, 1001, 1000],
        ends: &[(7055, 7056), (874_653, 874_654)],
        tenths: &[71, 8747],
    },
    Worked {
        words: "ends of upshift 1 to 2 two apart, around 24.910",
        vehicle: [500, 231, 12_000, 1000],
        ndv: &[18_223, 12_000, 9000],
        ends: &[(24_909, 24_911), (46_994, 46_995)],
        tenths: &[250, 470],
    },
    Worked {
        words: "ends of upshift 2 to 3 two apart, around 30.932",
        vehicle: [720, 213, 11_800, 1150],
        ndv: &[17_036, 16_036, 9000],
        ends: &[(22_864, 22_865), (30_931, 30_933)],
        tenths: &[229, 310],
    },
    Worked {
        words: "upshift 1 to 2, rounded once the lower end would be 21,992",
        vehicle: [720, 147, 11_800, 1000],
        ndv: &[14_892, 12_000, 9000],
        ends: &[(21_991, 21_993), (36_292, 36_293)],
        tenths: &[220, 363],
    },
    Worked {
        words: "upshift 1 to 2, rounded once the upper end would be 31,552",
        vehicle: [350, 161, 11_800, 1100],
        ndv: &[14_814, 12_000, 9000],
        ends: &[(31_551, 31_553), (47_867, 47_868)],
        tenths: &[316, 479],
    },
    Worked {
        words: "upshift 2 to 3, rounded once the lower end would be 32,498",
        vehicle: [720, 184, 10_000, 1150],
        ndv: &[13_777, 12_777, 9000],
        ends: &[(23_715, 23_716), (32_497, 32_499)],
        tenths: &[238, 325],
    },
    Worked {
        words: "upshift 2 to 3, rounded once the upper end would be 35,983",
        vehicle: [350, 175, 11_000, 1000],
        ndv: &[16_033, 15_033, 9000],
        ends: &[(27_501, 27_502), (35_982, 35_984)],
        tenths: &[276, 360],
    },
    Worked {
        words: "upshift 1 to 2, with the upper end of e exactly 50.770",
        vehicle: [314, 736, 9242, 1050],
        ndv: &[9079, 9000, 8000],
        ends: &[(50_769, 50_770), (60_317, 60_318)],
        tenths: &[508, 604],
    },
    Worked {
        words: "upshift 2 to 3, with the upper end of e exactly 59.355",
        vehicle: [314, 736, 9242, 1050],
        ndv: &[20_000, 9146, 8000],
        ends: &[(23_047, 23_048), (59_354, 59_355)],
        tenths: &[231, 594],
    },
];

/// A vehicle of P, m, s and n with so many gears as there are ratios, under rule set 1.
pub(super) fn vehicle_with([power, mass, rated, idle]: [u32; 4], ratios: &[u32]) -> Vehicle {
    let mut ndv = [0; 8];
    ndv[..ratios.len()].copy_from_slice(ratios);
    Vehicle { power, mass, rated, idle, gears: ratios.len() as u32, ndv, rule_set: 1 }
}

impl Worked {
    pub(super) fn vehicle(&self) -> Vehicle {
        vehicle_with(self.vehicle, self.ndv)
    }

    fn directed(&self) -> Directed {
        assert_eq!(self.ends.len(), self.ndv.len() - 1, "{}", self.words);
        let ends = (1..).zip(self.ends.iter().copied()).collect();
        Directed { words: format!("taken: {}", self.words), vehicle: self.vehicle(), told: [0; 4], ends, to_first: None }
    }
}

/// What rule set 2 adds: words, n and s, the first three ratios, the ends of 2 to 1, and the least tenth at or above it.
type ToFirst = (&'static str, [u32; 2], [u32; 3], Speed, u32);

/// Annex 13's: 0.03 x 10,650 + 1,150 = 1,469.5 over 94.91 is 15.483089.
const TO_FIRST: [ToFirst; 12] = [
    ("Annex 13's machine, table Ap8-4: 15.5 km/h", [1150, 11_800], [13_366, 9491, 7616], (15_483, 15_484), 155),
    ("14.7777, above 3 to 2", [1000, 12_000], [10_000, 9000, 8000], (14_777, 14_778), 148),
    ("11.7 exactly", [1200, 8000], [20_000, 12_000, 9000], (11_700, 11_700), 117),
    ("13 exactly", [1000, 11_000], [10_400, 10_000, 6500], (13_000, 13_000), 130),
    ("515 over 1.001 is 514.4855, s is n + 500", [500, 1000], [1002, 1001, 1000], (51_448, 51_449), 515),
    ("the lowest, 321 over 999.99", [300, 1000], [100_000, 99_999, 99_998], (321, 322), 4),
    ("the highest, 3,510 over 10.01", [3000, 20_000], [1002, 1001, 1000], (350_649, 350_650), 3507),
    ("the greatest n with the least s", [3000, 3500], [23_000, 22_500, 1000], (13_400, 13_400), 134),
    ("133,000,000 is 12,849 x 10,351 + 1", [1000, 12_000], [10_400, 10_351, 8000], (12_849, 12_850), 129),
    ("133,000,000 is 10,351 x 12,849 + 1", [1000, 12_000], [13_000, 12_849, 8000], (10_351, 10_352), 104),
    ("129,250,000 is 80,933 x 1,597 - 1", [1000, 10_750], [10_400, 1597, 1000], (80_932, 80_933), 810),
    ("ratios beside it that would give 14 and 12", [1200, 8000], [11_700, 10_800, 10_029], (13_000, 13_000), 130),
];

/// The vehicles of [`TO_FIRST`] under both rule sets, with words, and what stands there; P and m have no part in it, but in whether the sheet is taken.
pub(super) fn to_first_vehicles() -> Vec<(String, Vehicle, Speed, u32)> {
    let mut all = Vec::new();
    for (words, [idle, rated], ratios, ends, tenth) in TO_FIRST {
        for (rule_set, power) in [(1, 720), (2, 720), (2, 1)] {
            let vehicle = Vehicle { rule_set, ..vehicle_with([power, 199, rated, idle], &ratios) };
            all.push((format!("taken: rule set {rule_set}, {words}"), vehicle, ends, tenth));
        }
    }
    all
}

/// By rule set 2 with the ends by hand, and by rule set 1 without any.
fn to_first((words, vehicle, ends, _): (String, Vehicle, Speed, u32)) -> Directed {
    Directed { words, vehicle, told: [0; 4], ends: Vec::new(), to_first: (vehicle.rule_set == 2).then_some(ends) }
}

/// A speed of a whole number of 0.1 km/h that is below the lower end of a shift speed, or at it, by less than the first rounding takes is itself the
/// lower end, and one that is above the upper end is the upper end. One between them has an end on each side.
fn beside(speed: &Beside) -> Directed {
    let at = i128::from(100 * speed.speed);
    let ends = match (speed.end, speed.away) {
        ("lower", ..=0) => (at, at + 1),
        ("upper", 1..) => (at - 1, at),
        _ => (at - 1, at + 1),
    };
    let gear = if speed.first { 1 } else { 2 };
    let words = format!("taken: {}.{} km/h is {}", speed.speed / 10, speed.speed % 10, speed.words());
    Directed { words, vehicle: speed.vehicle(3), told: [0; 4], ends: vec![(gear, ends)], to_first: None }
}

/// All of them, in the order of the file.
pub fn cases() -> Vec<Directed> {
    let judged = of_vehicle().into_iter().map(|directed| Directed {
        words: directed.words,
        vehicle: directed.case.vehicle,
        told: directed.told,
        ends: Vec::new(),
        to_first: None,
    });
    WORKED
        .iter()
        .map(Worked::directed)
        .chain(BESIDE.iter().map(beside))
        .chain(judged)
        .chain(to_first_vehicles().into_iter().map(to_first))
        .collect()
}

/// The text of vectors/directed_speeds.txt. Stops where the second implementation does not say what is expected.
pub fn text() -> String {
    let mut text = String::from(
        "# P m s n ng ndv1..ndv8 rule_set number place; then both ends of each upshift speed from gear 1 on, in 0.001 km/h; then, under \
         rule set 2, those of the downshift 2 to 1\n",
    );
    for Directed { words, vehicle, told, ends, to_first } in cases() {
        let answer = by_plain(&vehicle);
        assert_eq!(answer.told, told, "{words}");
        ends.iter().for_each(|(gear, ends)| assert_eq!(answer.upshifts[gear - 1], *ends, "{words}"));
        assert_eq!(answer.to_first.is_some(), told[0] == 0 && vehicle.rule_set == 2, "{words}");
        assert!(to_first.is_none() || answer.to_first == to_first, "{words}");
        text += &format!("# {words}\n{} {}\n", vehicle_text(&vehicle), answer_text(&answer));
    }
    text
}
