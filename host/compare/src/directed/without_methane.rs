//! Directed cases of hydrocarbons without methane, the fifth gas (02, M-108).

use ylhovesko::bags::{Bag, Efficiencies, Gases, Part, Reading, Sheet, Triple};

use super::bags::{of_part, reading, reading_words, readings, units, Cases, Field, DENSITY_OF_FIFTH, LIMIT_OF_FIFTH, UNUSABLE};
use super::two_ends::{weigh, HALF, USABLE};
use crate::bags::place;

pub(super) const GROUPS: [fn(&mut Cases); 18] = [
    ranges,
    ranges_where_absent,
    close_efficiencies,
    absent,
    third_part,
    unusable,
    other_kinds,
    unusable_where_absent,
    others_not_fitted,
    messages,
    by_formula,
    free_ends,
    air_below_zero,
    total_hc_in_g,
    total_hc_in_fuel,
    own_density,
    verdicts,
    greatest,
];

/// Where a cutter's readings stand, in 01's order.
fn cutters() -> Vec<[u32; 3]> {
    readings().into_iter().filter(|[_, gas, _]| *gas == 5).collect()
}

fn take_cutter(s: &mut Sheet, at: [u32; 3]) {
    *reading(s, at) = Reading::NOT_FITTED;
}

/// Every cutter out of the sheet.
fn take_all(s: &mut Sheet) {
    cutters().into_iter().for_each(|at| take_cutter(s, at));
}

fn set(methane: u32, ethane: u32) -> impl Fn(&mut Sheet) {
    move |s| s.efficiencies = Efficiencies { methane, ethane }
}

/// Efficiencies out of field 13's range, which are refused "present or not".
const OUT_OF_RANGE: [[u32; 2]; 10] = [
    [1001, 1000],
    [0, 1001],
    [1001, 1001],
    [1001, 1501],
    [u32::MAX, 1000],
    [0, u32::MAX],
    [65_536, 1000],
    [0, 65_536 + 1000],
    [256 + 1000, 1000],
    [1 << 31, 1 << 31],
];

fn ranges(cases: &mut Cases) {
    for [methane, ethane] in OUT_OF_RANGE {
        let words = format!("efficiencies {methane} and {ethane}");
        cases.refused([11, 0, 13, 0], &words, set(methane, ethane));
        cases.refused([11, 0, 13, 0], &format!("{words}, and the cutter not fitted"), |s| {
            set(methane, ethane)(s);
            take_all(s);
        });
    }
    for [methane, ethane] in [[0, 1000], [0, 500], [500, 1000]] {
        cases.taken(&format!("efficiencies {methane} and {ethane}"), set(methane, ethane));
    }
    for [methane, ethane] in [[0, 0], [1000, 0], [0, 1000], [1000, 1000]] {
        cases.absent(&format!("efficiencies {methane} and {ethane}"), |s| {
            set(methane, ethane)(s);
            take_all(s);
        });
    }
}

/// "11 and 12 cover its other fields, present or not": limit and density, as field 12 and as field 9 of each part.
fn ranges_where_absent(cases: &mut Cases) {
    let Field { number, name, least, most, set } = LIMIT_OF_FIFTH;
    let limit = |value: i64| {
        move |s: &mut Sheet| {
            set(s, value);
            take_all(s);
        }
    };
    [least - 1, most + 1].into_iter().for_each(|value| cases.refused([11, 0, number, 0], &format!("{name} {value}, absent"), limit(value)));
    [least, most].into_iter().for_each(|value| cases.absent(&format!("{name} {value}"), limit(value)));
    let Field { number, name, least, most, set } = DENSITY_OF_FIFTH;
    for part in 1..=3 {
        let density = |value: i64| {
            move |s: &mut Sheet| {
                set(of_part(s, part), value);
                take_all(s);
            }
        };
        for value in [least - 1, most + 1] {
            cases.refused([11, part, number, 0], &format!("{name} {value}, absent"), density(value));
        }
        [least, most].into_iter().for_each(|value| cases.absent(&format!("{name} {value} in part {part}"), density(value)));
    }
}

/// Efficiencies with less than 500 between them, and those with just as much.
const TOO_CLOSE: [[u32; 2]; 14] = [
    [0, 499],
    [1, 500],
    [499, 998],
    [500, 999],
    [501, 1000],
    [0, 0],
    [1000, 1000],
    [1000, 0],
    [1000, 500],
    [500, 0],
    [700, 200],
    [980, 80],
    [400, 399],
    [1000, 999],
];
const JUST_APART: [[u32; 2]; 4] = [[0, 500], [1, 501], [499, 999], [500, 1000]];

/// "19 where the fifth gas is present and ethane efficiency is under methane efficiency plus 500, no place."
fn close_efficiencies(cases: &mut Cases) {
    let of_class = |class: u32, [methane, ethane]: [u32; 2]| {
        move |s: &mut Sheet| {
            set(methane, ethane)(s);
            (s.class, s.count) = (class, if class == 3 { 3 } else { 2 });
        }
    };
    for class in 1..=3 {
        for apart in TOO_CLOSE {
            cases.refused([19, 0, 0, 0], &format!("class {class}, efficiencies {apart:?}"), of_class(class, apart));
        }
        for apart in JUST_APART {
            cases.taken(&format!("class {class}, efficiencies {apart:?}"), of_class(class, apart));
        }
    }
    for (at, apart) in cutters().into_iter().cycle().zip(TOO_CLOSE) {
        cases.absent(&format!("efficiencies {apart:?}, not fitted {}", reading_words(at)), |s| {
            of_class(3, apart)(s);
            take_cutter(s, at);
        });
    }
    for class in 1..=2 {
        cases.refused([19, 0, 0, 0], &format!("class {class}, and a third part without a cutter"), |s| {
            of_class(class, [80, 579])(s);
            [1, 2].iter().for_each(|&side| take_cutter(s, [3, 5, side]));
        });
    }
}

/// "'Not fitted' for the cutter reading of bag or air in any part leaves the fifth absent for the whole test, with no verdict." Whatever bits come with it are not
/// read.
fn absent(cases: &mut Cases) {
    for (class, parts) in [(1, 2), (2, 2), (3, 3)] {
        for at in cutters().into_iter().filter(|[part, ..]| *part <= parts) {
            cases.absent(&format!("class {class}, not fitted {}", reading_words(at)), |s| {
                (s.class, s.count) = (class, parts);
                take_cutter(s, at);
            });
        }
        cases.absent(&format!("class {class}, not fitted anywhere"), |s| {
            (s.class, s.count) = (class, parts);
            take_all(s);
        });
    }
    for (bits, at) in [0x3f80_0000, 0x7fc0_0000, 0xbf80_0000, 0x7f80_0000, 0x8000_0000, u32::MAX].into_iter().zip(cutters()) {
        let not_fitted = Reading { bits, ..Reading::NOT_FITTED };
        cases.absent(&format!("not fitted with bits {bits:08x}, {}", reading_words(at)), |s| *reading(s, at) = not_fitted);
    }
}

/// "Parts past the class's number are not read": their cutter neither leaves the fifth gas absent nor is refused.
fn third_part(cases: &mut Cases) {
    for class in 1..=2 {
        for (words, message) in [("not fitted", Reading::NOT_FITTED), ("over range", Reading::OVER_RANGE), ("-1 ppm", Reading::ppm(-1.0))] {
            for side in 1..=2 {
                let at = [3, 5, side];
                cases.weighed(&format!("class {class}, {words} {}", reading_words(at)), [2, 5], [160, 160], |s| {
                    (s.class, s.count) = (class, 2);
                    s.parts[1].bag.hc = units(10);
                    *reading(s, at) = message;
                });
            }
        }
    }
}

/// "12 cover[s] its other fields": gas 5 for every message that is neither usable nor not fitted.
fn unusable(cases: &mut Cases) {
    for at in [[1, 5, 1], [2, 5, 2], [3, 5, 1]] {
        let [part, gas, side] = at;
        for (words, kind, bits) in UNUSABLE.into_iter().filter(|(_, kind, _)| *kind != Reading::NOT_FITTED.kind) {
            let change = |s: &mut Sheet| *reading(s, at) = Reading { kind, bits };
            cases.refused([12, part, gas, side], &format!("{words}, {}", reading_words(at)), change);
        }
    }
}

/// A kind that is none of the four counts as over range and does not leave the fifth gas absent, also where it has the low bits of "not fitted".
fn other_kinds(cases: &mut Cases) {
    for (kind, at) in [4, 7, 255, 256 + 3, 65_536 + 3, (1 << 31) + 3, u32::MAX].into_iter().zip(cutters().into_iter().cycle()) {
        let [part, gas, side] = at;
        let other = Reading { kind, bits: 0x3f80_0000 };
        cases.refused([12, part, gas, side], &format!("kind {kind}, {}", reading_words(at)), |s| *reading(s, at) = other);
        cases.refused([12, part, gas, side], &format!("kind {kind}, {}; not fitted, every other cutter", reading_words(at)), |s| {
            take_all(s);
            *reading(s, at) = other;
        });
    }
}

/// An unusable reading of one cutter, where another leaves the fifth gas absent: before it and after it, in the same part and in another.
fn unusable_where_absent(cases: &mut Cases) {
    for at in cutters() {
        let [part, gas, side] = at;
        for other in cutters().into_iter().filter(|other| *other != at) {
            let words = format!("over range, {}; not fitted, {}", reading_words(at), reading_words(other));
            cases.refused([12, part, gas, side], &words, |s| {
                *reading(s, at) = Reading::OVER_RANGE;
                take_cutter(s, other);
            });
        }
        cases.refused([12, part, gas, side], &format!("-1 ppm, {}; not fitted, every other cutter", reading_words(at)), |s| {
            take_all(s);
            *reading(s, at) = Reading::ppm(-1.0);
        });
    }
}

/// "Not fitted" of the first four is refused as it was, with the cutter and without, and also before what gas 5 has.
fn others_not_fitted(cases: &mut Cases) {
    for at in readings().into_iter().filter(|[_, gas, _]| *gas < 5) {
        let [part, gas, side] = at;
        cases.refused([12, part, gas, side], &format!("not fitted, {}, and no cutter", reading_words(at)), |s| {
            take_all(s);
            *reading(s, at) = Reading::NOT_FITTED;
        });
        cases.refused([12, part, gas, side], &format!("not fitted, {}, before every cutter from there on", reading_words(at)), |s| {
            cutters().into_iter().filter(|[later, ..]| *later >= part).for_each(|at| *reading(s, at) = Reading::OVER_RANGE);
            *reading(s, at) = Reading::NOT_FITTED;
        });
    }
    for part in 1..=2 {
        cases.refused([12, part, 5, 2], "over range, air of the cutter, before HC not fitted in the next part", |s| {
            *reading(s, [part, 5, 2]) = Reading::OVER_RANGE;
            *reading(s, [part + 1, 1, 1]) = Reading::NOT_FITTED;
        });
    }
}

/// The cutter's reading has two ends as any other: in the bag they are taken from nothing, and in the air from less than nothing.
fn messages(cases: &mut Cases) {
    for (words, kind, bits, [lower, upper]) in USABLE {
        let [bag, air] = [[2, 5, 1], [1, 5, 2]];
        let words = |at| format!("{words} is {lower} and {upper} units, {}", reading_words(at));
        cases.weighed(&words(bag), [2, 5], [-16 * upper, -16 * lower], |s| *reading(s, bag) = Reading { kind, bits });
        cases.weighed(&words(air), [1, 5], [16 * lower, 16 * upper], |s| *reading(s, air) = Reading { kind, bits });
    }
}

/// Efficiencies of methane and of ethane, units of HC and behind the cutter, and the units without methane, rounded down and up.
const BY_FORMULA: [([u32; 2], [u32; 2], [i128; 2]); 25] = [
    // document 003's example: 27.0 and 18.0 ppm with 0.04 and 0.98, and 2,027,520 / 940
    ([40, 980], [6912, 4608], [2156, 2157]),
    ([0, 1000], [100, 30], [70, 70]),
    ([200, 700], [100, 30], [100, 100]),
    ([500, 1000], [100, 30], [40, 40]),
    ([100, 900], [100, 30], [75, 75]),
    ([0, 500], [100, 30], [140, 140]),
    ([100, 900], [100, 90], [0, 0]),
    ([100, 900], [100, 98], [-10, -10]),
    // 1,000 / 999, 998,000 / 999 and 999,000 / 999
    ([0, 999], [1, 0], [1, 2]),
    ([0, 999], [998, 0], [998, 999]),
    ([0, 999], [999, 0], [1000, 1000]),
    ([0, 999], [1, 1], [0, 0]),
    // the same below zero
    ([1, 1000], [0, 1], [-2, -1]),
    ([1, 1000], [0, 998], [-999, -998]),
    ([1, 1000], [0, 999], [-1000, -1000]),
    ([1, 1000], [1, 1], [-1, 0]),
    // 333 x 997 - 332,000 is 1, 667 x 997 - 665,000 is -1, 1,000 x 997 - 997,000 is 0
    ([3, 1000], [333, 332], [0, 1]),
    ([3, 1000], [667, 665], [-1, 0]),
    ([3, 1000], [1000, 997], [0, 0]),
    ([250, 1000], [4, 3], [0, 0]),
    ([250, 750], [1, 0], [1, 2]),
    ([500, 1000], [16_777_216, 16_777_216], [-16_777_216, -16_777_216]),
    ([0, 500], [16_777_216, 0], [33_554_432, 33_554_432]),
    ([0, 500], [0, 16_777_216], [-33_554_432, -33_554_432]),
    // 501 x 33,487,457 is 16,777,215,957
    ([0, 501], [16_777_216, 0], [33_487_457, 33_487_458]),
];

/// "(Reading without cutter x (1 - methane efficiency) - reading with cutter) / (ethane efficiency - methane efficiency), worked in bag and in air .. both signed".
fn by_formula(cases: &mut Cases) {
    for (part, (apart, [hc, cutter], [lower, upper])) in [1, 2, 3].into_iter().cycle().zip(BY_FORMULA) {
        let put = |side: u32| {
            move |s: &mut Sheet| {
                set(apart[0], apart[1])(s);
                (*reading(s, [part, 1, side]), *reading(s, [part, 5, side])) = (units(hc), units(cutter));
            }
        };
        let words = format!("efficiencies {apart:?}, {hc} units of HC and {cutter} behind the cutter");
        cases.weighed(&format!("{words}, in the bag"), [part, 5], [16 * lower, 16 * upper], put(1));
        cases.weighed(&format!("{words}, in the air"), [part, 5], [-16 * upper, -16 * lower], put(2));
    }
}

/// Each end of HC with the other one of the cutter: efficiencies, so many halves of a unit of HC and behind the cutter, and the units without methane.
const FREE_ENDS: [([u32; 2], [f32; 2], [i128; 2]); 8] = [
    ([0, 1000], [1.0, 0.0], [0, 1]),
    ([0, 1000], [0.0, 1.0], [-1, 0]),
    ([0, 1000], [1.0, 1.0], [-1, 1]),
    // -1,000 / 500 and 500 / 500
    ([500, 1000], [1.0, 1.0], [-2, 1]),
    // (500 - 2,000) / 500 and (1,000 - 1,000) / 500
    ([500, 1000], [3.0, 3.0], [-3, 0]),
    // (999 - 2,000) / 999 and (1,998 - 1,000) / 999
    ([1, 1000], [3.0, 3.0], [-2, 1]),
    // (1,000 - 1,000) / 600 and 2,000 / 600
    ([0, 600], [3.0, 1.0], [0, 4]),
    // -2,000 / 600 and (1,000 - 1,000) / 600
    ([0, 600], [1.0, 3.0], [-4, 0]),
];

fn free_ends(cases: &mut Cases) {
    for (part, (apart, halves, [lower, upper])) in [1, 2, 3].into_iter().cycle().zip(FREE_ENDS) {
        let put = |sides: &'static [u32]| {
            move |s: &mut Sheet| {
                set(apart[0], apart[1])(s);
                for &side in sides {
                    let [hc, cutter] = halves.map(|halves| Reading::ppm(halves / 512.0));
                    (*reading(s, [part, 1, side]), *reading(s, [part, 5, side])) = (hc, cutter);
                }
            }
        };
        let words = format!("efficiencies {apart:?}, {halves:?} halves of a unit of HC and behind the cutter");
        cases.weighed(&format!("{words}, in the bag"), [part, 5], [16 * lower, 16 * upper], put(&[1]));
        cases.weighed(&format!("{words}, in the air"), [part, 5], [-16 * upper, -16 * lower], put(&[2]));
        let both = [16 * (lower - upper), 16 * (upper - lower)];
        cases.weighed(&format!("{words}, in bag and air"), [part, 5], both, put(&[1, 2]));
    }
}

/// "The correction then takes these ends and those of G each on its own": of air below zero the less is added the more G there is. 16,000,000 units are taken
/// as Q - G; where CO puts an end of G at half of Q and the other 10 off, a unit is 8, and 7.999999 or 8.000001.
fn air_below_zero(cases: &mut Cases) {
    let far = Reading::ppm(62_500.0);
    for part in 1..=3 {
        cases.weighed("16,000,000 units behind the cutter in the air, and G is 0 and 10", [part, 5], [255_999_990, 256_000_000], |s| {
            (of_part(s, part).air.cutter, of_part(s, part).bag.co2) = (far, HALF);
        });
        cases.weighed("the same with HC, and G is 0 and 20", [part, 5], [255_999_980, 256_000_016], |s| {
            s.triple.wh = 20;
            (of_part(s, part).air.cutter, of_part(s, part).bag.hc) = (far, HALF);
        });
        cases.weighed("16,000,000 units of HC in the air, and G is 0 and 10", [part, 5], [-256_000_000, -255_999_990], |s| {
            (of_part(s, part).air.hc, of_part(s, part).bag.co2) = (far, HALF);
        });
    }
    let near = |co2: u32, hc: f32, cutter: f32| {
        move |s: &mut Sheet| {
            s.triple.wc = 10;
            let Part { bag, air, .. } = of_part(s, 2);
            (bag.co2, bag.co) = (units(co2), HALF);
            (air.hc, air.cutter) = (Reading::ppm(hc / 512.0), Reading::ppm(cutter / 512.0));
        }
    };
    for (words, co2, [below, above], at_half) in [
        ("up to half of Q", 12_799_999, [8, 9], [[-9, 9], [0, 9], [-9, 0], [8, 17], [-17, -8]]),
        ("from half of Q on", 12_800_000, [7, 8], [[-8, 8], [0, 8], [-8, 0], [7, 16], [-16, -7]]),
    ] {
        let halves = [("-1 to 1", 1.0, 1.0), ("-1 to 0", 0.0, 1.0), ("0 to 1", 1.0, 0.0), ("-2 to -1", 0.0, 3.0), ("1 to 2", 3.0, 0.0)];
        for ((units, hc, cutter), ends) in halves.into_iter().zip(at_half) {
            cases.weighed(&format!("{units} units in the air, and G {words}"), [2, 5], ends, near(co2, hc, cutter));
        }
        cases.weighed(&format!("-1 units in the air, and G {words}"), [2, 5], [below, above], near(co2, 0.0, 2.0));
    }
}

/// "G .. stay[s] on total HC": where the cutter leaves no methane out of HC, and where the fifth gas is twice HC.
fn total_hc_in_g(cases: &mut Cases) {
    for part in 1..=3 {
        // 10 x 16,777,216 + 20 HC + CO against 256,000,000
        let full = |hc: u32, co: u32, cutter: u32| {
            move |s: &mut Sheet| {
                (s.triple, s.efficiencies) = (Triple { d: 100, wc: 1, wh: 20 }, Efficiencies { methane: 0, ethane: 500 });
                let bag = &mut of_part(s, part).bag;
                (bag.hc, bag.co, bag.co2, bag.cutter) = (units(hc), units(co), Reading::ppm(65_536.0), units(cutter));
            }
        };
        cases.refused([13, part, 0, 0], "G is Q by HC, all of which is behind the cutter", full(4_411_392, 0, 4_411_392));
        cases.refused([13, part, 0, 0], "G is Q by HC, and no cutter", |s| {
            full(4_411_392, 0, 0)(s);
            take_all(s);
        });
        cases.taken(&format!("G is Q - 1, and Q with twice as much HC, in part {part}"), full(4_411_391, 19, 0));
        // G is a quarter of Q, and so three quarters of 16 units of air are taken off
        for (words, cutter) in [("no HC", 3_200_000), ("twice HC", 0)] {
            cases.weighed(&format!("16 units of CO in the air, G a quarter of Q, {words} without methane"), [part, 2], [-192, -192], |s| {
                full(3_200_000, 0, cutter)(s);
                (s.triple.wc, of_part(s, part).bag.co2, of_part(s, part).air.co) = (0, units(0), units(16));
            });
        }
    }
}

/// "The fuel figure stay[s] on total HC": 64 units of HC in every bag are 1,024 micrograms/km and 256 microlitres.
fn total_hc_in_fuel(cases: &mut Cases) {
    for (words, cutter, ethane, nmhc) in [("nothing", 64, 1000, 0), ("twice HC", 0, 500, 2048), ("less than nothing", 80, 1000, -256)] {
        let put = |s: &mut Sheet| {
            weigh(s);
            set(0, ethane)(s);
            (s.fuel.k, s.fuel.hc, s.fuel.density) = (1500, 1000, 600);
            s.parts.iter_mut().for_each(|part| (part.bag.hc, part.bag.cutter) = (units(64), units(cutter)));
        };
        let known = [(place::weighted(1), 1024), (place::weighted(5), nmhc), (place::FUEL, 256)].map(|(at, n)| [(at, n), (at + 1, n)]);
        cases.figures(&format!("fuel by HC, {words} without methane"), put, known.as_flattened());
    }
}

/// Its own density and no other, nothing of Kh, and the distance.
fn own_density(cases: &mut Cases) {
    for part in 1..=3 {
        let put = |change: fn(&mut Part)| {
            move |s: &mut Sheet| {
                of_part(s, part).bag.hc = units(1);
                change(of_part(s, part));
            }
        };
        cases.weighed("a unit, its density doubled", [part, 5], [32, 32], put(|p| p.density.nmhc = 40_000));
        let others = put(|p| p.density = Gases { nmhc: 20_000, ..Gases::of([40_000; 5]) });
        cases.weighed("a unit, every other density doubled", [part, 5], [16, 16], others);
        cases.weighed("a unit, in humid air", [part, 5], [16, 16], put(|p| (p.humidity, p.saturation) = (500, 3169)));
        let halved = |s: &mut Sheet| {
            weigh(s);
            put(|p| p.distance = 500)(s);
        };
        let known = [(place::mass(part, 5), 16), (place::rate(part, 5), 32)].map(|(at, n)| [(at, n), (at + 1, n)]);
        cases.figures(&format!("a unit of HC in part {part}, over half the distance"), halved, known.as_flattened());
    }
}

/// 0 pass, 1 fail, 2 undecided: every bag so many halves of a unit of HC, and so many behind the cutter.
fn verdicts(cases: &mut Cases) {
    for (words, halves, limits) in [
        ("-16 to 16", [1.0, 1.0], [(0, 2), (15, 2), (16, 0)]),
        ("16", [2.0, 0.0], [(0, 1), (15, 1), (16, 0)]),
        ("16 to 32", [3.0, 0.0], [(15, 1), (16, 2), (32, 0)]),
        ("-16", [0.0, 2.0], [(0, 0), (1, 0), (16, 0)]),
        ("-16 to 0", [0.0, 1.0], [(0, 0), (1, 0), (16, 0)]),
    ] {
        for (limit, verdict) in limits {
            let put = |s: &mut Sheet| {
                weigh(s);
                s.limits.nmhc = limit;
                let [hc, cutter] = halves.map(|halves| Reading::ppm(halves / 512.0));
                s.parts.iter_mut().for_each(|part| (part.bag.hc, part.bag.cutter) = (hc, cutter));
            };
            cases.figures(&format!("{words} micrograms/km without methane, limit {limit}"), put, &[(place::verdict(5), verdict)]);
        }
    }
    cases.absent("a limit that HC fails, and 10^12", |s| {
        weigh(s);
        s.limits = Gases { nmhc: 1_000_000_000_000, ..Gases::default() };
        s.parts.iter_mut().for_each(|part| part.bag.hc = units(1));
        take_all(s);
    });
}

/// The greatest rate and the least: 10^9 ml at 110,000 Pa and -40 degrees, the greatest density, 100 m, and 65,536 ppm of HC on the one side and behind the cutter on
/// the other, where a unit of either counts twice.
fn greatest(cases: &mut Cases) {
    let full = Reading::ppm(65_536.0);
    let empty = Bag::of([Reading::ppm(0.0); 5]);
    let (hc, cutter) = (Bag { hc: full, ..empty }, Bag { cutter: full, ..empty });
    for (words, bag, air, mass, rate, verdict) in [
        ("greatest", hc, cutter, [751_432_142_132, 751_432_142_685], [7_514_321_421_320, 7_514_321_426_850], 1),
        ("least", cutter, hc, [-751_432_142_685, -751_432_142_132], [-7_514_321_426_850, -7_514_321_421_320], 0),
    ] {
        let put = |s: &mut Sheet| {
            (s.triple.wh, s.limits.nmhc) = (0, 1_000_000_000_000);
            set(0, 500)(s);
            for part in &mut s.parts {
                (part.pump, part.revolutions, part.barometer, part.depression, part.temperature) = (20_000, 50_000, 110_000, 0, -400);
                (part.distance, part.density.nmhc, part.bag, part.air) = (100, 2_100_000, bag, air);
            }
        };
        let places = (1..=3).flat_map(|part| [(place::mass(part, 5), mass), (place::rate(part, 5), rate)]);
        let ends = places.chain([(place::weighted(5), rate)]).flat_map(|(at, [lower, upper])| [(at, lower), (at + 1, upper)]);
        let known: Vec<(usize, i128)> = ends.chain([(place::verdict(5), verdict)]).collect();
        cases.figures(&format!("the {words} rate"), put, &known);
    }
}
