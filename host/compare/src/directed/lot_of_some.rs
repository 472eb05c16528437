//! Directed lists of records of which some have hydrocarbons without methane, the fifth gas (02, M-108).

use ylhovesko::bags::Ends;
use ylhovesko::lot::Record;

use super::lot::{machine, machines, of_machines, put, Cases, Row, BEYOND, FAR, FAULTY, GASES, HALVES, THIRDS, VERDICTS, WORST};
use crate::lot::{OfGas, OF_NONE};

pub(super) const GROUPS: [fn(&mut Cases); 12] = [
    of_two_and_three,
    none_has_it,
    one_alone,
    any_number,
    mean_of_some,
    longest,
    apart_from_others,
    faulty,
    faulty_where_absent,
    earliest,
    others_faulty,
    too_many,
];

/// What a record has of the fifth gas: the number that says whether it has it, its ends and its verdict.
type Fifth = (u32, [i64; 2], u32);

/// A record that does not have it, as that of an accepted test is.
const NONE: Fifth = (0, [0, 0], 0);

/// Records that do not have it: as that of an accepted test is, and with ends and verdicts that would change every figure if they were read.
const NOT_READ: [Fifth; 5] = [NONE, (0, [FAR, FAR], 1), (0, [-FAR, FAR], 2), (0, [-FAR, -FAR], 3), (0, [FAR - 1, FAR], 0)];

/// A machine with so much of the fifth gas.
fn with((has_nmhc, [lower, upper], verdict): Fifth) -> Record {
    let mut record = Record { has_nmhc, ..machine([1, 2], 1) };
    (record.weighted.nmhc, record.verdicts.nmhc) = (Ends { lower, upper }, verdict);
    record
}

fn of(counts: [usize; 3], sum: [i128; 2], mean: [i128; 2], worst: usize) -> OfGas {
    OfGas { counts, sum, mean: Some(mean), worst: Some(worst) }
}

impl Cases {
    /// A list with so much of the fifth gas in each record, and what the sheet has of it.
    fn fifth(&mut self, words: &str, each: &[Fifth], of_fifth: OfGas) {
        let records = each.iter().copied().map(with).collect();
        self.with_fifth(words, records, [of_machines(each.len()); 4], of_fifth);
    }

    /// What the other gases had in a row as the fifth, with records that do not have it at these places of the list: the index counts them, and nothing else does.
    fn among<const N: usize>(&mut self, (words, records, counts, sum, mean, worst): Row<N>, places: &[usize]) {
        let mut each = records.map(|[lower, upper, verdict]| (1, [lower, upper], verdict as u32)).to_vec();
        let mut index = worst;
        for (&place, other) in places.iter().zip(NOT_READ.into_iter().cycle()) {
            each.insert(place, other);
            index += usize::from(place <= index);
        }
        self.fifth(&format!("NMHC {words}; without it {places:?}"), &each, of(counts, sum, mean, index));
    }
}

/// Every row of the other gases: all records have the fifth, and others without it stand before them, after them, and on both sides of each.
fn of_two_and_three(cases: &mut Cases) {
    for row in HALVES {
        [&[][..], &[0], &[1], &[2], &[0, 2, 4]].iter().for_each(|places| cases.among(row, places));
    }
    for row in THIRDS.into_iter().chain(WORST).chain(VERDICTS) {
        [&[][..], &[0, 1], &[1, 3], &[3, 4], &[0, 2, 4, 6]].iter().for_each(|places| cases.among(row, places));
    }
}

/// "None is as an empty list": whatever the records have besides.
fn none_has_it(cases: &mut Cases) {
    for count in [1, 2, 3, 256] {
        cases.fifth(&format!("none of {count} has NMHC"), &vec![NONE; count], OF_NONE);
        let each: Vec<Fifth> = NOT_READ.into_iter().rev().cycle().take(count).collect();
        cases.fifth(&format!("none of {count} has NMHC, with ends and verdicts that are not read"), &each, OF_NONE);
    }
    for (words, ends) in FAULTY {
        cases.fifth(&format!("none of 2 has NMHC, {words}"), &[(0, ends, 1), (0, ends, 2)], OF_NONE);
    }
}

/// The index is that of the list, which no other record of the fifth gas leads to.
fn one_alone(cases: &mut Cases) {
    let verdicts = [(1, [1, 0, 0]), (2, [0, 1, 0]), (3, [0, 0, 1]), (0, [0, 0, 1])];
    for (count, index) in [(1, 0), (2, 0), (2, 1), (3, 0), (3, 1), (3, 2), (255, 254), (256, 0), (256, 127), (256, 128), (256, 255)] {
        for (ends, (verdict, counts)) in [[-7, -5], [-FAR, -FAR], [0, 0], [3, 4]].into_iter().zip(verdicts) {
            let mut each: Vec<Fifth> = NOT_READ.into_iter().cycle().take(count).collect();
            each[index] = (1, ends, verdict);
            let both = ends.map(i128::from);
            let words = format!("record {index} of {count} alone has NMHC, {ends:?}, verdict {verdict}");
            cases.fifth(&words, &each, of(counts, both, both, index));
        }
    }
}

/// Any number but 0 says that a record has it, also one that has nothing in its low bits.
fn any_number(cases: &mut Cases) {
    for has in [1, 2, 3, 4, 255, 256, 257, 65_536, 1 << 24, i32::MAX as u32, 1 << 31, u32::MAX] {
        let each = [NOT_READ[1], (has, [5, 9], 2), NOT_READ[3], (has, [-2, 4], 1)];
        cases.fifth(&format!("{has} for present"), &each, of([1, 1, 0], [3, 13], [1, 7], 1));
        let mut records: Vec<Record> = each.into_iter().map(with).collect();
        put(&mut records, [3, 5], [9, 8]);
        cases.faulty(3, &format!("NMHC, a lower end one above its upper end, {has} for present"), records);
    }
}

/// "The mean's ends rounded outward", over those that have it and not over the list: so many records of each, what those have that have it, and the mean.
const OF_SOME: [(usize, usize, [i64; 2], [i128; 2]); 8] = [
    (1, 1, [1, 3], [1, 3]),
    (1, 2, [-5, 5], [-5, 5]),
    (2, 1, [1, 1], [1, 1]),
    (3, 4, [-2, 7], [-2, 7]),
    (128, 128, [FAR - 1, FAR], [9_999_999_999_999, 10_000_000_000_000]),
    (255, 1, [-FAR, -FAR], [-10_000_000_000_000; 2]),
    (1, 255, [255, 256], [255, 256]),
    (7, 249, [-1, 1], [-1, 1]),
];

fn mean_of_some(cases: &mut Cases) {
    for (having, others, ends, mean) in OF_SOME {
        let sum = mean.map(|end| end * having as i128);
        let (ours, theirs) = (vec![(1, ends, 3); having], NOT_READ.into_iter().cycle().take(others).collect::<Vec<Fifth>>());
        let words = |place| format!("{having} of {} have NMHC, {ends:?}, {place}", having + others);
        cases.fifth(&words("first"), &[ours.clone(), theirs.clone()].concat(), of([0, 0, having], sum, mean, 0));
        cases.fifth(&words("last"), &[theirs, ours].concat(), of([0, 0, having], sum, mean, others));
    }
    // a third and two thirds, where a fifth of the list would be whole
    let thirds = [NONE, (1, [0, 5], 1), NONE, (1, [2, 3], 2), (1, [3, 6], 2)];
    cases.fifth("5/3 and 14/3 of three in five", &thirds, of([1, 2, 0], [5, 14], [1, 5], 4));
    let below = [(1, [-6, -3], 3), NONE, (1, [-3, -2], 3), NONE, (1, [-5, 0], 1)];
    cases.fifth("-14/3 and -5/3 of three in five", &below, of([1, 0, 2], [-14, -5], [-5, -1], 4));
    let half = [(1, [0, 1], 2), NONE, NONE, (1, [1, 2], 1)];
    cases.fifth("1/2 and 3/2 of two in four", &half, of([1, 1, 0], [1, 3], [0, 2], 3));
}

/// The sums at both ends: 256 x 10^13 either way, and with the last record left out.
fn longest(cases: &mut Cases) {
    let (far, sum) = (i128::from(FAR), 2_560_000_000_000_000);
    cases.fifth("256 have NMHC, 10^13", &[(1, [FAR, FAR], 1); 256], of([256, 0, 0], [sum; 2], [far; 2], 0));
    cases.fifth("256 have NMHC, -10^13", &[(1, [-FAR, -FAR], 2); 256], of([0, 256, 0], [-sum; 2], [-far; 2], 0));
    cases.fifth("256 have NMHC, -10^13 and 10^13", &[(1, [-FAR, FAR], 3); 256], of([0, 0, 256], [-sum, sum], [-far, far], 0));
    let mut all_but_last = [(1, [-FAR, FAR], 3); 256];
    all_but_last[255] = (0, [-FAR, FAR], 3);
    cases.fifth("255 of 256 have NMHC, -10^13 and 10^13", &all_but_last, of([0, 0, 255], [far - sum, sum - far], [-far, far], 0));
    // 0 to 127 at every other place, from the second on: 127 x 128 / 2
    let each: Vec<Fifth> = (0..256).map(|i| (i % 2, [i64::from(i / 2); 2], 1 + i % 4)).collect();
    cases.fifth("every other of 256 has NMHC, rising", &each, of([0, 64, 64], [8128; 2], [63, 64], 255));
}

/// Each gas by its own ends and verdicts: those of the fifth gas are in no other, and no other's are in it.
fn apart_from_others(cases: &mut Cases) {
    for (gas, name) in (1..).zip(GASES) {
        let mut records: Vec<Record> = [(1, [1, 2], 2), NONE, (1, [2, 3], 3)].into_iter().map(with).collect();
        put(&mut records, [1, gas], [7, 9]);
        let mut gases = [of_machines(3); 4];
        gases[gas - 1] = of([3, 0, 0], [9, 13], [3, 5], 1);
        let words = format!("{name} worst in a record without NMHC");
        cases.with_fifth(&words, records, gases, of([0, 1, 1], [3, 5], [1, 3], 2));
    }
}

/// 21 for each kind of fault, at the first record, in the middle and at the last; whether others have the fifth gas or not.
fn faulty(cases: &mut Cases) {
    for (words, ends) in FAULTY {
        for index in 0..3 {
            for (others, other) in [("all have it", (1, [0, 1], 1)), ("no other has it", NONE)] {
                let mut records = vec![with(other); 3];
                records[index] = with((1, ends, 3));
                cases.faulty(index, &format!("NMHC, {words}; {others}"), records);
            }
        }
    }
    for index in [0, 127, 128, 254, 255] {
        let mut records = machines(256);
        records[index] = with((1, [2, 1], 1));
        cases.faulty(index, "NMHC, a lower end one above its upper end, of 256", records);
    }
}

/// "Refusal 21 too reads only records that have it."
fn faulty_where_absent(cases: &mut Cases) {
    for (words, ends) in FAULTY {
        for (index, worst) in [(0, 1), (1, 2), (2, 1)] {
            let mut each = [(1, [1, 2], 1); 3];
            each[index] = (0, ends, 2);
            each[worst] = (1, [0, 4], 3);
            cases.fifth(&format!("record {index} without NMHC, {words}"), &each, of([1, 0, 1], [1, 6], [0, 3], worst));
        }
    }
}

/// The earliest record is named, by its index in the list: that of the fifth gas where it is there, and the next where it is not.
fn earliest(cases: &mut Cases) {
    for (gas, name) in (1..).zip(GASES) {
        for (has, named) in [(1, 1), (0, 2)] {
            let mut records = machines(4);
            records[1] = with((has, [6, 5], 1));
            put(&mut records, [2, gas], [0, BEYOND]);
            let words = if has == 0 { "after NMHC at fault in record 1, which does not have it" } else { "NMHC; then another" };
            cases.faulty(named, &format!("{words}, {name} at fault in record 2"), records);
        }
        let mut records = machines(4);
        put(&mut records, [1, gas], [-BEYOND, 0]);
        records[2] = with((1, [6, 5], 1));
        cases.faulty(1, &format!("{name}; then NMHC at fault in record 2"), records);
    }
    let each = [(0, [1, 0], 1), NONE, (0, [BEYOND, BEYOND], 2), (1, [1, 0], 1), (1, [2, 1], 1)];
    cases.faulty(3, "NMHC, after two records at fault that do not have it", each.into_iter().map(with).collect());
}

/// 21 of every other gas, as before, in a record that has the fifth and in one that does not.
fn others_faulty(cases: &mut Cases) {
    for (gas, name) in (1..).zip(GASES) {
        for (words, fifth) in [("has NMHC", (1, [0, 1], 1)), ("does not have NMHC", NONE)] {
            let mut records = vec![with((1, [0, 1], 1)); 3];
            records[2] = with(fifth);
            put(&mut records, [2, gas], [1, 0]);
            cases.faulty(2, &format!("{name}, a lower end one above its upper end, in a record that {words}"), records);
        }
    }
}

/// "18 for more than 256": of the list, however few of it have the fifth gas; and before 21.
fn too_many(cases: &mut Cases) {
    cases.too_many(", and all have NMHC", vec![with((1, [1, 2], 1)); 257]);
    let mut one = machines(257);
    one[256] = with((1, [1, 2], 1));
    cases.too_many(", and the last alone has NMHC", one.clone());
    one[256] = with((1, [2, 1], 1));
    cases.too_many(", before 21 of NMHC in the last", one);
}
