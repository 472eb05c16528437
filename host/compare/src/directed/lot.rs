//! Directed cases of the lot sheet. Those here are of records without the fifth gas, from before there was one (02, M-105).

use ylhovesko::bags::{Ends, Gases};
use ylhovesko::lot::Record;

use super::lot_of_some;
use crate::bags::of_gas;
use crate::lot::{answer_text, by_plain, Case, OfGas, FARTHEST, OF_NONE};
use crate::Told;

/// A case, what is to be seen in it, and what 02 says of it: the refusal, or every gas.
pub struct Directed {
    pub words: String,
    pub case: Case,
    pub told: Told,
    pub gases: Vec<OfGas>,
}

/// 10^13 micrograms/km, and what is beyond it.
pub(super) const FAR: i64 = FARTHEST;
pub(super) const BEYOND: i64 = FAR + 1;

/// What has the low 31 bits of a smaller number, and as a signed number is negative.
const TOP: i64 = 1 << 31;

/// What a list has of one gas: the lower end, the upper end and the verdict of each record. Then what the sheet has: the counts, the sums, the mean's ends and
/// the index.
pub(super) type Row<const N: usize> = (&'static str, [[i64; 3]; N], [usize; 3], [i128; 2], [i128; 2], usize);

/// "The record with the greatest upper end, earliest if several."
pub(super) const WORST: [Row<3>; 16] = [
    ("the greatest first, with the least lower end", [[1, 9, 1], [2, 8, 2], [3, 7, 3]], [1, 1, 1], [6, 24], [2, 8], 0),
    ("the greatest in the middle", [[-5, 2, 1], [-6, 4, 1], [-4, 3, 1]], [3, 0, 0], [-15, 9], [-5, 3], 1),
    ("the greatest last", [[0, 1, 2], [0, 2, 2], [0, 3, 2]], [0, 3, 0], [0, 6], [0, 2], 2),
    ("first and last equal", [[0, 5, 3], [0, 4, 3], [5, 5, 3]], [0, 0, 3], [5, 14], [1, 5], 0),
    ("middle and last equal", [[0, 4, 1], [-2, 5, 1], [5, 5, 2]], [2, 1, 0], [3, 14], [1, 5], 1),
    ("first and middle equal", [[-1, 7, 2], [6, 7, 1], [6, 6, 2]], [1, 2, 0], [11, 20], [3, 7], 0),
    ("all equal", [[4, 4, 3], [4, 4, 2], [4, 4, 3]], [0, 1, 2], [12, 12], [4, 4], 0),
    ("all below zero", [[-3, -3, 3], [-8, -1, 1], [-2, -2, 3]], [1, 0, 2], [-13, -6], [-5, -2], 1),
    ("all below zero, first and last equal", [[-9, -2, 2], [-7, -5, 3], [-2, -2, 3]], [0, 1, 2], [-18, -9], [-6, -3], 0),
    (
        "all at -10^13",
        [[-FAR, -FAR, 1], [-FAR, -FAR, 2], [-FAR, -FAR, 3]],
        [1, 1, 1],
        [-30_000_000_000_000; 2],
        [-10_000_000_000_000; 2],
        0,
    ),
    ("zero above all", [[-4, -1, 1], [-4, 0, 1], [-9, -1, 3]], [2, 0, 1], [-17, -2], [-6, 0], 1),
    (
        "-1 after -10^13",
        [[-FAR, -FAR, 2], [-FAR, -1, 2], [-2, -2, 1]],
        [1, 2, 0],
        [-20_000_000_000_002, -10_000_000_000_003],
        [-6_666_666_666_668, -3_333_333_333_334],
        1,
    ),
    ("2^32 above 2^32 - 1", [[0, 5, 1], [0, (1 << 32) - 1, 2], [0, 1 << 32, 3]], [1, 1, 1], [0, 8_589_934_596], [0, 2_863_311_532], 2),
    (
        "10^13 above 10^13 - 1, and equal",
        [[0, FAR - 1, 3], [FAR, FAR, 3], [-FAR, FAR, 1]],
        [1, 0, 2],
        [0, 29_999_999_999_999],
        [0, 10_000_000_000_000],
        1,
    ),
    ("the widest first, the greatest lower end last", [[-9, 1, 1], [0, 2, 1], [2, 2, 1]], [3, 0, 0], [-7, 5], [-3, 2], 1),
    ("farther from zero below than above", [[-100, -100, 2], [-2, 3, 3], [-50, -50, 2]], [0, 2, 1], [-152, -147], [-51, -49], 1),
];

/// "The mean's ends rounded outward", of three records.
pub(super) const THIRDS: [Row<3>; 12] = [
    ("1/3 and 2/3", [[0, 0, 1], [0, 1, 2], [1, 1, 2]], [1, 2, 0], [1, 2], [0, 1], 1),
    ("2/3 and 4/3", [[0, 1, 3], [1, 1, 3], [1, 2, 1]], [1, 0, 2], [2, 4], [0, 2], 2),
    ("-2/3 and -1/3", [[-1, -1, 2], [-1, 0, 2], [0, 0, 3]], [0, 2, 1], [-2, -1], [-1, 0], 1),
    ("-4/3 and -2/3", [[-2, -1, 1], [-1, -1, 1], [-1, 0, 1]], [3, 0, 0], [-4, -2], [-2, 0], 2),
    ("-5/3 and -4/3", [[-2, -2, 2], [-2, -1, 3], [-1, -1, 2]], [0, 2, 1], [-5, -4], [-2, -1], 1),
    ("-1/3 and 1/3", [[-1, 0, 2], [0, 0, 2], [0, 1, 2]], [0, 3, 0], [-1, 1], [-1, 1], 2),
    ("-2/3 and 2/3", [[-1, 1, 3], [-1, 0, 1], [0, 1, 1]], [2, 0, 1], [-2, 2], [-1, 1], 0),
    ("1 exactly", [[6, 6, 1], [0, 0, 1], [-3, -3, 2]], [2, 1, 0], [3, 3], [1, 1], 0),
    ("-1 exactly", [[-6, -6, 3], [0, 0, 3], [3, 3, 2]], [0, 1, 2], [-3, -3], [-1, -1], 2),
    ("4/3 at both ends", [[1, 1, 1], [1, 1, 3], [2, 2, 2]], [1, 1, 1], [4, 4], [1, 2], 2),
    ("-4/3 at both ends", [[-1, -1, 2], [-1, -1, 1], [-2, -2, 2]], [1, 2, 0], [-4, -4], [-2, -1], 0),
    (
        "-10^13 and 10^13",
        [[-FAR, FAR, 3], [-FAR, FAR, 2], [-FAR, FAR, 1]],
        [1, 1, 1],
        [-30_000_000_000_000, 30_000_000_000_000],
        [-10_000_000_000_000, 10_000_000_000_000],
        0,
    ),
];

/// And of two.
pub(super) const HALVES: [Row<2>; 8] = [
    ("1/2 at both ends", [[0, 0, 1], [1, 1, 2]], [1, 1, 0], [1, 1], [0, 1], 1),
    ("-1/2 at both ends", [[0, 0, 2], [-1, -1, 2]], [0, 2, 0], [-1, -1], [-1, 0], 0),
    ("3/2 and 5/2", [[1, 2, 3], [2, 3, 3]], [0, 0, 2], [3, 5], [1, 3], 1),
    ("-5/2 and -3/2", [[-3, -2, 1], [-2, -1, 1]], [2, 0, 0], [-5, -3], [-3, -1], 1),
    ("-1/2 and 1/2", [[-1, 0, 2], [0, 1, 1]], [1, 1, 0], [-1, 1], [-1, 1], 1),
    ("0 exactly", [[-7, -7, 3], [7, 7, 1]], [1, 0, 1], [0, 0], [0, 0], 1),
    (
        "10^13 less 1/2",
        [[FAR - 1, FAR - 1, 1], [FAR, FAR, 3]],
        [1, 0, 1],
        [19_999_999_999_999; 2],
        [9_999_999_999_999, 10_000_000_000_000],
        1,
    ),
    (
        "-10^13 and 1/2",
        [[-FAR, -FAR, 3], [1 - FAR, 1 - FAR, 3]],
        [0, 0, 2],
        [-19_999_999_999_999; 2],
        [-10_000_000_000_000, -9_999_999_999_999],
        1,
    ),
];

/// "The verdicts counted are those in the records", whatever their ends are; and every number that is neither a pass nor a fail is undecided.
pub(super) const VERDICTS: [Row<3>; 10] = [
    ("passes at 10^13", [[FAR, FAR, 1], [FAR, FAR, 1], [FAR, FAR, 1]], [3, 0, 0], [30_000_000_000_000; 2], [10_000_000_000_000; 2], 0),
    (
        "fails at -10^13",
        [[-FAR, -FAR, 2], [-FAR, -FAR, 2], [-FAR, -FAR, 2]],
        [0, 3, 0],
        [-30_000_000_000_000; 2],
        [-10_000_000_000_000; 2],
        0,
    ),
    ("undecided with nothing between the ends", [[0, 0, 3], [0, 0, 3], [0, 0, 3]], [0, 0, 3], [0, 0], [0, 0], 0),
    ("each verdict of the same ends", [[8, 9, 1], [8, 9, 2], [8, 9, 3]], [1, 1, 1], [24, 27], [8, 9], 0),
    ("fails below a pass", [[1, 2, 2], [5, 6, 1], [0, 1, 2]], [1, 2, 0], [6, 9], [2, 3], 1),
    ("verdicts 0, 4 and 2^32 - 1", [[0, 0, 0], [0, 0, 4], [0, 0, (1 << 32) - 1]], [0, 0, 3], [0, 0], [0, 0], 0),
    ("verdicts 0, 1 and 2", [[3, 3, 0], [3, 3, 1], [3, 3, 2]], [1, 1, 1], [9, 9], [3, 3], 0),
    ("verdicts 5, 6 and 7", [[0, 1, 5], [0, 1, 6], [0, 1, 7]], [0, 0, 3], [0, 3], [0, 1], 0),
    ("the low 8, 16 and 31 bits of a pass", [[0, 0, 257], [0, 0, 65_537], [0, 0, TOP + 1]], [0, 0, 3], [0, 0], [0, 0], 0),
    ("the low 8, 16 and 31 bits of a fail", [[0, 0, 258], [0, 0, 65_538], [0, 0, TOP + 2]], [0, 0, 3], [0, 0], [0, 0], 0),
];

/// Ends at fault.
pub(super) const FAULTY: [(&str, [i64; 2]); 17] = [
    ("a lower end one above its upper end", [1, 0]),
    ("a lower end one above its upper end, below zero", [-4, -5]),
    ("a lower end one above its upper end, at 10^13", [FAR, FAR - 1]),
    ("a lower end one above its upper end, at -10^13", [1 - FAR, -FAR]),
    ("a lower end by 2^32 above its upper end", [1 << 32, 0]),
    ("10^13 above -10^13", [FAR, -FAR]),
    ("an upper end one beyond 10^13", [0, BEYOND]),
    ("a lower end one beyond -10^13", [-BEYOND, 0]),
    ("both ends one beyond 10^13", [BEYOND, BEYOND]),
    ("both ends one beyond -10^13", [-BEYOND, -BEYOND]),
    ("both ends one beyond, either way", [-BEYOND, BEYOND]),
    ("a lower end beyond 10^13 and above its upper end", [BEYOND, FAR]),
    ("an upper end beyond -10^13 and below its lower end", [-FAR, -BEYOND]),
    ("an upper end of 2^44, with nothing in its low 32 bits", [0, 1 << 44]),
    ("the greatest number", [i64::MAX, i64::MAX]),
    ("the least number", [i64::MIN, i64::MIN]),
    ("the least and the greatest number", [i64::MIN, i64::MAX]),
];

/// The gases that every record has.
pub(super) const GASES: [&str; 4] = ["HC", "CO", "NOx", "CO2"];

/// What there is of each of these gases, and nothing of the fifth.
fn of_four<T: Default>([hc, co, nox, co2]: [T; 4]) -> Gases<T> {
    Gases { hc, co, nox, co2, nmhc: T::default() }
}

/// A record that has the same of every gas but the fifth, which it does not have.
pub(super) fn machine([lower, upper]: [i64; 2], verdict: u32) -> Record {
    Record { weighted: of_four([Ends { lower, upper }; 4]), verdicts: of_four([verdict; 4]), has_nmhc: 0 }
}

/// So many machines, of which none is at fault.
pub(super) fn machines(count: usize) -> Vec<Record> {
    vec![machine([1, 2], 1); count]
}

/// What the sheet has of each of their gases.
pub(super) fn of_machines(count: usize) -> OfGas {
    let n = count as i128;
    OfGas { counts: [count, 0, 0], sum: [n, 2 * n], mean: Some([1, 2]), worst: Some(0) }
}

/// Puts ends into a record, by its index from 0 on and the gas's number from 1 on.
pub(super) fn put(records: &mut [Record], [index, gas]: [usize; 2], [lower, upper]: [i64; 2]) {
    *of_gas(&mut records[index].weighted, gas as u32) = Ends { lower, upper };
}

/// What a list has of one gas, and what the sheet then has of it.
struct Column {
    words: String,
    records: Vec<[i64; 3]>,
    of_gas: OfGas,
}

fn of_row<const N: usize>((words, records, counts, sum, mean, worst): Row<N>) -> Column {
    Column { words: words.into(), records: records.to_vec(), of_gas: OfGas { counts, sum, mean: Some(mean), worst: Some(worst) } }
}

/// Four columns as the gases of one list.
fn side_by_side(columns: [&Column; 4]) -> Vec<Record> {
    let of = |index: usize| {
        let each = columns.map(|column| column.records[index]);
        let weighted = each.map(|[lower, upper, _]| Ends { lower, upper });
        Record { weighted: of_four(weighted), verdicts: of_four(each.map(|[.., verdict]| verdict as u32)), has_nmhc: 0 }
    };
    (0..columns[0].records.len()).map(of).collect()
}

#[derive(Default)]
pub(super) struct Cases(Vec<Directed>);

impl Cases {
    /// 18 has no place.
    pub(super) fn too_many(&mut self, words: &str, records: Vec<Record>) {
        let words = format!("18: {} records{words}", records.len());
        self.0.push(Directed { words, case: Case { records }, told: [18, 0, 0, 0], gases: Vec::new() });
    }

    pub(super) fn faulty(&mut self, index: usize, words: &str, records: Vec<Record>) {
        let words = format!("21 of record {index}: {words}");
        self.0.push(Directed { words, case: Case { records }, told: [21, index as u32, 0, 0], gases: Vec::new() });
    }

    /// A list of which no record has the fifth gas.
    fn taken(&mut self, words: &str, records: Vec<Record>, gases: [OfGas; 4]) {
        self.with_fifth(words, records, gases, OF_NONE);
    }

    /// A list with what the sheet has of the first four gases, and of the fifth.
    pub(super) fn with_fifth(&mut self, words: &str, records: Vec<Record>, gases: [OfGas; 4], fifth: OfGas) {
        let gases = gases.into_iter().chain([fifth]).collect();
        self.0.push(Directed { words: format!("taken: {words}"), case: Case { records }, told: [0; 4], gases });
    }

    /// Four columns as the gases of one list.
    fn columns(&mut self, columns: [&Column; 4]) {
        let words: Vec<String> = GASES.iter().zip(columns).map(|(gas, column)| format!("{gas} {}", column.words)).collect();
        self.taken(&words.join("; "), side_by_side(columns), columns.map(|column| column.of_gas));
    }

    /// As many lists as columns, so that each of them is each gas once, beside three others.
    fn turned<const N: usize>(&mut self, rows: &[Row<N>]) {
        let columns: Vec<Column> = rows.iter().copied().map(of_row).collect();
        let at = |place: usize| &columns[place % columns.len()];
        (0..columns.len()).for_each(|first| self.columns([at(first), at(first + 1), at(first + 2), at(first + 3)]));
    }
}

/// "An empty list gives zeros and no mean and no index, and is accepted."
fn empty(cases: &mut Cases) {
    cases.taken("an empty list", Vec::new(), [OF_NONE; 4]);
}

/// One record is its own mean.
fn single(cases: &mut Cases) {
    cases.turned::<1>(&[
        ("-7 and -5, a pass", [[-7, -5, 1]], [1, 0, 0], [-7, -5], [-7, -5], 0),
        ("3, a fail", [[3, 3, 2]], [0, 1, 0], [3, 3], [3, 3], 0),
        ("10^13, undecided", [[FAR, FAR, 3]], [0, 0, 1], [10_000_000_000_000; 2], [10_000_000_000_000; 2], 0),
        ("-10^13, of no verdict", [[-FAR, -FAR, 0]], [0, 0, 1], [-10_000_000_000_000; 2], [-10_000_000_000_000; 2], 0),
    ]);
}

fn of_two_and_three(cases: &mut Cases) {
    cases.turned(&HALVES);
    cases.turned(&THIRDS);
    cases.turned(&WORST);
    cases.turned(&VERDICTS);
}

/// "At most 256", and 18 "for more than 256", also before 21. In 64-bit floats 49 x (1 / 49) is below 1.
fn lengths(cases: &mut Cases) {
    for count in [49, 254, 255, 256] {
        cases.taken(&format!("{count} records"), machines(count), [of_machines(count); 4]);
    }
    for count in [257, 258, 300, 512] {
        cases.too_many("", machines(count));
    }
    for (count, index) in [(257, 0), (257, 128), (257, 255), (257, 256), (300, 0), (512, 511)] {
        let mut records = machines(count);
        put(&mut records, [index, 1], [1, 0]);
        cases.too_many(&format!(", before 21 of record {index}"), records);
    }
    cases.too_many(", before 21 of each", vec![machine([-BEYOND, BEYOND], 1); 257]);
}

/// A list of 256, of which all but one record have the same, and that other one.
fn but_one(words: &str, usual: [i64; 3], (index, other): (usize, [i64; 3]), of_gas: OfGas) -> Column {
    let mut records = vec![usual; 256];
    records[index] = other;
    Column { words: words.into(), records, of_gas }
}

/// The sums at both ends: 256 x 10^13 either way, and one less. A count of 256 does not fit 8 bits.
fn longest(cases: &mut Cases) {
    let (far, sum) = (i128::from(FAR), 2_560_000_000_000_000);
    let of = |counts, sum, mean, worst| OfGas { counts, sum, mean: Some(mean), worst: Some(worst) };
    let same = |words: &str, record: [i64; 3], of_gas| but_one(words, record, (0, record), of_gas);
    cases.columns([
        &same("10^13, all passes", [FAR, FAR, 1], of([256, 0, 0], [sum; 2], [far; 2], 0)),
        &same("-10^13, all fails", [-FAR, -FAR, 2], of([0, 256, 0], [-sum; 2], [-far; 2], 0)),
        &same("-10^13 and 10^13, all undecided", [-FAR, FAR, 3], of([0, 0, 256], [-sum, sum], [-far, far], 0)),
        &same("0, all of no verdict", [0, 0, 0], of([0, 0, 256], [0; 2], [0; 2], 0)),
    ]);
    let (less, more) = ((255, [FAR - 1, FAR - 1, 2]), (255, [1 - FAR, 1 - FAR, 1]));
    cases.columns([
        &but_one("10^13, the last one less", [FAR, FAR, 1], less, of([255, 1, 0], [sum - 1; 2], [far - 1, far], 0)),
        &but_one("-10^13, the last one more", [-FAR, -FAR, 2], more, of([1, 255, 0], [1 - sum; 2], [-far, 1 - far], 255)),
        &but_one("1/256, from the last", [0, 0, 3], (255, [1, 1, 1]), of([1, 0, 255], [1; 2], [0, 1], 255)),
        &but_one("-1/256, from the last", [0, 0, 1], (255, [-1, -1, 3]), of([255, 0, 1], [-1; 2], [-1, 0], 0)),
    ]);
    cases.columns([
        &but_one("255/256, from record 128", [0, 0, 2], (128, [255, 255, 3]), of([0, 255, 1], [255; 2], [0, 1], 128)),
        &but_one("-255/256, from record 127", [0, 0, 3], (127, [-255, -255, 2]), of([0, 1, 255], [-255; 2], [-1, 0], 0)),
        &but_one("1 exactly, from record 254", [0, 0, 1], (254, [256, 256, 1]), of([256, 0, 0], [256; 2], [1, 1], 254)),
        &but_one("-1 exactly, from the first", [0, 0, 2], (0, [-256, -256, 1]), of([1, 255, 0], [-256; 2], [-1, -1], 1)),
    ]);
}

/// Upper ends that rise and fall through a whole list, all verdicts in turn: 255 x 256 / 2 is 32,640, and 256 is 86 + 85 + 85.
fn rising(cases: &mut Cases) {
    let of = |words: &str, ends: fn(i64) -> [i64; 2], sum, mean, worst| {
        let record = |i: i64| [ends(i)[0], ends(i)[1], 1 + i % 3];
        let of_gas = OfGas { counts: [86, 85, 85], sum, mean: Some(mean), worst: Some(worst) };
        Column { words: words.into(), records: (0..256).map(record).collect(), of_gas }
    };
    cases.columns([
        &of("0 to 255", |i| [i, i], [32_640; 2], [127, 128], 255),
        &of("0 to -255", |i| [-i, -i], [-32_640; 2], [-128, -127], 0),
        &of("-255 to 0 below 0", |i| [i - 255, 0], [-32_640, 0], [-128, 0], 0),
        &of(
            "9 x 10^12 to 3 more, again and again",
            |i| [0, 9_000_000_000_000 + i % 4],
            [0, 2_304_000_000_000_384],
            [0, 9_000_000_000_002],
            3,
        ),
    ]);
}

/// 21 for each kind of fault in each gas, at the first record, in the middle and at the last; whatever the verdict is, of which each gas has another.
fn faults(cases: &mut Cases) {
    for (words, ends) in FAULTY {
        for (gas, name) in (1..).zip(GASES) {
            for index in 0..3 {
                let mut records = machines(3);
                put(&mut records, [index, gas], ends);
                records[index].verdicts = of_four([1, 2, 3, 0]);
                cases.faulty(index, &format!("{name}, {words}"), records);
            }
        }
    }
}

/// 21 in a list as long as one may be, and in one that has nothing else.
fn faults_of_lists(cases: &mut Cases) {
    for index in [0, 127, 128, 254, 255] {
        let mut records = machines(256);
        put(&mut records, [index, 1 + index % 4], [2, 1]);
        cases.faulty(index, "a lower end one above its upper end, of 256", records);
    }
    for (words, ends) in FAULTY {
        cases.faulty(0, &format!("every gas, {words}; no other record"), vec![machine(ends, 2)]);
    }
}

/// The earliest record is named: whichever of its gases is at fault and in whichever way, and whatever is at fault after it.
fn earliest(cases: &mut Cases) {
    let kinds = [("a lower end above its upper end", [6, 5]), ("an end beyond 10^13", [0, BEYOND]), ("an end beyond -10^13", [-BEYOND, 0])];
    for (one, name) in (1..).zip(GASES) {
        for (two, other) in (1..).zip(GASES) {
            let [(words, ends), (later, beside)] = [kinds[one % 3], kinds[(one + two) % 3]];
            let mut records = machines(4);
            put(&mut records, [1, one], ends);
            put(&mut records, [2, two], beside);
            cases.faulty(1, &format!("{name}, {words}; then {other}, {later}"), records);
        }
    }
    let mut last_two = machines(256);
    put(&mut last_two, [254, 4], [1, 0]);
    put(&mut last_two, [255, 1], [1, 0]);
    cases.faulty(254, "CO2; then HC of the last of 256", last_two);
    cases.faulty(0, "every gas of every record", vec![machine([BEYOND, -BEYOND], 3); 256]);
    let mut all_but_first = vec![machine([-BEYOND, -BEYOND], 1); 5];
    all_but_first[0] = machine([0, 0], 1);
    cases.faulty(1, "every gas of every record but the first", all_but_first);
}

/// All of them, in the order of the file.
pub fn cases() -> Vec<Directed> {
    let mut cases = Cases::default();
    let groups: [fn(&mut Cases); 9] = [empty, single, of_two_and_three, lengths, longest, rising, faults, faults_of_lists, earliest];
    groups.iter().chain(&lot_of_some::GROUPS).for_each(|group| group(&mut cases));
    cases.0
}

/// The text of vectors/directed_lot.txt. Stops where the second implementation does not say what is expected.
pub fn text() -> String {
    let mut text = super::head(include_str!("../../../vectors/M-108-lots.txt"));
    text += "# any other verdict number: undecided; any other number than 0 for present: the record has the fifth gas\n";
    for Directed { words, case, told, gases } in cases() {
        let answer = by_plain(&case);
        assert_eq!(answer, (told, gases), "{words}");
        text += &format!("# {words}\n{case} {}\n", answer_text(&answer));
    }
    text
}
