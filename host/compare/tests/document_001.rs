//! The damaged tables of document 001 as drafts (02, M-112): what mending fills of the phases that its text has lost, beside what they were mended to by hand.

use compare::draft::{draft_of, missing, seconds, MISSING};
use ylhovesko::draft::{mend, Mended};

/// Each cell that was mended by hand: part, second, column, what is printed, and what it was mended to.
const CELLS: &str = include_str!("../../../demo/cycles/mended_cells.csv");

/// A part's table with a column of speeds, as it was mended by hand.
struct Table {
    part: &'static str,
    column: &'static str,
    text: &'static str,
}

const TABLES: [Table; 6] = [
    Table { part: "1", column: "normal", text: include_str!("../../../demo/cycles/part1_normal.csv") },
    Table { part: "1", column: "reduced", text: include_str!("../../../demo/cycles/part1_reduced.csv") },
    Table { part: "2", column: "normal", text: include_str!("../../../demo/cycles/part2_normal.csv") },
    Table { part: "2", column: "reduced", text: include_str!("../../../demo/cycles/part2_reduced.csv") },
    Table { part: "3", column: "normal", text: include_str!("../../../demo/cycles/part3_normal.csv") },
    Table { part: "3", column: "reduced", text: include_str!("../../../demo/cycles/part3_reduced.csv") },
];

/// Speeds as 001 prints them where they can be read, or as they were mended by hand.
#[derive(Clone, Copy, Debug, PartialEq, Eq)]
enum Speeds {
    Printed,
    Mended,
}

impl Table {
    /// The draft of the table with every phase.
    fn by_hand(&self) -> Vec<u8> {
        let second = |line: &str| {
            let fields: Vec<&str> = line.split(',').collect();
            let phase = ["stop", "acc", "cruise", "dec"].iter().position(|name| *name == fields[2]).unwrap() as u8;
            let [no_shift, no_first] = [fields[3], fields[4]].map(|mark| mark.parse::<u8>().unwrap());
            let [low, high] = fields[1].parse::<u16>().unwrap().to_le_bytes();
            [low, high, phase | no_shift << 2 | no_first << 3, 0]
        };
        draft_of(&self.text.lines().skip(1).map(second).collect::<Vec<_>>())
    }

    /// The cells of a column of this part: the second, and what is printed there.
    fn cells(&self, column: &str) -> Vec<(usize, &'static str)> {
        let fields = CELLS.lines().map(|line| line.split(',').collect::<Vec<_>>());
        fields.filter(|cell| cell[0] == self.part && cell[2] == column).map(|cell| (cell[1].parse().unwrap(), cell[3])).collect()
    }

    /// The draft without the phases that 001 has lost: a phase is missing where none is printed and where two are, of which a draft can hold neither.
    fn draft(&self, speeds: Speeds) -> Vec<u8> {
        let mut draft = self.by_hand();
        for (second, _) in self.cells("phase") {
            draft[4 + 4 * second + 2] = draft[4 + 4 * second + 2] & 12 | MISSING;
        }
        let readable = self.cells(self.column).into_iter().filter(|(_, printed)| speeds == Speeds::Printed && !printed.is_empty());
        for (second, printed) in readable {
            draft[4 + 4 * second..][..2].copy_from_slice(&printed.parse::<u16>().unwrap().to_le_bytes());
        }
        draft
    }

    /// What is mended of it; each phase that is filled is the one of the mending by hand.
    fn mended(&self, speeds: Speeds) -> Mended {
        let draft = self.draft(speeds);
        let (mended, plain) = (mend(&draft).unwrap(), plain::draft::mended(&draft).unwrap());
        assert_eq!((&mended.bytes, &mended.changed, &mended.open), (&plain.draft, &plain.changed, &plain.open));
        let by_hand = self.by_hand();
        let phase = |file: &[u8], number: u16| seconds(file)[usize::from(number) - 1][2];
        assert!(mended.changed.iter().all(|number| phase(&mended.bytes, *number) == phase(&by_hand, *number)));
        mended
    }
}

/// The seconds of each part that are filled with the speeds as printed; as they were mended one more is, of part 1.
const PART_1: [u16; 13] = [9, 13, 18, 19, 20, 162, 178, 179, 479, 480, 592, 595, 599];
const PART_3: [u16; 4] = [4, 417, 596, 599];
const FILLED: [&[u16]; 6] = [&PART_1, &PART_1, &[], &[261], &PART_3, &PART_3];

#[test]
fn phases_that_001_has_lost() {
    for (table, filled) in TABLES.iter().zip(FILLED) {
        for speeds in [Speeds::Printed, Speeds::Mended] {
            let mended = table.mended(speeds);
            let second_589 = (table.part, speeds) == ("1", Speeds::Mended);
            let mut expected = filled.to_vec();
            expected.extend(second_589.then_some(589));
            expected.sort_unstable();
            assert_eq!(mended.changed, expected, "part {}, {}, {speeds:?}", table.part, table.column);
        }
    }
}

/// How many phases are missing, how many of them because two are printed, and how many are left open with the speeds as printed and as mended.
#[test]
fn how_many_are_left_open() {
    let counts = TABLES.map(|table| {
        let lost = table.cells("phase");
        let of_two = lost.iter().filter(|(_, printed)| !printed.is_empty()).count();
        assert_eq!(missing(&table.draft(Speeds::Printed)).len(), lost.len());
        [lost.len(), of_two, table.mended(Speeds::Printed).open.len(), table.mended(Speeds::Mended).open.len()]
    });
    assert_eq!(counts, [[63, 5, 50, 49], [63, 5, 50, 49], [20, 8, 20, 20], [20, 8, 19, 19], [19, 1, 15, 15], [19, 1, 15, 15]]);
}
