//! Directed cases of the writer of traces (02, M-109).

use super::gear::row;
use crate::random::Random;
use crate::writer::{answer_text, by_plain, length, Case};
use crate::Told;

/// A case, what is to be seen in it, and what 02 says of it: the refusal, and the file where its bytes are worked out by hand.
pub struct Directed {
    pub words: String,
    pub case: Case,
    pub told: Told,
    pub file: Option<String>,
}

#[derive(Default)]
struct Cases(Vec<Directed>);

/// Numbers and so many bytes of room.
fn lent(numbers: &[u16], room: usize) -> Case {
    Case { numbers: numbers.to_vec(), buffer: vec![0; room] }
}

/// Numbers with exactly the room they need.
fn exact(numbers: &[u16]) -> Case {
    lent(numbers, length(numbers.len()))
}

impl Cases {
    fn refused(&mut self, number: u32, at: u32, words: &str, case: Case) {
        self.0.push(Directed { words: format!("{}: {words}", row(number, at)), case, told: [number, at, 0, 0], file: None });
    }

    fn taken(&mut self, words: &str, case: Case) {
        self.0.push(Directed { words: format!("taken: {words}"), case, told: [0; 4], file: None });
    }

    /// A case whose file is worked out by hand.
    fn file(&mut self, words: &str, case: Case, file: &str) {
        let file = Some(file.replace(' ', ""));
        self.0.push(Directed { words: format!("taken: {words}"), case, told: [0; 4], file });
    }
}

/// So many seconds at 0.5 km/h, which stop.
fn seconds(count: usize) -> Vec<u16> {
    [5, 0].repeat(count)
}

/// Seconds with some numbers in the place of others: which one, and what stands there.
fn changed(count: usize, changes: &[(usize, u16)]) -> Vec<u16> {
    let mut numbers = seconds(count);
    changes.iter().for_each(|(at, number)| numbers[*at] = *number);
    numbers
}

/// Whole files by hand: 'W' 'T' 'R' 0, version 2, the count, then speed, phase and 0, each number with its low byte first.
fn files(cases: &mut Cases) {
    const HEAD: &str = "57545200 0200";
    let files: [(&str, &[u16], &str); 9] = [
        ("one stop", &[0, 0], "0100 00000000"),
        ("a stop with a speed", &[23, 0], "0100 17000000"),
        ("each phase", &[1, 0, 2, 1, 3, 2, 4, 3], "0400 01000000 02000100 03000200 04000300"),
        ("the greatest speed", &[2000, 3], "0100 d0070300"),
        (
            "speeds of which the two bytes differ",
            &[255, 1, 256, 1, 257, 2, 511, 2, 513, 3],
            "0500 ff000100 00010100 01010200 ff010200 01020300",
        ),
        ("a speed below the limit", &[1999, 2], "0100 cf070200"),
        ("the same second twice", &[1000, 2, 1000, 2], "0200 e8030200 e8030200"),
        ("speeds that fall and rise", &[2000, 1, 0, 3, 2000, 2], "0300 d0070100 00000300 d0070200"),
        ("phases like speeds", &[3, 3, 2, 2, 1, 1, 0, 0], "0400 03000300 02000200 01000100 00000000"),
    ];
    for (words, numbers, rest) in files {
        cases.file(words, exact(numbers), &format!("{HEAD} {rest}"));
        cases.file(&format!("{words}, three bytes of room more"), lent(numbers, length(numbers.len()) + 3), &format!("{HEAD} {rest}"));
    }
    for count in [255, 256, 257, 511, 512, 1999, 2000] {
        let [low, high] = u16::to_le_bytes(count).map(|byte| format!("{byte:02x}"));
        let file = format!("{HEAD} {low}{high} {}", "05000000".repeat(count.into()));
        cases.file(&format!("{count} seconds"), exact(&seconds(count.into())), &file);
    }
}

/// "2 for a count not 1 to 2,000", and for "a speed without its phase", which an odd number of numbers has.
fn counts(cases: &mut Cases) {
    for room in [0, 7, 8, 12, 100] {
        cases.refused(2, 0, &format!("no second, {room} bytes"), lent(&[], room));
    }
    for count in [2001, 2002] {
        cases.refused(2, 0, &format!("{count} seconds"), exact(&seconds(count)));
    }
    cases.refused(2, 0, "2,001 seconds with room for 2,000", lent(&seconds(2001), 8008));
    for (count, speed) in [0, 1, 2, 3, 1999, 2000, 2001].into_iter().flat_map(|count| [0, 5].map(|speed| (count, speed))) {
        let odd = [seconds(count), vec![speed]].concat();
        cases.refused(2, 0, &format!("{count} seconds and a speed of {speed}"), exact(&odd));
    }
    cases.refused(2, 0, "one second and a speed, with room for two seconds", lent(&[5, 0, 5], 16));
    cases.refused(2, 0, "one second and a speed, with room for one", lent(&[5, 0, 5], 12));
}

/// "4 for a speed above 2,000 or a phase above 3", at the first second, one within and the last.
fn faults(cases: &mut Cases) {
    for at in [1, 2, 5] {
        let speed = 2 * (at - 1);
        for number in [2000, 1999] {
            cases.taken(&format!("speed {number} at second {at}"), exact(&changed(5, &[(speed, number)])));
        }
        for number in [2001, 2002, 2048, 4096, 32_768, 34_768, 65_535] {
            cases.refused(4, at as u32, &format!("speed {number}"), exact(&changed(5, &[(speed, number)])));
        }
        for number in [1, 2, 3] {
            cases.taken(&format!("phase {number} at second {at}"), exact(&changed(5, &[(speed + 1, number)])));
        }
        for number in [4, 5, 6, 7, 8, 12, 15, 16, 128, 255, 256, 257, 258, 259, 260, 512, 32_768, 32_771, 65_535] {
            cases.refused(4, at as u32, &format!("phase {number}"), exact(&changed(5, &[(speed + 1, number)])));
        }
        cases.refused(4, at as u32, "speed 2001 and phase 4", exact(&changed(5, &[(speed, 2001), (speed + 1, 4)])));
        cases.refused(4, at as u32, "speed and phase 65535", exact(&changed(5, &[(speed, 65_535), (speed + 1, 65_535)])));
    }
    cases.refused(4, 1, "phase 4 of one second", exact(&[0, 4]));
    cases.refused(4, 1, "speed 2001 of one second", exact(&[2001, 0]));
}

/// "4 with the second": the first that is at fault, whichever of its numbers is; and at the ends of 2,000 seconds.
fn first_of_two(cases: &mut Cases) {
    let faults = [("speed 2001", 0, 2001), ("phase 4", 1, 4)];
    for (first, one, number) in faults {
        for (second, another, other) in faults {
            let words = format!("{first} at second 2, {second} at second 4");
            cases.refused(4, 2, &words, exact(&changed(5, &[(2 + one, number), (6 + another, other)])));
            let words = format!("{first} at second 3, {second} at second 4");
            cases.refused(4, 3, &words, exact(&changed(5, &[(4 + one, number), (6 + another, other)])));
        }
        for at in [1, 1000, 2000] {
            let numbers = changed(2000, &[(2 * (at - 1) + one, number)]);
            cases.refused(4, at as u32, &format!("{first} at second {at} of 2,000"), exact(&numbers));
        }
    }
    cases.refused(4, 1, "every number too large", exact(&[65_535; 6]));
}

/// "8 for an output too small": 8 + 4 x count bytes.
fn room(cases: &mut Cases) {
    for count in [1, 2, 3, 63, 64, 250] {
        let (numbers, exact) = (seconds(count), 8 + 4 * count);
        for room in [exact, exact + 1, exact + 2, exact + 100] {
            cases.taken(&format!("{count} seconds in {room} bytes"), lent(&numbers, room));
        }
        for room in [0, 1, 4, 7, 8, 4 * count, 4 * count + 4, exact - 4, exact - 3, exact - 2, exact - 1] {
            cases.refused(8, 0, &format!("{count} seconds in {room} bytes"), lent(&numbers, room));
        }
    }
    cases.taken("2,000 seconds in 8,009 bytes", lent(&seconds(2000), 8009));
    for room in [0, 8000, 8007] {
        cases.refused(8, 0, &format!("2,000 seconds in {room} bytes"), lent(&seconds(2000), room));
    }
    cases.refused(8, 0, "2,000 seconds, the room of two bytes each", lent(&seconds(2000), 4008));
}

/// "2, then 4 with the second, then 8" (readings).
fn order(cases: &mut Cases) {
    let many = changed(2001, &[(0, 2001)]);
    let late = changed(2001, &[(4001, 4)]);
    for (words, numbers) in [("the first of 2,001 seconds has speed 2001", &many), ("the last of 2,001 seconds has phase 4", &late)] {
        cases.refused(2, 0, words, exact(numbers));
        cases.refused(2, 0, &format!("{words}, one byte too few"), lent(numbers, 8011));
        cases.refused(2, 0, &format!("{words}, no byte"), lent(numbers, 0));
    }
    cases.refused(2, 0, "2,001 seconds in no byte", lent(&seconds(2001), 0));
    for numbers in [&[5, 0, 2001][..], &[2001, 0, 5], &[5, 4, 5], &[5, 0, 5, 4, 5], &[2001], &[65_535; 7]] {
        let words = format!("{} numbers, one of them at fault", numbers.len());
        for room in [0, length(numbers.len()) - 1, length(numbers.len()), 100] {
            cases.refused(2, 0, &format!("{words}, {room} bytes"), lent(numbers, room));
        }
    }
    cases.refused(2, 0, "a speed alone in no byte", lent(&[5], 0));
    cases.refused(2, 0, "2,000 seconds and a speed, one byte too few", lent(&[seconds(2000), vec![5]].concat(), 8007));
    for (words, at, changes) in [("speed 2001", 1, [(0, 2001)]), ("phase 4", 3, [(5, 4)]), ("phase 256", 2, [(3, 256)])] {
        let numbers = changed(3, &changes);
        for room in [0, 8, 12, 16, 19] {
            cases.refused(4, at, &format!("{words}, {room} bytes for three seconds"), lent(&numbers, room));
        }
    }
    cases.refused(4, 2000, "the last of 2,000 seconds has phase 4, no byte", lent(&changed(2000, &[(3999, 4)]), 0));
}

/// All of them, in the order of the file; each buffer's noise has the number of its line there.
pub fn cases() -> Vec<Directed> {
    let mut cases = Cases::default();
    [files, counts, faults, first_of_two, room, order].iter().for_each(|group| group(&mut cases));
    for (line, directed) in (3..).step_by(2).zip(&mut cases.0) {
        directed.case.buffer = Random::new(line).bytes(directed.case.buffer.len());
    }
    cases.0
}

/// The text of vectors/directed_write.txt. Stops where the second implementation does not say what is expected.
pub fn text() -> String {
    let mut text = String::from("# n; n numbers, speed and phase of each second; output_room(bytes) number place trace(hex)\n");
    for Directed { words, case, told, file } in cases() {
        let answer = by_plain(&case);
        assert_eq!(answer.0, told, "{words}");
        let written = answer_text(&case, &answer);
        assert!(file.is_none_or(|file| written == format!("0 0 {file}")), "{words}");
        text += &format!("# {words}\n{case} {written}\n");
    }
    text
}
