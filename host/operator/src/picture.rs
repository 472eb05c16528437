//! The row as a picture: the speed over time in the colour of its gear, below it the gears as steps, and the seconds in which the clutch is out.

use crate::drawing::{centred, line, picture, words, Field, EDGE, LEFT, RIGHT};
use crate::row::Second;

const HEIGHT: f64 = FOOT + 80.0;
/// The edges of the field in which the speed is drawn.
const TOP: f64 = 50.0;
const BOTTOM: f64 = 400.0;
/// The height of one gear among the steps: a gear is told by where it stands, also by those who see no colours and on grey paper.
const STEP: f64 = 12.0;
/// The lower edge of the steps, of which neutral is the lowest.
const FOOT: f64 = BOTTOM + 10.0 + 9.0 * STEP;
/// The height of a bar: of a gear's seconds, and of the clutch's between the steps and the numbers of the time axis.
const BAND: f64 = 8.0;

/// From neutral to gear 8; apart for eyes that do not see red and green apart.
const COLOURS: [&str; 9] = ["#888888", "#332288", "#88ccee", "#117733", "#999933", "#ddaa33", "#cc6677", "#aa4499", "#882255"];

fn colour(gear: u8) -> &'static str {
    COLOURS.get(usize::from(gear)).copied().unwrap_or("#000000")
}

/// The speed in km/h over the time in seconds.
fn field_of(row: &[Second]) -> Field {
    let fastest = row.iter().map(|second| second.speed).max().unwrap_or(0);
    // To the next 20 km/h, so that the highest number closes the field.
    Field { top: TOP, bottom: BOTTOM, widest: row.len().max(1) as f64, highest: f64::from((fastest / 200 + 1) * 20) }
}

/// The seconds from one number of the time axis to the next, so that they stand apart.
fn tick(seconds: usize) -> usize {
    match seconds {
        1201.. => 120,
        121.. => 60,
        _ => 10,
    }
}

fn bar(x: f64, y: f64, width: f64, fill: &str) -> String {
    format!("<rect x=\"{x:.1}\" y=\"{y:.1}\" width=\"{width:.1}\" height=\"{BAND}\" fill=\"{fill}\"/>\n")
}

fn axes(field: &Field, seconds: usize) -> String {
    let numbers = field.levels(20) + &field.numbers(tick(seconds), FOOT, 18.0);
    let edges = field.edges() + &line((LEFT, FOOT), (RIGHT, FOOT), EDGE);
    numbers + &edges + &centred(FOOT + 56.0, "time, s") + &field.title("speed, km/h")
}

/// A line for each run of one gear. It begins at the second before, so that the line has no gaps.
fn speeds(field: &Field, row: &[Second]) -> String {
    let mut text = String::new();
    let mut before: Option<&Second> = None;
    for run in row.chunk_by(|a, b| a.gear == b.gear) {
        let points = before.into_iter().chain(run).map(|second| (second.number as f64, f64::from(second.speed) / 10.0));
        text += &field.curve(points, colour(run[0].gear));
        before = run.last();
    }
    text
}

/// A bar over the seconds of a run. The second n lasts from n - 1 to n.
fn run_bar(field: &Field, run: &[Second], y: f64, fill: &str) -> String {
    let from = field.x((run[0].number - 1) as f64);
    bar(from, y, field.x(run[run.len() - 1].number as f64) - from, fill)
}

/// The upper edge of a gear's bars.
fn step(gear: u8) -> f64 {
    FOOT - STEP * (f64::from(gear) + 1.0)
}

/// A bar for each run of one gear, on that gear's step.
fn steps(field: &Field, row: &[Second]) -> String {
    let names =
        gears(row).map(|gear| words(LEFT - 10.0, step(gear) + BAND, "end", &if gear == 0 { "N".to_string() } else { gear.to_string() }));
    let runs = row.chunk_by(|a, b| a.gear == b.gear);
    let bars = runs.map(|run| run_bar(field, run, step(run[0].gear), colour(run[0].gear)));
    words(10.0, step(8) + BAND, "start", "gear") + &names.chain(bars).collect::<String>()
}

/// A bar for each run of seconds with the clutch out.
fn clutch(field: &Field, row: &[Second]) -> String {
    let runs = row.chunk_by(|a, b| a.clutch_out == b.clutch_out).filter(|run| run[0].clutch_out);
    runs.map(|run| run_bar(field, run, FOOT + 4.0, "#222222")).collect()
}

/// The gears of the row.
fn gears(row: &[Second]) -> impl Iterator<Item = u8> + '_ {
    (0..=8).filter(|gear| row.iter().any(|second| second.gear == *gear))
}

fn legend(row: &[Second]) -> String {
    let mut text = String::new();
    let mut y = TOP;
    for gear in gears(row) {
        let name = if gear == 0 { "neutral".to_string() } else { format!("gear {gear}") };
        text += &bar(RIGHT + 15.0, y, 20.0, colour(gear));
        text += &words(RIGHT + 42.0, y + 8.0, "start", &name);
        y += 20.0;
    }
    text + &bar(RIGHT + 15.0, FOOT + 4.0, 20.0, "#222222") + &words(RIGHT + 42.0, FOOT + 12.0, "start", "clutch out")
}

/// The whole picture.
pub fn svg(title: &str, row: &[Second]) -> String {
    let field = field_of(row);
    let drawn = axes(&field, row.len()) + &speeds(&field, row) + &steps(&field, row) + &clutch(&field, row) + &legend(row);
    picture(HEIGHT, title, &drawn)
}
