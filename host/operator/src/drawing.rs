//! What the pictures are drawn with: words, lines, and a field over which one number runs along and another up.

/// The width of every picture, and the left and right edges of its fields.
const WIDTH: f64 = 1200.0;
pub const LEFT: f64 = 70.0;
pub const RIGHT: f64 = 1080.0;

/// The colours of what is drawn across a field, and of its edges.
const FAINT: &str = "#dddddd";
pub const EDGE: &str = "#444444";

pub fn words(x: f64, y: f64, anchor: &str, text: &str) -> String {
    format!("<text x=\"{x:.1}\" y=\"{y:.1}\" text-anchor=\"{anchor}\">{text}</text>\n")
}

/// Words in the middle between the fields' edges.
pub fn centred(y: f64, text: &str) -> String {
    words((LEFT + RIGHT) / 2.0, y, "middle", text)
}

pub fn line(from: (f64, f64), to: (f64, f64), stroke: &str) -> String {
    format!("<line x1=\"{:.1}\" y1=\"{:.1}\" x2=\"{:.1}\" y2=\"{:.1}\" stroke=\"{stroke}\"/>\n", from.0, from.1, to.0, to.1)
}

/// Where numbers lie on the picture: those that run along from 0 to `widest`, and those that run up from 0 to `highest`.
pub struct Field {
    pub top: f64,
    pub bottom: f64,
    pub widest: f64,
    pub highest: f64,
}

/// 0, the step, twice the step and so on to the last.
fn steps(step: usize, last: f64) -> impl Iterator<Item = f64> {
    (0..).step_by(step).map(f64::from).take_while(move |number| *number <= last)
}

impl Field {
    pub fn x(&self, along: f64) -> f64 {
        LEFT + (RIGHT - LEFT) * along / self.widest
    }

    pub fn y(&self, up: f64) -> f64 {
        self.bottom - (self.bottom - self.top) * up / self.highest
    }

    /// A line from point to point.
    pub fn curve(&self, points: impl Iterator<Item = (f64, f64)>, stroke: &str) -> String {
        let points: Vec<String> = points.map(|(along, up)| format!("{:.1},{:.1}", self.x(along), self.y(up))).collect();
        format!("<polyline points=\"{}\" fill=\"none\" stroke=\"{stroke}\" stroke-width=\"2\"/>\n", points.join(" "))
    }

    /// A line across the field at each step up, with its number.
    pub fn levels(&self, step: usize) -> String {
        let level = |up: f64| {
            let y = self.y(up);
            line((LEFT - 5.0, y), (RIGHT, y), FAINT) + &words(LEFT - 10.0, y + 4.0, "end", &up.to_string())
        };
        steps(step, self.highest).map(level).collect()
    }

    /// A line up through the field at each step along.
    pub fn uprights(&self, step: usize) -> String {
        steps(step, self.widest).map(|along| line((self.x(along), self.top), (self.x(along), self.bottom), FAINT)).collect()
    }

    /// The numbers along, each under a mark of this length below an edge.
    pub fn numbers(&self, step: usize, edge: f64, length: f64) -> String {
        let number = |along: f64| {
            let (x, foot) = (self.x(along), edge + length);
            line((x, edge), (x, foot), EDGE) + &words(x, foot + 14.0, "middle", &along.to_string())
        };
        steps(step, self.widest).map(number).collect()
    }

    /// The lower and the left edge.
    pub fn edges(&self) -> String {
        line((LEFT, self.bottom), (RIGHT, self.bottom), EDGE) + &line((LEFT, self.top), (LEFT, self.bottom), EDGE)
    }

    /// What runs up, over the left edge.
    pub fn title(&self, text: &str) -> String {
        words(10.0, self.top - 14.0, "start", text)
    }
}

/// A file's name may hold what means something else in a picture's text.
fn plain(text: &str) -> String {
    text.replace('&', "&amp;").replace('<', "&lt;").replace('>', "&gt;")
}

/// A picture of this height, with its title over what is drawn.
pub fn picture(height: f64, title: &str, drawn: &str) -> String {
    let head = format!(
        "<svg xmlns=\"http://www.w3.org/2000/svg\" viewBox=\"0 0 {WIDTH} {height}\" font-family=\"sans-serif\" font-size=\"12\">\n\
         <rect width=\"{WIDTH}\" height=\"{height}\" fill=\"white\"/>\n"
    );
    head + &centred(22.0, &plain(title)) + drawn + "</svg>\n"
}
