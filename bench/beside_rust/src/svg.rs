//! The drawing: the ratios as bars, and beside them how the time a byte goes with the size.

use crate::rounds::Row;
use crate::rows::Point;

const WIDTH: f64 = 1240.0;
const TOP: f64 = 96.0;
const BAR: f64 = 30.0;
const BARS: (f64, f64) = (290.0, 690.0);
const PLOT: (f64, f64) = (860.0, 1200.0);
const FASTER: &str = "#2b6c99";
const SLOWER: &str = "#b5562f";
const STYLE: &str = "text{font:14px sans-serif;fill:#1d2630}.head{font-size:17px;font-weight:bold}\
    .small{font-size:12px;fill:#4a5560}.middle{text-anchor:middle}.end{text-anchor:end}\
    .grid{stroke:#dde2e7}.one{stroke:#1d2630;stroke-width:1.5}.curve{fill:none;stroke-width:2.5}";

pub fn draw(rows: &[Row], points: &[Point]) -> String {
    let bottom = TOP + BAR * rows.len() as f64;
    let height = bottom + 64.0;
    let size = format!("width=\"{WIDTH}\" height=\"{height}\"");
    let mut drawing = Drawing {
        svg: String::new(),
        bottom,
    };
    drawing.bars(rows);
    drawing.growth(points);
    format!(
        "<svg xmlns=\"http://www.w3.org/2000/svg\" {size} viewBox=\"0 0 {WIDTH} {height}\">\n\
         <style>{STYLE}</style>\n<rect {size} fill=\"#ffffff\"/>\n{}</svg>\n",
        drawing.svg
    )
}

/// An axis from 0 to a round number above the greatest value, between two places.
struct Axis {
    most: f64,
    from: f64,
    to: f64,
}

impl Axis {
    fn new(values: impl Iterator<Item = f64>, (from, to): (f64, f64)) -> Self {
        let most = (2.2 * values.fold(1.0, f64::max)).ceil() / 2.0;
        Self { most, from, to }
    }

    fn at(&self, value: f64) -> f64 {
        self.from + (self.to - self.from) * value / self.most
    }

    /// 0, 0.5, 1 and so on, each with its place.
    fn ticks(&self) -> impl Iterator<Item = (String, f64)> + '_ {
        let values = (0..=(2.0 * self.most) as u32).map(|half| f64::from(half) / 2.0);
        values.map(|value| (format!("{value:.1}"), self.at(value)))
    }
}

/// What is drawn so far; both plots stand on the same line.
struct Drawing {
    svg: String,
    bottom: f64,
}

impl Drawing {
    fn bars(&mut self, rows: &[Row]) {
        let middle = (BARS.0 + BARS.1) / 2.0;
        let axis = Axis::new(rows.iter().filter_map(|row| row.ratio(0)), BARS);
        self.text((24.0, 36.0), "head", "The Rust's time over Fringewell's");
        self.text(
            (24.0, 60.0),
            "small",
            "Right of the line at 1.0 Fringewell is faster.",
        );
        self.upright(&axis);
        for (i, row) in rows.iter().enumerate() {
            self.bar(&axis, TOP + BAR * i as f64, row);
        }
        self.rule(
            "one",
            (axis.at(1.0), TOP - 8.0),
            (axis.at(1.0), self.bottom + 4.0),
        );
        self.text(
            (middle, self.bottom + 46.0),
            "middle",
            "time of the Rust / time of Fringewell",
        );
    }

    fn upright(&mut self, axis: &Axis) {
        for (name, x) in axis.ticks() {
            self.rule("grid", (x, TOP), (x, self.bottom));
            self.text((x, self.bottom + 20.0), "small middle", &name);
        }
    }

    /// A row's name, bar and ratio; the ratios stand below each other, right of all bars.
    fn bar(&mut self, axis: &Axis, y: f64, row: &Row) {
        let ratio = row.ratio(0).unwrap_or(0.0);
        let wide = axis.at(ratio) - axis.from;
        let colour = if ratio < 1.0 { SLOWER } else { FASTER };
        self.text((BARS.0 - 12.0, y + 20.0), "end", row.name);
        self.rectangle((BARS.0, y + 5.0), (wide, BAR - 10.0), colour);
        self.text((BARS.1 + 46.0, y + 20.0), "end", &format!("{ratio:.2}"));
    }

    fn growth(&mut self, points: &[Point]) {
        let middle = (PLOT.0 + PLOT.1) / 2.0;
        let greatest = points.iter().map(|point| point.rust.max(point.ours));
        let axis = Axis::new(greatest, (self.bottom, TOP));
        self.text(
            (PLOT.0 - 60.0, 36.0),
            "head",
            "The whole check as the document grows",
        );
        self.text(
            (PLOT.0 - 60.0, 60.0),
            "small",
            "Level: time grows as the size does. Lower is faster.",
        );
        self.level(&axis);
        self.text((PLOT.0 - 60.0, TOP - 10.0), "small", "ns a byte");
        self.text(
            (middle, self.bottom + 46.0),
            "middle",
            "size of a document of small elements",
        );
        self.sizes(points);
        self.curve(
            SLOWER,
            ("Rust", PLOT.0 + 40.0),
            points.iter().map(|point| axis.at(point.rust)),
        );
        self.curve(
            FASTER,
            ("Fringewell", PLOT.0 + 160.0),
            points.iter().map(|point| axis.at(point.ours)),
        );
    }

    fn level(&mut self, axis: &Axis) {
        for (name, y) in axis.ticks() {
            self.rule("grid", (PLOT.0, y), (PLOT.1, y));
            self.text((PLOT.0 - 10.0, y + 4.0), "small end", &name);
        }
    }

    fn sizes(&mut self, points: &[Point]) {
        for (point, x) in points.iter().zip(across(points.len())) {
            self.text(
                (x, self.bottom + 20.0),
                "small middle",
                &size_name(point.size),
            );
        }
    }

    /// A curve through these heights, and its name above the plot.
    fn curve(
        &mut self,
        colour: &str,
        name: (&str, f64),
        heights: impl ExactSizeIterator<Item = f64>,
    ) {
        let places = across(heights.len()).zip(heights);
        let places: Vec<String> = places.map(|(x, y)| format!("{x:.1},{y:.1}")).collect();
        let places = places.join(" ");
        self.svg +=
            &format!("<polyline class=\"curve\" stroke=\"{colour}\" points=\"{places}\"/>\n");
        self.rectangle((name.1 - 20.0, TOP - 21.0), (12.0, 12.0), colour);
        self.text((name.1, TOP - 10.0), "", name.0);
    }

    fn rectangle(&mut self, (x, y): (f64, f64), (wide, high): (f64, f64), colour: &str) {
        let size = format!("width=\"{wide:.1}\" height=\"{high:.1}\"");
        self.svg += &format!("<rect x=\"{x:.1}\" y=\"{y:.1}\" {size} fill=\"{colour}\"/>\n");
    }

    fn rule(&mut self, class: &str, (x1, y1): (f64, f64), (x2, y2): (f64, f64)) {
        let ends = format!("x1=\"{x1:.1}\" y1=\"{y1:.1}\" x2=\"{x2:.1}\" y2=\"{y2:.1}\"");
        self.svg += &format!("<line class=\"{class}\" {ends}/>\n");
    }

    fn text(&mut self, (x, y): (f64, f64), class: &str, words: &str) {
        self.svg += &format!("<text class=\"{class}\" x=\"{x:.1}\" y=\"{y:.1}\">{words}</text>\n");
    }
}

/// So many places across the plot, the first and the last at its ends.
fn across(count: usize) -> impl Iterator<Item = f64> {
    let step = (PLOT.1 - PLOT.0) / (count - 1) as f64;
    (0..count).map(move |i| PLOT.0 + step * i as f64)
}

fn size_name(size: usize) -> String {
    let kilobytes = (size as f64 / 1024.0).round();
    if kilobytes < 1024.0 {
        format!("{kilobytes} KB")
    } else {
        format!("{} MB", (kilobytes / 1024.0).round())
    }
}
