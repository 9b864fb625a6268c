//! A plot as SVG text: lines over two logarithmic axes.

use std::fmt::Write;

/// One line of the plot.
pub struct Line {
    pub name: String,
    pub colour: &'static str,
    pub dashed: bool,
    /// Positive numbers, from left to right.
    pub points: Vec<(f64, f64)>,
}

/// A plot's words and lines.
pub struct Plot {
    pub title: String,
    pub across: String,
    pub up: String,
    pub lines: Vec<Line>,
}

const WIDTH: f64 = 760.0;
const HEIGHT: f64 = 500.0;
const LEFT: f64 = 80.0;
const RIGHT: f64 = 715.0;
const TOP: f64 = 50.0;
const BOTTOM: f64 = 440.0;

/// The decades that hold all numbers.
fn decades(numbers: impl Iterator<Item = f64>) -> (i32, i32) {
    let (low, high) = numbers.fold((f64::MAX, f64::MIN), |(low, high), number| {
        (low.min(number.log10()), high.max(number.log10()))
    });
    let low = (low + 1e-9).floor() as i32;
    (low, ((high - 1e-9).ceil() as i32).max(low + 1))
}

/// Where a number stands between two ends.
fn place(number: f64, (low, high): (i32, i32), from: f64, to: f64) -> f64 {
    let share = (number.log10() - f64::from(low)) / f64::from(high - low);
    from + share * (to - from)
}

/// A power of ten in words: 1,000 or 0.01.
fn decade_name(decade: i32) -> String {
    if decade < 0 {
        return format!("{:.*}", decade.unsigned_abs() as usize, 10f64.powi(decade));
    }
    let digits = format!("1{}", "0".repeat(decade.unsigned_abs() as usize));
    let mut name = String::new();
    for (place, digit) in digits.chars().enumerate() {
        if place > 0 && (digits.len() - place) % 3 == 0 {
            name.push(',');
        }
        name.push(digit);
    }
    name
}

impl Plot {
    /// The plot as SVG.
    pub fn to_svg(&self) -> String {
        let points = || self.lines.iter().flat_map(|line| &line.points);
        let across = decades(points().map(|point| point.0));
        let up = decades(points().map(|point| point.1));
        let mut svg = format!(
            "<svg xmlns=\"http://www.w3.org/2000/svg\" viewBox=\"0 0 {WIDTH} {HEIGHT}\" \
             font-family=\"sans-serif\" font-size=\"13\">\n\
             <rect width=\"{WIDTH}\" height=\"{HEIGHT}\" fill=\"white\"/>\n"
        );
        text(&mut svg, (WIDTH / 2.0, 26.0), "middle", "", &self.title);
        rules(&mut svg, across, up);
        let below = ((LEFT + RIGHT) / 2.0, BOTTOM + 46.0);
        text(&mut svg, below, "middle", "", &self.across);
        let turn = " transform=\"rotate(-90 22 245)\"";
        text(&mut svg, (22.0, 245.0), "middle", turn, &self.up);
        for (number, line) in self.lines.iter().enumerate() {
            let at = |point: &(f64, f64)| {
                let x = place(point.0, across, LEFT, RIGHT);
                (x, place(point.1, up, BOTTOM, TOP))
            };
            draw(&mut svg, line, line.points.iter().map(at));
            let below = self.lines.len() - number;
            legend(&mut svg, line, BOTTOM - 20.0 * below as f64);
        }
        svg.push_str("</svg>\n");
        svg
    }
}

/// A rule with its name for each decade, across and up.
fn rules(svg: &mut String, across: (i32, i32), up: (i32, i32)) {
    for decade in across.0..=across.1 {
        let x = place(10f64.powi(decade), across, LEFT, RIGHT);
        rule(svg, (x, TOP), (x, BOTTOM));
        let name = decade_name(decade);
        text(svg, (x, BOTTOM + 20.0), "middle", "", &name);
    }
    for decade in up.0..=up.1 {
        let y = place(10f64.powi(decade), up, BOTTOM, TOP);
        rule(svg, (LEFT, y), (RIGHT, y));
        let name = decade_name(decade);
        text(svg, (LEFT - 8.0, y + 4.0), "end", "", &name);
    }
}

fn text(svg: &mut String, (x, y): (f64, f64), anchor: &str, more: &str, words: &str) {
    let words = words.replace('&', "&amp;").replace('<', "&lt;");
    let _ = writeln!(
        svg,
        "<text x=\"{x:.1}\" y=\"{y:.1}\" text-anchor=\"{anchor}\"{more}>{words}</text>"
    );
}

fn rule(svg: &mut String, from: (f64, f64), to: (f64, f64)) {
    let _ = writeln!(
        svg,
        "<path d=\"M{:.1} {:.1}L{:.1} {:.1}\" stroke=\"#ddd\"/>",
        from.0, from.1, to.0, to.1
    );
}

fn stroke(line: &Line) -> String {
    let dashes = if line.dashed {
        " stroke-dasharray=\"6 4\""
    } else {
        ""
    };
    format!(
        "stroke=\"{}\" stroke-width=\"2\" fill=\"none\"{dashes}",
        line.colour
    )
}

fn draw(svg: &mut String, line: &Line, points: impl Iterator<Item = (f64, f64)>) {
    let points: Vec<(f64, f64)> = points.collect();
    let words: Vec<String> = points
        .iter()
        .map(|(x, y)| format!("{x:.1},{y:.1}"))
        .collect();
    let _ = writeln!(
        svg,
        "<polyline points=\"{}\" {}/>",
        words.join(" "),
        stroke(line)
    );
    for (x, y) in points {
        let _ = writeln!(
            svg,
            "<circle cx=\"{x:.1}\" cy=\"{y:.1}\" r=\"3\" fill=\"{}\"/>",
            line.colour
        );
    }
}

fn legend(svg: &mut String, line: &Line, y: f64) {
    let (from, to) = (RIGHT - 240.0, RIGHT - 208.0);
    let _ = writeln!(svg, "<path d=\"M{from} {y}L{to} {y}\" {}/>", stroke(line));
    text(svg, (to + 8.0, y + 4.0), "start", "", &line.name);
}

#[cfg(test)]
mod tests {
    use super::*;

    #[test]
    fn decades_and_their_names() {
        assert_eq!(decades([1_000.0, 1_000_000.0].into_iter()), (3, 6));
        assert_eq!(decades([0.02, 5.0].into_iter()), (-2, 1));
        assert_eq!(decades([1.0].into_iter()), (0, 1));
        assert_eq!(decade_name(0), "1");
        assert_eq!(decade_name(6), "1,000,000");
        assert_eq!(decade_name(-2), "0.01");
    }

    #[test]
    fn a_plot_has_its_words_and_points_inside() {
        let plot = Plot {
            title: "a < b".into(),
            across: "records".into(),
            up: "ms".into(),
            lines: vec![Line {
                name: "one".into(),
                colour: "black",
                dashed: true,
                points: vec![(1e3, 0.1), (1e6, 100.0)],
            }],
        };
        let svg = plot.to_svg();
        assert!(svg.starts_with("<svg ") && svg.ends_with("</svg>\n"));
        assert!(svg.contains(">a &lt; b<") && svg.contains(">1,000,000<"));
        assert!(svg.contains("points=\"80.0,440.0 715.0,50.0\""));
    }
}
