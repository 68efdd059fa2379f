//! Growth of the subsumption table's time with the entries, drawn as SVG: both axes logarithmic,
//! whole lines for the proved code and dashed ones for the plain.

use std::fmt::Write;
use std::fs;

use hermitcasket_tests::families::{Family, FAMILIES};

use crate::below::{times, SIZES};
use crate::timing::Times;

const WIDTH: f64 = 760.0;
const HEIGHT: f64 = 500.0;
const LEFT: f64 = 76.0;
const RIGHT: f64 = 540.0;
const TOP: f64 = 52.0;
const BOTTOM: f64 = 436.0;
const LEGEND: f64 = 568.0;

const COLOURS: [&str; 6] = ["#0072b2", "#d55e00", "#009e73", "#cc79a7", "#e69f00", "#56b4e9"];
/// Lines of the grid, in microseconds.
const TICKS: [f64; 13] = [1.0, 2.0, 5.0, 10.0, 20.0, 50.0, 100.0, 200.0, 500.0, 1e3, 2e3, 5e3, 1e4];

struct Series {
    family: Family,
    colour: &'static str,
    times: Vec<Times>,
}

/// Measures and draws into the file.
pub fn write(path: &str) {
    let series: Vec<Series> = FAMILIES.iter().zip(COLOURS).map(measure).collect();
    fs::write(path, draw(&series)).expect("the picture can be written");
}

fn measure((&family, colour): (&Family, &'static str)) -> Series {
    Series { family, colour, times: SIZES.iter().map(|&n| times(family, n)).collect() }
}

/// The ticks just outside the times.
struct Scale {
    low: f64,
    high: f64,
}

impl Scale {
    fn new(series: &[Series]) -> Scale {
        let all = series.iter().flat_map(|one| &one.times).flat_map(|t| [t.proved, t.plain]);
        let (least, most) = all.fold((f64::MAX, 0.0f64), |(a, b), t| (a.min(t), b.max(t)));
        let low = TICKS.iter().rev().find(|&&tick| tick <= least).unwrap_or(&TICKS[0]);
        let high = TICKS.iter().find(|&&tick| tick >= most).unwrap_or(&TICKS[12]);
        Scale { low: *low, high: *high }
    }

    fn y(&self, micros: f64) -> f64 {
        let share = (micros / self.low).ln() / (self.high / self.low).ln();
        BOTTOM - share * (BOTTOM - TOP)
    }

    fn points(&self, micros: impl Iterator<Item = f64>) -> Vec<(f64, f64)> {
        SIZES.iter().map(|&n| x(n)).zip(micros.map(|m| self.y(m))).collect()
    }
}

fn x(entries: usize) -> f64 {
    let share = (entries as f64 / SIZES[0] as f64).ln() / (SIZES[3] as f64 / SIZES[0] as f64).ln();
    LEFT + 16.0 + share * (RIGHT - LEFT - 32.0)
}

fn draw(series: &[Series]) -> String {
    let scale = Scale::new(series);
    let mut svg = format!(
        "<svg xmlns=\"http://www.w3.org/2000/svg\" viewBox=\"0 0 {} {}\" width=\"{0}\" \
         height=\"{1}\" font-family=\"sans-serif\" font-size=\"13\" fill=\"#222\">\n\
         <rect width=\"100%\" height=\"100%\" fill=\"#fff\"/>\n",
        WIDTH, HEIGHT
    );
    text(&mut svg, (LEFT, 28.0), "start", "Time of one subsumption table by number of entries");
    grid(&mut svg, &scale);
    square(&mut svg, &scale);
    for one in series {
        let plain = scale.points(one.times.iter().map(|t| t.plain));
        line(&mut svg, &plain, one.colour, "stroke-width=\"1.2\" stroke-dasharray=\"4 4\"");
    }
    for one in series {
        let proved = scale.points(one.times.iter().map(|t| t.proved));
        line(&mut svg, &proved, one.colour, "stroke-width=\"2.4\"");
        dots(&mut svg, &proved, one.colour);
    }
    legend(&mut svg, series);
    svg + "</svg>\n"
}

fn text(svg: &mut String, (x, y): (f64, f64), anchor: &str, words: &str) {
    let _ = writeln!(
        svg,
        "<text x=\"{:.1}\" y=\"{:.1}\" text-anchor=\"{}\">{}</text>",
        x, y, anchor, words
    );
}

fn line(svg: &mut String, points: &[(f64, f64)], colour: &str, stroke: &str) {
    let points: Vec<String> = points.iter().map(|(x, y)| format!("{:.1},{:.1}", x, y)).collect();
    let points = points.join(" ");
    let _ = writeln!(
        svg,
        "<polyline points=\"{}\" fill=\"none\" stroke=\"{}\" {}/>",
        points, colour, stroke
    );
}

fn dots(svg: &mut String, points: &[(f64, f64)], colour: &str) {
    for (x, y) in points {
        let _ = writeln!(
            svg,
            "<circle cx=\"{:.1}\" cy=\"{:.1}\" r=\"3.5\" fill=\"{}\"/>",
            x, y, colour
        );
    }
}

fn grid(svg: &mut String, scale: &Scale) {
    for &tick in TICKS.iter().filter(|&&tick| scale.low <= tick && tick <= scale.high) {
        let y = scale.y(tick);
        line(svg, &[(LEFT, y), (RIGHT, y)], "#ddd", "");
        text(svg, (LEFT - 8.0, y + 4.0), "end", &tick.to_string());
    }
    for n in SIZES {
        line(svg, &[(x(n), TOP), (x(n), BOTTOM)], "#ddd", "");
        text(svg, (x(n), BOTTOM + 20.0), "middle", &n.to_string());
    }
    let middle = (LEFT + RIGHT) / 2.0;
    text(svg, (middle, BOTTOM + 44.0), "middle", "entries, with half as many inclusions");
    let _ = writeln!(
        svg,
        "<text transform=\"translate(24 {}) rotate(-90)\" text-anchor=\"middle\">microseconds</text>",
        (TOP + BOTTOM) / 2.0
    );
}

/// What four times the time for twice the entries looks like, up to the upper right corner.
fn square(svg: &mut String, scale: &Scale) {
    let micros = |n: usize| scale.high * (n as f64 / SIZES[3] as f64).powi(2);
    let inside: Vec<(f64, f64)> = SIZES
        .iter()
        .filter(|&&n| micros(n) >= scale.low)
        .map(|&n| (x(n), scale.y(micros(n))))
        .collect();
    line(svg, &inside, "#aaa", "stroke-width=\"7\" stroke-opacity=\"0.35\"");
}

fn legend(svg: &mut String, series: &[Series]) {
    let mut y = TOP + 8.0;
    let mut entry = |svg: &mut String, colour: &str, stroke: &str, words: &str| {
        line(svg, &[(LEGEND, y), (LEGEND + 28.0, y)], colour, stroke);
        text(svg, (LEGEND + 38.0, y + 4.0), "start", words);
        y += 24.0;
    };
    for one in series {
        entry(svg, one.colour, "stroke-width=\"2.4\"", one.family.label());
    }
    entry(svg, "#222", "stroke-width=\"2.4\"", "proved");
    entry(svg, "#222", "stroke-width=\"1.2\" stroke-dasharray=\"4 4\"", "plain Rust");
    let wide = "stroke-width=\"7\" stroke-opacity=\"0.35\"";
    entry(svg, "#aaa", wide, "four times for twice");
}
