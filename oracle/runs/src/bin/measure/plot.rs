//! Draws times against a size as SVG, both axes logarithmic: a line for each call and side, and a thin bar at each point from
//! the 10th to the 90th percentile.
use crate::table;
use runs::timing::Spread;
use std::fmt::Write;

pub struct Plot<'a> {
    pub title: &'a str,
    /// What goes along the plot.
    pub along: &'a str,
    pub lines: Vec<Line>,
}

pub struct Line {
    pub name: String,
    pub colour: &'static str,
    pub dashed: bool,
    /// Sizes, and nanoseconds.
    pub points: Vec<(usize, Spread)>,
}

/// The whole drawing, and where in it the axes are.
const WIDTH: f64 = 1000.0;
const HEIGHT: f64 = 560.0;
const LEFT: f64 = 80.0;
const RIGHT: f64 = 700.0;
const TOP: f64 = 50.0;
const BOTTOM: f64 = 490.0;

/// The logarithms at both ends of an axis, and where these are in the drawing.
struct Axis {
    first: f64,
    last: f64,
    begin: f64,
    end: f64,
}

impl Axis {
    fn place(&self, value: f64) -> f64 {
        self.begin + (self.end - self.begin) * (value.log10() - self.first) / (self.last - self.first)
    }
}

impl Plot<'_> {
    pub fn drawn(&self) -> String {
        let points = || self.lines.iter().flat_map(|line| &line.points);
        let least = points().map(|point| point.1.low).fold(f64::INFINITY, f64::min);
        let most = points().map(|point| point.1.high).fold(0.0, f64::max);
        let sizes: Vec<usize> = self.lines[0].points.iter().map(|point| point.0).collect();
        let end = |size: Option<&usize>| (*size.expect("a size") as f64).log10();
        // A little room on either side, so that no point lies on a border.
        let across = Axis { first: end(sizes.first()) - 0.1, last: end(sizes.last()) + 0.1, begin: LEFT, end: RIGHT };
        let up = Axis { first: least.log10().floor(), last: most.log10().ceil(), begin: BOTTOM, end: TOP };

        let mut svg = format!(
            "<svg xmlns=\"http://www.w3.org/2000/svg\" viewBox=\"0 0 {WIDTH} {HEIGHT}\" width=\"{WIDTH}\" \
             height=\"{HEIGHT}\" font-family=\"sans-serif\" font-size=\"13\" fill=\"#222\">\n\
             <rect width=\"{WIDTH}\" height=\"{HEIGHT}\" fill=\"#fff\"/>\n"
        );
        text(&mut svg, (LEFT, 28.0), "start", self.title);
        text(&mut svg, ((LEFT + RIGHT) / 2.0, HEIGHT - 20.0), "middle", self.along);
        for size in sizes {
            let x = across.place(size as f64);
            rule(&mut svg, (x, TOP), (x, BOTTOM), "#ddd");
            text(&mut svg, (x, BOTTOM + 20.0), "middle", &table::grouped(size));
        }
        for decade in up.first as i32..=up.last as i32 {
            let y = up.place(10f64.powi(decade));
            rule(&mut svg, (LEFT, y), (RIGHT, y), "#ddd");
            text(&mut svg, (LEFT - 8.0, y + 4.0), "end", &power_of_ten(decade));
        }
        rule(&mut svg, (LEFT, BOTTOM), (RIGHT, BOTTOM), "#222");
        rule(&mut svg, (LEFT, TOP), (LEFT, BOTTOM), "#222");
        for (place, line) in self.lines.iter().enumerate() {
            line.draw(&mut svg, &across, &up);
            line.explain(&mut svg, TOP + 14.0 + 26.0 * place as f64);
        }
        svg + "</svg>\n"
    }
}

impl Line {
    fn draw(&self, svg: &mut String, across: &Axis, up: &Axis) {
        let place = |(size, time): &(usize, Spread)| (across.place(*size as f64), up.place(time.median));
        let path: Vec<_> = self.points.iter().map(place).collect();
        self.stroke(svg, &path);
        for ((_, time), (x, y)) in self.points.iter().zip(path) {
            rule(svg, (x, up.place(time.low)), (x, up.place(time.high)), self.colour);
            self.mark(svg, (x, y));
        }
    }

    /// Its line of the legend.
    fn explain(&self, svg: &mut String, y: f64) {
        let x = RIGHT + 20.0;
        self.stroke(svg, &[(x, y), (x + 36.0, y)]);
        self.mark(svg, (x + 18.0, y));
        text(svg, (x + 44.0, y + 4.0), "start", &self.name);
    }

    fn stroke(&self, svg: &mut String, path: &[(f64, f64)]) {
        let path: Vec<String> = path.iter().map(|(x, y)| format!("{x:.1},{y:.1}")).collect();
        let dashes = if self.dashed { " stroke-dasharray=\"6 4\"" } else { "" };
        let (path, pen) = (path.join(" "), format!("stroke=\"{}\" stroke-width=\"2\"{dashes}", self.colour));
        append(svg, format_args!("<polyline points=\"{path}\" fill=\"none\" {pen}/>"));
    }

    /// A full circle for a full line, an empty one for a dashed line.
    fn mark(&self, svg: &mut String, (x, y): (f64, f64)) {
        let (fill, colour) = (if self.dashed { "#fff" } else { self.colour }, self.colour);
        append(svg, format_args!("<circle cx=\"{x:.1}\" cy=\"{y:.1}\" r=\"3.5\" fill=\"{fill}\" stroke=\"{colour}\"/>"));
    }
}

fn rule(svg: &mut String, (x, y): (f64, f64), (to_x, to_y): (f64, f64), colour: &str) {
    append(svg, format_args!("<path d=\"M{x:.1} {y:.1}L{to_x:.1} {to_y:.1}\" stroke=\"{colour}\"/>"));
}

fn text(svg: &mut String, (x, y): (f64, f64), anchor: &str, words: &str) {
    append(svg, format_args!("<text x=\"{x:.1}\" y=\"{y:.1}\" text-anchor=\"{anchor}\">{words}</text>"));
}

fn append(svg: &mut String, element: std::fmt::Arguments<'_>) {
    writeln!(svg, "{element}").expect("a string takes all");
}

/// So many nanoseconds: 10 µs, 100 ms.
fn power_of_ten(power: i32) -> String {
    let unit = ["ns", "µs", "ms", "s"][(power / 3) as usize];
    format!("{} {unit}", 10i32.pow(power as u32 % 3))
}
