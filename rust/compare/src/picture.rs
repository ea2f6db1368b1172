//! The picture of a benchmark: nanoseconds a word over the size of an image, both by powers, as SVG.

use std::fmt::Write;

const WIDTH: f64 = 760.0;
const HEIGHT: f64 = 440.0;
const LEFT: f64 = 70.0;
const RIGHT: f64 = 150.0;
const TOP: f64 = 40.0;
const BOTTOM: f64 = 50.0;

/// A line of the picture.
pub struct Curve {
    pub name: &'static str,
    pub colour: &'static str,
    pub dashed: bool,
    /// Nanoseconds a word, for each size.
    pub figures: Vec<f64>,
}

/// Both axes of the picture, each by powers.
struct Axes {
    words: (f64, f64),
    figures: (f64, f64),
}

impl Axes {
    fn of(sizes: &[f64], curves: &[Curve]) -> Self {
        let all = || curves.iter().flat_map(|curve| curve.figures.iter().copied());
        let low = all().fold(f64::MAX, f64::min).log10().floor();
        let high = all().fold(f64::MIN, f64::max).log10().ceil();
        let words = |size: Option<&f64>| size.map_or(0.0, |words| words.log2());
        Axes { words: (words(sizes.first()), words(sizes.last())), figures: (low, high.max(low + 1.0)) }
    }

    fn x(&self, words: f64) -> f64 {
        let (low, high) = self.words;
        LEFT + (words.log2() - low) / (high - low).max(0.001) * (WIDTH - LEFT - RIGHT)
    }

    fn y(&self, figure: f64) -> f64 {
        let (low, high) = self.figures;
        HEIGHT - BOTTOM - (figure.log10() - low) / (high - low) * (HEIGHT - TOP - BOTTOM)
    }
}

/// The growth over sizes, in words, as SVG.
pub fn picture(sizes: &[f64], curves: &[Curve]) -> String {
    let axes = Axes::of(sizes, curves);
    let mut svg = format!(
        "<svg xmlns=\"http://www.w3.org/2000/svg\" viewBox=\"0 0 {WIDTH} {HEIGHT}\" font-family=\"sans-serif\" \
         font-size=\"12\">\n<rect width=\"{WIDTH}\" height=\"{HEIGHT}\" fill=\"white\"/>\n\
         <text x=\"{LEFT}\" y=\"22\" font-size=\"14\">Nanoseconds a word over words of the image; dashed: the plain \
         reading</text>\n"
    );
    svg += &grid(sizes, &axes);
    svg.extend(curves.iter().map(|curve| line(sizes, &axes, curve)));
    svg += &legend(&axes, curves);
    svg + "</svg>\n"
}

/// A line for each power of ten and each size, with its label.
fn grid(sizes: &[f64], axes: &Axes) -> String {
    let mut svg = String::new();
    let (left, right, bottom) = (LEFT, WIDTH - RIGHT, HEIGHT - BOTTOM);
    let (low, high) = axes.figures;
    for power in low as i32..=high as i32 {
        let figure = 10f64.powi(power);
        let y = axes.y(figure);
        write!(
            svg,
            "<line x1=\"{left}\" y1=\"{y:.1}\" x2=\"{right}\" y2=\"{y:.1}\" stroke=\"#dddddd\"/>\n\
             <text x=\"{:.1}\" y=\"{:.1}\" text-anchor=\"end\">{figure}</text>\n",
            left - 8.0,
            y + 4.0
        )
        .expect("a string takes all");
    }
    for size in sizes {
        let x = axes.x(*size);
        write!(
            svg,
            "<line x1=\"{x:.1}\" y1=\"{TOP}\" x2=\"{x:.1}\" y2=\"{bottom}\" stroke=\"#eeeeee\"/>\n\
             <text x=\"{x:.1}\" y=\"{:.1}\" text-anchor=\"middle\">{size}</text>\n",
            bottom + 18.0
        )
        .expect("a string takes all");
    }
    svg
}

fn line(sizes: &[f64], axes: &Axes, curve: &Curve) -> String {
    let point = |(size, figure): (&f64, &f64)| format!("{:.1},{:.1}", axes.x(*size), axes.y(*figure));
    let points: Vec<String> = sizes.iter().zip(&curve.figures).map(point).collect();
    let dash = if curve.dashed { " stroke-dasharray=\"5 4\"" } else { "" };
    format!(
        "<polyline points=\"{}\" fill=\"none\" stroke=\"{}\" stroke-width=\"2\"{dash}/>\n",
        points.join(" "),
        curve.colour
    )
}

/// The names beside the ends of their curves, pushed apart where they would touch.
fn legend(axes: &Axes, curves: &[Curve]) -> String {
    let mut svg = String::new();
    let end = |curve: &Curve| curve.figures.last().map_or(HEIGHT, |figure| axes.y(*figure));
    let mut labels: Vec<(f64, &Curve)> = curves.iter().map(|curve| (end(curve), curve)).collect();
    labels.sort_by(|one, other| one.0.total_cmp(&other.0));
    let mut last = f64::MIN;
    for (y, curve) in labels {
        last = y.max(last + 15.0);
        writeln!(
            svg,
            "<text x=\"{:.1}\" y=\"{:.1}\" fill=\"{}\">{}</text>",
            WIDTH - RIGHT + 10.0,
            last + 4.0,
            curve.colour,
            curve.name
        )
        .expect("a string takes all");
    }
    svg
}
