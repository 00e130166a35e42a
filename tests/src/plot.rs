//! A plot of time over ticks, both axes by powers of ten, as SVG.

/// A line of the plot: ticks and nanoseconds.
pub struct Series {
    pub name: &'static str,
    pub points: Vec<(f64, f64)>,
}

const COLOURS: [&str; 3] = ["#b03030", "#3060b0", "#208040"];
const LEFT: f64 = 80.0;
const TOP: f64 = 30.0;
const WIDTH: f64 = 540.0;
const HEIGHT: f64 = 320.0;
/// Powers of ten on the axes: ticks up to 10^9, time from 10 ns to 1 s.
const TICKS: f64 = 9.0;
const LEAST: f64 = 1.0;
const MOST: f64 = 9.0;

fn x(ticks: f64) -> f64 {
    LEFT + WIDTH * ticks.log10() / TICKS
}

fn y(nanoseconds: f64) -> f64 {
    TOP + HEIGHT * (MOST - nanoseconds.log10()) / (MOST - LEAST)
}

fn text(x: f64, y: f64, anchor: &str, words: &str) -> String {
    format!("<text x=\"{x:.1}\" y=\"{y:.1}\" text-anchor=\"{anchor}\">{words}</text>\n")
}

fn axes() -> String {
    let mut svg = String::new();
    for k in 0..=9 {
        let at = x(10f64.powi(k));
        svg += &format!("<path d=\"M{at:.1} {TOP} V{:.1}\" stroke=\"#ddd\"/>\n", TOP + HEIGHT);
        svg += &text(at, TOP + HEIGHT + 18.0, "middle", &format!("10^{k}"));
    }
    for (k, words) in [(1, "10 ns"), (3, "1 µs"), (6, "1 ms"), (9, "1 s")] {
        let at = y(10f64.powi(k));
        svg += &format!("<path d=\"M{LEFT} {at:.1} H{:.1}\" stroke=\"#ddd\"/>\n", LEFT + WIDTH);
        svg += &text(LEFT - 8.0, at + 4.0, "end", words);
    }
    svg + &text(LEFT + WIDTH / 2.0, TOP + HEIGHT + 40.0, "middle", "ticks of one advance")
}

fn line(series: &Series, colour: &str) -> String {
    let places: Vec<String> = series.points.iter().map(|&(n, t)| format!("{:.1},{:.1}", x(n), y(t))).collect();
    format!("<polyline points=\"{}\" fill=\"none\" stroke=\"{colour}\" stroke-width=\"2\"/>\n", places.join(" "))
}

pub fn draw(all: &[Series]) -> String {
    let mut svg = format!(
        "<svg xmlns=\"http://www.w3.org/2000/svg\" width=\"{:.0}\" height=\"{:.0}\" font-family=\"sans-serif\" font-size=\"12\">\n\
         <rect width=\"100%\" height=\"100%\" fill=\"white\"/>\n",
        LEFT + WIDTH + 40.0,
        TOP + HEIGHT + 60.0
    );
    svg += &axes();
    for (nth, series) in all.iter().enumerate() {
        let colour = COLOURS[nth % COLOURS.len()];
        svg += &line(series, colour);
        svg += &format!(
            "<g fill=\"{colour}\">{}</g>\n",
            text(LEFT + 12.0, TOP + 18.0 + 16.0 * nth as f64, "start", series.name)
        );
    }
    svg + "</svg>\n"
}
