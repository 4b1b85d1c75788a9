//! The day as a picture: the best and each temperature's mean distortion over the sweeps, and how often neighbouring temperatures
//! exchanged.
use super::millimetres;
use super::svg::Svg;
use crate::day::Day;
use crate::series::Point;

const WIDTH: f64 = 940.0;
const HEIGHT: f64 = 690.0;
/// The two charts: left, top, width and height.
const COURSE: [f64; 4] = [84.0, 70.0, 700.0, 330.0];
const RATES: [f64; 4] = [84.0, 490.0, 700.0, 130.0];

/// From cold to hot, light enough to be seen on white and even in lightness steps.
const RAMP: [[i32; 3]; 5] = [[53, 42, 135], [15, 104, 190], [34, 160, 140], [214, 160, 40], [214, 60, 40]];

/// The colour of temperature j of t.
fn colour(j: usize, t: usize) -> String {
    let place = if t < 2 { 0 } else { (j * 4 * 256) / (t - 1) };
    let (stop, part) = ((place / 256).min(3), place as i32 - (place / 256).min(3) as i32 * 256);
    let [r, g, b] = [0, 1, 2].map(|k| RAMP[stop][k] + (RAMP[stop + 1][k] - RAMP[stop][k]) * part / 256);
    format!("#{r:02x}{g:02x}{b:02x}")
}

/// Round numbers from `low` to `high`, about `about` of them: 1, 2 or 5 and zeros apart.
fn ticks(low: i64, high: i64, about: i64) -> Vec<i64> {
    let least = ((high - low) / about).max(1);
    let mut step = 1;
    'all: loop {
        for times in [1, 2, 5] {
            if step * times >= least {
                step *= times;
                break 'all;
            }
        }
        step *= 10;
    }
    let first = low.div_euclid(step) * step;
    (0..).map(|k| first + k * step).skip_while(|&tick| tick < low).take_while(|&tick| tick <= high).collect()
}

/// A number's place between two others, on a line from `start` of `length`.
fn place(value: f64, low: f64, high: f64, start: f64, length: f64) -> f64 {
    if high == low {
        start
    } else {
        start + (value - low) / (high - low) * length
    }
}

/// The course's scales: sweeps, and hundredths of a millimetre.
struct Scale {
    last: f64,
    low: f64,
    high: f64,
}

impl Scale {
    fn of(points: &[Point], replicas: f64) -> Scale {
        let last = points.last().map_or(0, |point| point.sweep).max(1) as f64;
        // the morning's totals are drawn by coins, and far above all that follows: the scale is of what comes after the first twentieth
        let later = points.iter().filter(|point| point.sweep as f64 * 20.0 >= last);
        let means = later.flat_map(|point| point.sums.iter().map(|&sum| sum as f64 / replicas));
        let low = points.iter().map(|point| point.best).min().unwrap_or(0) as f64;
        let high = means.fold(low, f64::max).max(low + 1.0);
        // a little room below the best, and above the highest for words
        let room = (high - low) * 0.04;
        Scale { last, low: low - room, high: high + 2.0 * room }
    }

    fn x(&self, sweep: f64) -> f64 {
        place(sweep, 0.0, self.last, COURSE[0], COURSE[2])
    }

    /// What is above the scale comes in from its upper edge.
    fn y(&self, total: f64) -> f64 {
        place(total.min(self.high), self.high, self.low, COURSE[1], COURSE[3])
    }
}

const GRID: &str = "stroke=\"#e3e3e3\" stroke-width=\"1\"";
/// White around letters that lie on lines.
const HALO: &str = "stroke=\"#fff\" stroke-width=\"4\" stroke-linejoin=\"round\" paint-order=\"stroke\"";
const SMALL: &str = "font-size=\"11\" fill=\"#555\"";

fn axes(svg: &mut Svg, scale: &Scale) {
    let [left, top, width, height] = COURSE;
    for tick in ticks(scale.low as i64, scale.high as i64, 6) {
        let y = scale.y(tick as f64);
        svg.line("tick", [left, y, left + width, y], GRID);
        svg.text([left - 8.0, y + 4.0], &format!("text-anchor=\"end\" {SMALL}"), &millimetres(tick));
    }
    for tick in ticks(0, scale.last as i64, 8) {
        let x = scale.x(tick as f64);
        svg.line("tick", [x, top, x, top + height], GRID);
        svg.text([x, top + height + 17.0], &format!("text-anchor=\"middle\" {SMALL}"), &tick.to_string());
    }
    let words = "sweeps (the morning's totals, drawn by coins, lie above the picture)";
    svg.text([left + width / 2.0, top + height + 36.0], &format!("text-anchor=\"middle\" {SMALL}"), words);
    let style = format!("transform=\"rotate(-90 22 {:.1})\" text-anchor=\"middle\" {SMALL}", top + height / 2.0);
    svg.text([22.0, top + height / 2.0], &style, "distortion in millimetres");
}

fn course(svg: &mut Svg, day: &Day, points: &[Point]) {
    let replicas = day.config.replicas as f64;
    let scale = Scale::of(points, replicas);
    axes(svg, &scale);
    let t = day.config.temperatures.len();
    for j in (0..t).rev() {
        let means: Vec<[f64; 2]> =
            points.iter().map(|point| [scale.x(point.sweep as f64), scale.y(point.sums[j] as f64 / replicas)]).collect();
        svg.path("temperature", &means, &format!("stroke=\"{}\" stroke-width=\"1.2\" stroke-opacity=\"0.85\"", colour(j, t)));
    }
    // the best falls in steps: it stays what it was until the sweep at which it is better
    let mut steps: Vec<[f64; 2]> = Vec::new();
    for point in points {
        let [x, y] = [scale.x(point.sweep as f64), scale.y(point.best as f64)];
        if let Some(&[_, before]) = steps.last() {
            steps.push([x, before]);
        }
        steps.push([x, y]);
    }
    svg.path("best", &steps, "stroke=\"#111\" stroke-width=\"2.4\" stroke-linejoin=\"round\"");
    let best = &day.state.best;
    let [x, y] = [scale.x(best.sweep as f64), scale.y(best.total as f64)];
    svg.line("found", [x, COURSE[1], x, y], "stroke=\"#111\" stroke-width=\"1\" stroke-dasharray=\"4 4\"");
    svg.circle("found", [x, y, 4.0], "fill=\"#111\"");
    let (anchor, aside) = if x > COURSE[0] + COURSE[2] * 0.6 { ("end", -8.0) } else { ("start", 8.0) };
    let words = format!("best {} mm at sweep {}", millimetres(best.total), best.sweep);
    svg.text([x + aside, COURSE[1] + 16.0], &format!("text-anchor=\"{anchor}\" font-weight=\"bold\" {HALO}"), &words);
}

/// A temperature with one decimal, which is enough to tell them apart in a key.
fn degree(temperature: f32) -> String {
    format!("{:.1}", f64::from(temperature))
}

/// Which line is which: the best, and the temperatures from the hottest down.
fn key(svg: &mut Svg, day: &Day) {
    let (x, mut y) = (COURSE[0] + COURSE[2] + 22.0, COURSE[1] + 12.0);
    svg.line("key", [x, y - 4.0, x + 22.0, y - 4.0], "stroke=\"#111\" stroke-width=\"2.4\"");
    svg.text([x + 30.0, y], "", "best so far");
    y += 26.0;
    svg.text([x, y], SMALL, "means at temperature");
    let t = day.config.temperatures.len();
    let every = t.div_ceil(16);
    for j in (0..t).rev().filter(|j| j % every == 0) {
        y += 16.0;
        svg.line("key", [x, y - 4.0, x + 22.0, y - 4.0], &format!("stroke=\"{}\" stroke-width=\"2.4\"", colour(j, t)));
        svg.text([x + 30.0, y], SMALL, &degree(day.config.temperatures[j]));
    }
}

fn rates(svg: &mut Svg, day: &Day) {
    let [left, top, width, height] = RATES;
    svg.text([left, top - 14.0], "font-weight=\"bold\"", "Exchanges accepted between neighbouring temperatures");
    for percent in [0, 25, 50, 75, 100] {
        let y = top + height - f64::from(percent) / 100.0 * height;
        svg.line("tick", [left, y, left + width, y], GRID);
        svg.text([left - 8.0, y + 4.0], &format!("text-anchor=\"end\" {SMALL}"), &format!("{percent} %"));
    }
    let (rates, temperatures) = (&day.state.exchanges, &day.config.temperatures);
    if rates.is_empty() {
        svg.text([left + 8.0, top + height / 2.0], SMALL, "There is one temperature, and nothing to exchange.");
        return;
    }
    let step = width / rates.len() as f64;
    let every = rates.len().div_ceil(16);
    for (j, rate) in rates.iter().enumerate() {
        let (x, tall) = (left + j as f64 * step, rate.part() * height);
        svg.rect("rate", [x + step * 0.15, top + height - tall, step * 0.7, tall], &format!("fill=\"{}\"", colour(j, temperatures.len())));
        if j % every == 0 {
            let style = "text-anchor=\"middle\" font-size=\"10\" fill=\"#555\"";
            svg.text([x + step / 2.0, top + height + 15.0], style, &degree(temperatures[j]));
            svg.text([x + step / 2.0, top + height + 27.0], style, &degree(temperatures[j + 1]));
        }
    }
    let words = "colder and hotter temperature, in hundredths of a millimetre";
    svg.text([left + width / 2.0, top + height + 48.0], &format!("text-anchor=\"middle\" {SMALL}"), words);
}

/// The whole picture.
pub fn draw(day: &Day, points: &[Point]) -> String {
    let (grid, state) = (day.panel.grid, &day.state);
    let title = format!("A day on {} by {} seams: {} sweeps of {} replicas", grid.width, grid.height, state.sweep, day.config.systems());
    let mut svg = Svg::new(WIDTH, HEIGHT, &title);
    svg.text([COURSE[0], 32.0], "font-size=\"18\" font-weight=\"bold\"", &title);
    let below = format!("moves of the library: {}", crate::modes::spell(&day.config.modes));
    svg.text([COURSE[0], 52.0], SMALL, &below);
    course(&mut svg, day, points);
    key(&mut svg, day);
    rates(&mut svg, day);
    svg.end()
}
