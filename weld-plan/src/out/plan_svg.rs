//! The plan as a picture: a square for each seam, the face as its fill, a ring where it is welded already, and a bar across each of
//! the pairs that add most.
use super::svg::Svg;
use super::{millimetres, Plan};
use crate::day::Day;
use crate::grid::Grid;

// dark and light, so that a black and white print tells them apart too
const FACE_A: &str = "fill=\"#4a7ba6\"";
const FACE_B: &str = "fill=\"#f3e2b8\"";
const WORST: &str = "#b3123a";

const LEFT: f64 = 48.0;
const TOP: f64 = 84.0;
const KEY_WIDTH: f64 = 310.0;

/// How large a seam's square is.
fn cell(grid: Grid) -> f64 {
    (704.0 / grid.width.max(grid.height) as f64).clamp(11.0, 44.0).floor()
}

/// The middle of a seam's square.
fn middle(grid: Grid, site: usize) -> [f64; 2] {
    let (row, column) = grid.place(site);
    [LEFT + (column as f64 + 0.5) * cell(grid), TOP + (row as f64 + 0.5) * cell(grid)]
}

fn seams(svg: &mut Svg, grid: Grid, plan: &Plan) {
    let side = cell(grid);
    svg.open_group("seams", "stroke=\"#fff\" stroke-width=\"1\"");
    for (site, &spin) in plan.spins.iter().enumerate() {
        let [x, y] = middle(grid, site);
        let (class, fill) = if spin > 0 { ("face-a", FACE_A) } else { ("face-b", FACE_B) };
        svg.rect(class, [x - side / 2.0, y - side / 2.0, side, side], fill);
    }
    svg.close_group();
}

fn ring(svg: &mut Svg, class: &str, [x, y]: [f64; 2], side: f64) {
    let width = (side * 0.1).clamp(1.5, 3.0);
    svg.circle(class, [x, y, (side * 0.24).min(8.0)], &format!("fill=\"#fff\" stroke=\"#111\" stroke-width=\"{width:.1}\""));
}

/// A bar from seam to seam, with its place among the worst.
fn bar(svg: &mut Svg, class: &str, [x, y, u, v]: [f64; 4], side: f64, place: usize) {
    let width = (side * 0.16).clamp(2.5, 5.0);
    let bar = [x, y, u, v];
    svg.line("halo", bar, &format!("stroke=\"#fff\" stroke-width=\"{:.1}\" stroke-linecap=\"round\"", width + 2.5));
    svg.line(class, bar, &format!("stroke=\"{WORST}\" stroke-width=\"{width:.1}\" stroke-linecap=\"round\""));
    // on small squares the number would hide the bar, and stands aside
    let aside = if side < 18.0 { 10.0 } else { 0.0 };
    let middle = if y == v { [(x + u) / 2.0, y - aside] } else { [x + aside, (y + v) / 2.0] };
    svg.circle("number", [middle[0], middle[1], 7.5], &format!("fill=\"#fff\" stroke=\"{WORST}\" stroke-width=\"1.5\""));
    let style = "font-size=\"9.5\" font-weight=\"bold\" text-anchor=\"middle\"";
    svg.text([middle[0], middle[1] + 3.4], style, &place.to_string());
}

/// The numbers of rows and columns, as many as there is room for.
fn numbers(svg: &mut Svg, grid: Grid) {
    let side = cell(grid);
    let every = if side < 16.0 {
        8
    } else if side < 30.0 {
        4
    } else {
        1
    };
    let told = |k: usize, last: usize| k == 0 || (k + 1) % every == 0 || (k + 1 == last && last < every);
    svg.open_group("numbers", "font-size=\"11\" fill=\"#666\"");
    for column in (0..grid.width).filter(|&column| told(column, grid.width)) {
        svg.text([middle(grid, column)[0], TOP - 7.0], "text-anchor=\"middle\"", &(column + 1).to_string());
    }
    for row in (0..grid.height).filter(|&row| told(row, grid.height)) {
        svg.text([LEFT - 8.0, middle(grid, row * grid.width)[1] + 4.0], "text-anchor=\"end\"", &(row + 1).to_string());
    }
    svg.close_group();
}

/// What fills, rings and bars mean, and the worst pairs in words.
fn key(svg: &mut Svg, day: &Day, plan: &Plan, x: f64) {
    let mut y = TOP + 10.0;
    for (fill, face, words) in [(FACE_A, 1, "welded from face A"), (FACE_B, -1, "welded from face B")] {
        svg.rect("key", [x, y - 13.0, 18.0, 18.0], &format!("{fill} stroke=\"#888\" stroke-width=\"0.5\""));
        svg.text([x + 28.0, y + 1.0], "", &format!("{words}: {} seams", plan.from_face(face)));
        y += 26.0;
    }
    if day.panel.pinned() {
        let pinned = day.panel.pins.iter().filter(|&&pin| pin == 1).count();
        ring(svg, "key", [x + 9.0, y - 4.0], 26.0);
        svg.text([x + 28.0, y + 1.0], "", &format!("welded already: {pinned} seams"));
        y += 26.0;
    }
    if plan.worst.is_empty() {
        svg.text([x, y + 8.0], "", "Every pair is relieved.");
        return;
    }
    y += 14.0;
    svg.text([x, y], "font-weight=\"bold\"", "The pairs that add most");
    for (k, &(a, b, adds)) in plan.worst.iter().enumerate() {
        y += 22.0;
        svg.circle("key", [x + 9.0, y - 4.0, 8.5], &format!("fill=\"#fff\" stroke=\"{WORST}\" stroke-width=\"1.5\""));
        svg.text([x + 9.0, y], "font-size=\"10\" font-weight=\"bold\" text-anchor=\"middle\"", &(k + 1).to_string());
        svg.text([x + 28.0, y], "", &format!("seams {} and {}", a + 1, b + 1));
        svg.text([x + 275.0, y], "text-anchor=\"end\"", &format!("{} mm", millimetres(adds.into())));
    }
}

/// The whole picture.
pub fn draw(day: &Day, plan: &Plan) -> String {
    let (grid, side) = (day.panel.grid, cell(day.panel.grid));
    let key_left = LEFT + grid.width as f64 * side + 30.0;
    let width = key_left + KEY_WIDTH;
    let lowest_key = TOP + 110.0 + 22.0 * plan.worst.len() as f64;
    let height = (TOP + grid.height as f64 * side).max(lowest_key) + 40.0;
    let title = format!("Weld plan, {} by {} seams: total distortion {} mm", grid.width, grid.height, millimetres(plan.total));
    let mut svg = Svg::new(width.max(640.0), height, &title);
    svg.text([LEFT, 32.0], "font-size=\"18\" font-weight=\"bold\"", &title);
    svg.text([LEFT, 52.0], "font-size=\"11\" fill=\"#666\"", &format!("list: sha256 {}", day.panel.checksum));
    numbers(&mut svg, grid);
    seams(&mut svg, grid, plan);
    // the worst last, so that nothing lies on it
    for (k, &(a, b, _)) in plan.worst.iter().enumerate().rev() {
        let ([x, y], [u, v]) = (middle(grid, a), middle(grid, b));
        bar(&mut svg, "worst", [x, y, u, v], side, k + 1);
    }
    for site in (0..day.panel.n).filter(|&site| day.panel.pins[site] == 1) {
        ring(&mut svg, "pinned", middle(grid, site), side);
    }
    key(&mut svg, day, plan, key_left);
    let counted = "Seams are counted from 1, row by row from the top left; rows and columns are numbered at the edges.";
    svg.text([LEFT, height - 14.0], "font-size=\"11\" fill=\"#666\"", counted);
    svg.end()
}
