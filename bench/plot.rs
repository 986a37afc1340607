//! A picture of the time of a call over the rows, both axes in powers, as SVG.

const WIDTH: f64 = 640.0;
const HEIGHT: f64 = 400.0;
const LEFT: f64 = 70.0;
const RIGHT: f64 = 150.0;
const TOP: f64 = 20.0;
const BOTTOM: f64 = 50.0;
const LOW: f64 = 1.0;
const HIGH: f64 = 1000.0;
const SIDES: [(&str, &str); 3] = [("plain Rust", "#b04a3a"), ("Rust with a table", "#3a6fb0"), ("library", "#2f7d4f")];

fn across(rows: u64) -> f64 {
    LEFT + (rows as f64 / 64.0).log2() / 4.0 * (WIDTH - LEFT - RIGHT)
}

fn up(microseconds: f64) -> f64 {
    let share = (microseconds.clamp(LOW, HIGH) / LOW).log10() / (HIGH / LOW).log10();
    HEIGHT - BOTTOM - share * (HEIGHT - TOP - BOTTOM)
}

fn line(side: usize, points: &[(u64, [f64; 3])]) -> String {
    let (name, colour) = SIDES[side];
    let path: Vec<String> = points.iter().map(|(r, t)| format!("{:.1},{:.1}", across(*r), up(t[side]))).collect();
    let (rows, last) = points[points.len() - 1];
    format!(
        "<polyline fill=\"none\" stroke=\"{colour}\" stroke-width=\"2\" points=\"{}\"/>\n\
         <text x=\"{:.1}\" y=\"{:.1}\" fill=\"{colour}\">{name}</text>\n",
        path.join(" "),
        across(rows) + 8.0,
        up(last[side]) + 4.0
    )
}

/// The whole picture: the axes with their numbers, and a line for each side.
pub fn drawn(points: &[(u64, [f64; 3])]) -> String {
    let mut svg = format!(
        "<svg xmlns=\"http://www.w3.org/2000/svg\" viewBox=\"0 0 {WIDTH} {HEIGHT}\" font-family=\"sans-serif\" \
         font-size=\"13\">\n<rect width=\"100%\" height=\"100%\" fill=\"white\"/>\n"
    );
    for n in [1.0, 10.0, 100.0, 1000.0] {
        let y = up(n);
        svg += &format!("<line x1=\"{LEFT}\" x2=\"{}\" y1=\"{y:.1}\" y2=\"{y:.1}\" stroke=\"#ddd\"/>\n", WIDTH - RIGHT);
        svg += &format!("<text x=\"{}\" y=\"{:.1}\" text-anchor=\"end\">{n} µs</text>\n", LEFT - 8.0, y + 4.0);
    }
    for (rows, _) in points {
        let x = across(*rows);
        svg += &format!("<text x=\"{x:.1}\" y=\"{}\" text-anchor=\"middle\">{rows}</text>\n", HEIGHT - BOTTOM + 20.0);
    }
    let middle = (LEFT + WIDTH - RIGHT) / 2.0;
    svg += &format!("<text x=\"{middle}\" y=\"{}\" text-anchor=\"middle\">rows</text>\n", HEIGHT - 8.0);
    (0..SIDES.len()).for_each(|side| svg += &line(side, points));
    svg + "</svg>\n"
}
