//! The picture docs/benchmarks.svg: for each row the engine's speed as a
//! multiple of the Rust index's, a bar for each geometry.

use crate::Part;
use std::fmt::Write;

const WIDTH: f64 = 860.0;
const LEFT: f64 = 250.0;
const RIGHT: f64 = 30.0;
const TOP: f64 = 92.0;
const BAR: f64 = 13.0;
const GAP: f64 = 14.0;
const COLOURS: [&str; 3] = ["#1f6aa5", "#d9772b", "#4c8f5b"];

pub fn picture(parts: &[Part]) -> String {
    let rows = parts.first().map_or(0, |part| part.rows.len());
    let group = BAR * parts.len() as f64 + GAP;
    let bottom = TOP + group * rows as f64;
    let height = bottom + 46.0;
    let ratios = parts.iter().flat_map(|part| &part.rows);
    let most = ratios.map(|row| row.timing.ratio).fold(1.2, f64::max);
    let most = (most * 2.0 + 0.3).ceil() / 2.0;
    let x = |ratio: f64| LEFT + ratio / most * (WIDTH - LEFT - RIGHT);

    let mut svg = String::new();
    let _ = writeln!(
        svg,
        r##"<svg xmlns="http://www.w3.org/2000/svg" viewBox="0 0 {WIDTH} {height}" width="{WIDTH}" height="{height}" font-family="Helvetica, Arial, sans-serif" font-size="12">
<rect width="{WIDTH}" height="{height}" fill="#ffffff"/>
<text x="20" y="28" font-size="16" font-weight="bold" fill="#222222">The proved engine's speed as a multiple of the Rust index's</text>
<text x="20" y="48" fill="#444444">Same areas, same work, same run. Right of the line at 1 the engine is faster.</text>"##
    );
    for (place, part) in parts.iter().enumerate() {
        let left = 20.0 + 270.0 * place as f64;
        let colour = COLOURS[place % COLOURS.len()];
        let g = &part.shape.geometry;
        let _ = writeln!(
            svg,
            r##"<rect x="{left}" y="62" width="12" height="12" fill="{colour}"/><text x="{}" y="72" fill="#222222">{} (s {}, P {}, Q {}, K {}, h {})</text>"##,
            left + 18.0,
            part.shape.name,
            g.parts,
            g.page,
            g.pages,
            g.kept,
            g.hashes
        );
    }
    let mut tick = 0.0;
    while tick <= most {
        let at = x(tick);
        let _ = writeln!(
            svg,
            r##"<line x1="{at:.1}" y1="{TOP}" x2="{at:.1}" y2="{bottom}" stroke="#dddddd"/><text x="{at:.1}" y="{}" text-anchor="middle" fill="#444444">{tick:.1}</text>"##,
            bottom + 18.0
        );
        tick += 0.5;
    }
    let _ = writeln!(
        svg,
        r##"<text x="{:.1}" y="{}" text-anchor="middle" fill="#444444">engine / Rust index, operations a second</text>"##,
        (LEFT + WIDTH - RIGHT) / 2.0,
        bottom + 36.0
    );
    for row in 0..rows {
        let top = TOP + group * row as f64 + GAP / 2.0;
        let _ = writeln!(
            svg,
            r##"<text x="{}" y="{:.1}" text-anchor="end" fill="#222222">{}</text>"##,
            LEFT - 10.0,
            top + BAR * parts.len() as f64 / 2.0 + 4.0,
            parts[0].rows[row].name
        );
        for (place, part) in parts.iter().enumerate() {
            let ratio = part.rows[row].timing.ratio;
            let at = top + BAR * place as f64;
            let _ = writeln!(
                svg,
                r##"<rect x="{LEFT}" y="{:.1}" width="{:.1}" height="{}" fill="{}"/><text x="{:.1}" y="{:.1}" font-size="10" font-weight="bold" fill="#ffffff">{ratio:.2}</text>"##,
                at + 1.0,
                x(ratio) - LEFT,
                BAR - 2.0,
                COLOURS[place % COLOURS.len()],
                LEFT + 6.0,
                at + BAR - 3.0
            );
        }
    }
    let one = x(1.0);
    let _ = writeln!(
        svg,
        r##"<line x1="{one:.1}" y1="{TOP}" x2="{one:.1}" y2="{bottom}" stroke="#222222" stroke-width="1.6" stroke-dasharray="4 3"/>"##
    );
    svg.push_str("</svg>\n");
    svg
}
