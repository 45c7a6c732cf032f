//! The ratios as a small picture: a dot for each row on a scale that doubles, joined to the line where both sides are equally
//! fast. Left of the line ours is faster, right of it slower. An open circle is the aim.

use std::fmt::Write;

use crate::Row;

const LEFT: f64 = 150.0;
const DOUBLING: f64 = 90.0;
const STEP: f64 = 24.0;
const TOP: f64 = 64.0;
const LEAST: f64 = 0.5;

pub fn of(rows: &[Row]) -> String {
    let most = rows.iter().map(Row::ratio).fold(2.0, f64::max);
    let ticks: Vec<f64> = std::iter::successors(Some(LEAST), |tick| Some(tick * 2.0))
        .take_while(|tick| tick / 2.0 < most)
        .collect();
    let below = TOP + STEP * rows.len() as f64;
    let right = ticks.last().map_or(LEFT, |tick| at(*tick));
    let mut svg = opening(rows, right + 150.0, below + 14.0);
    for tick in &ticks {
        axis(&mut svg, *tick, below);
    }
    for (i, row) in rows.iter().enumerate() {
        dot(&mut svg, row, TOP + STEP * i as f64 + 12.0);
    }
    svg.push_str("</svg>\n");
    svg
}

/// The place of a ratio. One that is below the scale stands at its end.
fn at(ratio: f64) -> f64 {
    LEFT + DOUBLING * (ratio.max(LEAST) / LEAST).log2()
}

/// The head: the size, and what the picture shows in words for those who cannot see it.
fn opening(rows: &[Row], width: f64, height: f64) -> String {
    let words: Vec<String> =
        rows.iter().map(|row| format!("{} bytes, {}: {:.2}", row.size, row.way, row.ratio())).collect();
    let one = at(1.0);
    format!(
        "<svg xmlns=\"http://www.w3.org/2000/svg\" viewBox=\"0 0 {width} {height}\" width=\"{width}\" height=\"{height}\" \
         role=\"img\" aria-labelledby=\"title desc\" font-family=\"sans-serif\" font-size=\"12\">\n\
         <title id=\"title\">Our time divided by the Rust's</title>\n\
         <desc id=\"desc\">A dot for each message size and way, on a scale that doubles. Left of 1 ours is faster, right of 1 \
         slower. {}.</desc>\n\
         <rect width=\"100%\" height=\"100%\" fill=\"#fff\"/>\n\
         <text x=\"10\" y=\"20\" font-size=\"14\">Our time divided by the Rust's (open circles: the aims)</text>\n\
         <text x=\"{:.1}\" y=\"38\" text-anchor=\"end\" fill=\"#555\">ours is faster</text>\
         <text x=\"{:.1}\" y=\"38\" fill=\"#555\">ours is slower</text>\n",
        words.join("; "),
        one - 12.0,
        one + 12.0
    )
}

fn axis(svg: &mut String, tick: f64, below: f64) {
    let (x, colour, width) =
        (at(tick), if tick == 1.0 { "#111" } else { "#ddd" }, if tick == 1.0 { 2 } else { 1 });
    let _ = writeln!(
        svg,
        "<path d=\"M{x:.1} {} V{below}\" stroke=\"{colour}\" stroke-width=\"{width}\"/><text x=\"{x:.1}\" y=\"{}\" \
         text-anchor=\"middle\">{tick}</text>",
        TOP - 4.0,
        TOP - 8.0
    );
}

fn dot(svg: &mut String, row: &Row, y: f64) {
    let (x, one, text) = (at(row.ratio()), at(1.0), y + 4.0);
    let colour = if row.way == "whole" { "#3b6ea5" } else { "#c2763a" };
    let _ = writeln!(
        svg,
        "<text x=\"{}\" y=\"{text}\" text-anchor=\"end\">{} bytes, {}</text>\
         <path d=\"M{one:.1} {y} H{x:.1}\" stroke=\"{colour}\" stroke-width=\"2\"/>",
        LEFT - 12.0,
        row.size,
        row.way
    );
    let mut end = x.max(one);
    if let Some(aim) = aim(row) {
        let _ = writeln!(
            svg,
            "<circle cx=\"{:.1}\" cy=\"{y}\" r=\"4.5\" fill=\"#fff\" stroke=\"#111\" stroke-width=\"1.5\"/>",
            at(aim)
        );
        end = end.max(at(aim));
    }
    let _ = writeln!(
        svg,
        "<circle cx=\"{x:.1}\" cy=\"{y}\" r=\"5.5\" fill=\"{colour}\"/><text x=\"{:.1}\" y=\"{text}\">{:.2}</text>",
        end + 12.0,
        row.ratio()
    );
}

/// From 1,000 bytes on.
fn aim(row: &Row) -> Option<f64> {
    (row.size >= 1_000).then_some(if row.way == "whole" { 1.25 } else { 1.6 })
}
