//! The picture: a bar for each group and list, its length the ratio to the original.

use crate::rows::{Group, Row, Run};
use std::fmt::Write;

const LEFT: f64 = 190.0;
const WIDTH: f64 = 520.0;
const LINE: f64 = 22.0;
const TOP: f64 = 64.0;

/// A line of the picture: the worst row among some.
struct Line {
    name: String,
    bar: f64,
    ratio: f64,
    judged: f64,
}

fn lines(run: &Run) -> Vec<Line> {
    let mut lines = Vec::new();
    for group in Group::ALL {
        let lists = run.judging.iter().map(|(records, _)| Some(*records));
        for records in std::iter::once(None).chain(lists) {
            let is_of = |row: &&Row| row.group == group && row.records == records;
            let rows: Vec<_> = run.rows.iter().filter(is_of).collect();
            if !rows.is_empty() {
                let list = records.map_or(String::new(), |n| format!(", list of {n}"));
                lines.push(line(format!("{}{list}", group.name()), &rows));
            }
        }
    }
    lines
}

/// Of rows with one bar.
fn line(name: String, rows: &[&Row]) -> Line {
    let bar = rows[0].group.bar(rows[0].many_records());
    let worst = |ratio: fn(&Row) -> f64| rows.iter().map(|row| ratio(row)).fold(0.0, f64::max);
    Line { name, bar, ratio: worst(Row::ratio_unjudged), judged: worst(Row::ratio) }
}

/// Where a ratio stands; 1.5 is the edge.
fn x(ratio: f64) -> f64 {
    LEFT + WIDTH * ratio.min(1.5) / 1.5
}

pub fn svg(run: &Run) -> String {
    let lines = lines(run);
    let height = TOP + LINE * lines.len() as f64 + 30.0;
    let mut out = String::new();
    let width = LEFT + WIDTH + 70.0;
    writeln!(
        out,
        r##"<svg xmlns="http://www.w3.org/2000/svg" viewBox="0 0 {width} {height}" font-family="sans-serif" font-size="12">
<rect width="{width}" height="{height}" fill="#ffffff"/>
<text x="12" y="22" font-size="15">Time of a call, as a ratio to the original's (the worst row)</text>
<text x="12" y="40" fill="#555555">dark: the call; light: judging its zone list, which the original does not do; line: the bar</text>"##
    )
    .unwrap();
    for tenth in [0, 3, 6, 9, 12, 15] {
        let ratio = f64::from(tenth) / 10.0;
        let (x, bottom) = (x(ratio), height - 24.0);
        writeln!(
            out,
            r##"<line x1="{x:.1}" y1="{}" x2="{x:.1}" y2="{bottom}" stroke="#dddddd"/><text x="{x:.1}" y="{}" text-anchor="middle" fill="#555555">{ratio:.1}</text>"##,
            TOP - 8.0,
            height - 8.0
        )
        .unwrap();
    }
    for (i, line) in lines.iter().enumerate() {
        bar(&mut out, TOP + LINE * i as f64, line);
    }
    out.push_str("</svg>\n");
    out
}

fn bar(out: &mut String, y: f64, line: &Line) {
    let (full, judged, mark) = (x(line.ratio) - LEFT, x(line.judged) - LEFT, x(line.bar));
    let middle = y + 12.0;
    let (end, text) = if line.judged - line.ratio > 0.005 {
        (x(line.judged), format!("{:.2} ({:.2})", line.ratio, line.judged))
    } else {
        (x(line.ratio), format!("{:.2}", line.ratio))
    };
    writeln!(
        out,
        r##"<text x="{:.1}" y="{middle:.1}" text-anchor="end">{}</text><rect x="{LEFT}" y="{:.1}" width="{judged:.1}" height="14" fill="#b9cfe4"/><rect x="{LEFT}" y="{:.1}" width="{full:.1}" height="14" fill="#2f6ea5"/><line x1="{mark:.1}" y1="{:.1}" x2="{mark:.1}" y2="{:.1}" stroke="#c0392b" stroke-width="2"/><text x="{:.1}" y="{middle:.1}">{text}</text>"##,
        LEFT - 8.0,
        line.name,
        y + 1.0,
        y + 1.0,
        y - 2.0,
        y + 18.0,
        end.max(mark) + 6.0
    )
    .unwrap();
}
