//! The table, and the page around it.

use crate::rows::{Group, Row, Run};
use std::fmt::Write;

/// The table of a run, in Markdown.
pub fn table(run: &Run) -> String {
    let mut out = String::new();
    summary(&mut out, run);
    lists(&mut out, run);
    for group in Group::ALL {
        rows(&mut out, group, run);
    }
    out + &crate::v8::table(run)
}

/// The rows of a group.
fn of(group: Group, run: &Run) -> impl Iterator<Item = &Row> {
    run.rows.iter().filter(move |row| row.group == group)
}

/// How the longer lists are named.
const MANY: &str = "by 200 and 1,024 records";

/// The smallest and the largest of some ratios.
fn spread(ratios: impl Iterator<Item = f64>) -> (f64, f64) {
    ratios.fold((f64::INFINITY, 0.0), |(low, high), ratio| (low.min(ratio), high.max(ratio)))
}

fn summary(out: &mut String, run: &Run) {
    out.push_str("| Call | Ratio to the original | Bar | Holds |\n|---|---|---|---|\n");
    for group in Group::ALL {
        for many in [false, true] {
            let rows: Vec<_> = of(group, run).filter(|row| row.many_records() == many).collect();
            if rows.is_empty() {
                continue;
            }
            let (low, high) = spread(rows.iter().map(|row| row.ratio_unjudged()));
            let name = if many { format!("{}, {MANY}", group.name()) } else { group.name().into() };
            let holds = if rows.iter().any(|row| row.misses()) { "no" } else { "yes" };
            let bar = group.bar(many);
            writeln!(out, "| {name} | {low:.2} to {high:.2} | {bar:.2} | {holds} |").unwrap();
        }
    }
    out.push_str("\nLocal calls without the judging of the zone list; with it, below.\n\n");
}

fn lists(out: &mut String, run: &Run) {
    out.push_str("| Zone list | Judging it, ns | Local calls with it, ratio |\n|---|---|---|\n");
    for (records, cost) in &run.judging {
        let (least, most) = spread(cost.each().into_iter());
        let is_of = |row: &&Row| row.records == Some(*records);
        let (low, high) = spread(run.rows.iter().filter(is_of).map(Row::ratio));
        writeln!(out, "| {records} | {least:.1} to {most:.1} | {low:.2} to {high:.2} |").unwrap();
    }
    if let [.., (fewer, less), (more, cost)] = run.judging[..] {
        let further = cost.each().into_iter().zip(less.each());
        let each = further.map(|(cost, less)| (cost - less) / (more - fewer) as f64);
        let (low, high) = spread(each);
        writeln!(out, "\nA further record of the list takes {low:.2} to {high:.2} ns to judge.")
            .unwrap();
    }
    writeln!(
        out,
        "The ISO writer with its 40-byte output cleared before each call takes {:.1} ns, and as a `String` by the wrapper {:.1} ns.",
        run.cleared, run.string
    )
    .unwrap();
    match run.datecheck {
        Some(lines) => {
            writeln!(out, "`datecheck` answers {:.1} million lines a second.", lines / 1e6)
        }
        None => writeln!(
            out,
            "`datecheck` is left out: target/bin/datecheck is not built (tools/archives)."
        ),
    }
    .unwrap();
}

fn rows(out: &mut String, group: Group, run: &Run) {
    let (bar, many) = (group.bar(false), group.bar(true));
    let many = if many == bar { String::new() } else { format!(", {MANY} {many:.2}") };
    writeln!(out, "\n### {} (bar {bar:.2}{many})\n", capitalised(group.name())).unwrap();
    out.push_str("| Input | Original, ns | Zovattha, ns | Ratio | Without judging |\n|---|---|---|---|---|\n");
    for row in of(group, run) {
        let unjudged = if row.records.is_some() {
            format!("{:.2}", row.ratio_unjudged())
        } else {
            String::new()
        };
        let missed = if row.misses() { " (missed)" } else { "" };
        writeln!(
            out,
            "| {} | {:.1} | {:.1} | {:.2} | {unjudged}{missed} |",
            row.name,
            row.theirs,
            row.ours,
            row.ratio()
        )
        .unwrap();
    }
}

fn capitalised(name: &str) -> String {
    let (first, rest) = name.split_at(1);
    first.to_uppercase() + rest
}

/// The README with the summary and the lists' costs of this run between the two marks.
pub fn in_readme(readme: &str, run: &Run) -> Option<String> {
    let (before, rest) = readme.split_once(MARK)?;
    let (_, after) = rest.split_once(END)?;
    let mut table = String::new();
    summary(&mut table, run);
    lists(&mut table, run);
    Some(format!("{before}{MARK}\n\n{table}\n{END}{after}"))
}

const MARK: &str = "<!-- made by bench/run --keep -->";
const END: &str = "<!-- end of what bench/run makes -->";

/// docs/BENCH.md: how it was measured, the table, and the notes kept by hand.
pub fn page(table: &str) -> String {
    format!("{HEAD}\n{table}\n{NOTES}")
}

const NOTES: &str = include_str!("../notes.md");

const HEAD: &str = "\
# Speed

Made by `bench/run --keep`; the picture is [bench.svg](bench.svg). Ratios are to the original in the same run; nanoseconds are those
of one machine, and of a busy one.

- Each row has 65,536 inputs, the same in every run: too many for the processor to learn their branches, as it learns those of 256,
  on which both sides are quicker. (It is hardly the memory: 65,536 that repeat after each 256 take less than a tenth more than 256.) A
  round goes through them once on one side; 40 rounds of each side take turns, in five passes over all rows, and the best round of each
  counts, since it is the one that nothing else disturbed.
- Both sides are built for release: the archive by `tools/archives`, called through its C functions; the original's text
  unchanged, optimised as one whole with the benchmark around it. Before a row is timed, both sides' answers are compared.
- The original's context, date objects and arguments are made beforehand, as are the lists, records and texts that the archive is
  lent. A setter's date is brought to where the call leaves it, so that every call does the same work. The local builder is the
  arithmetic of the original's constructor, without the object. Its host hook looks the zone list up by halving.
- The original makes a string for each text, and dropping it counts as well: its strings here are the stand-ins of
  differential/stubs, one counted allocation each, not Boa's own. The archive writes into a lent output, which no one clears
  between calls. The cost of clearing and of making a `String` is said below.
- The archive judges the zone list in every call that takes one, the original never. Judging is timed by itself, in each function that has
  it compiled in: an empty text, an infinite time or an empty record is turned back as soon as the list is judged; the same call without a
  list is subtracted. Rewriting is compared with the original's
  reading and then writing; it has no bar of its own but 1.
";
