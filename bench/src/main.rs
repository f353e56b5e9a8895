//! One run over both sides: the proved archive through its C functions, the original unchanged.
//! Answers are compared before they are timed. Prints the table; `--keep` writes it to docs/,
//! and its first lines to the README.

mod inputs;
mod picture;
#[allow(dead_code, reason = "shared with the differential run, which asks for more of it")]
#[path = "../../differential/src/random.rs"]
mod random;
mod report;
mod rows;
mod timing;
mod v8;

use std::process::ExitCode;

fn main() -> ExitCode {
    let keep = match std::env::args().skip(1).collect::<Vec<_>>().as_slice() {
        [] => false,
        [word] if word == "--keep" => true,
        _ => {
            eprintln!("bench [--keep]");
            return ExitCode::FAILURE;
        }
    };
    let run = rows::run();
    let table = report::table(&run);
    print!("{table}");
    if keep {
        std::fs::create_dir_all("docs").expect("docs/ can be made");
        std::fs::write("docs/BENCH.md", report::page(&table)).expect("docs/BENCH.md is written");
        std::fs::write("docs/bench.svg", picture::svg(&run)).expect("docs/bench.svg is written");
        let readme = std::fs::read_to_string("README.md").expect("README.md is read");
        let readme = report::in_readme(&readme, &run).expect("README.md has the marks of the speed table");
        std::fs::write("README.md", readme).expect("README.md is written");
    }
    ExitCode::SUCCESS
}
