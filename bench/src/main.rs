//! Measures our boundary against fitsrs 0.4.1 and CFITSIO on the same inputs, in one process.
//!
//! bench measure [short]           times every job and prints lines for `report`; a wrong answer stops the run
//! bench jobs [short]              the jobs whose instructions are counted
//! bench once GROUP NAME SIDE      runs one job once by one side, for callgrind
//! bench header CARDS              a header, on standard output
//! bench report LINES FOLDER       writes SPEED.md and its three pictures of the printed lines
//! bench draw PAGE FOLDER          draws the two small pictures by the figures of a written SPEED.md

mod bars;
mod cfitsio;
mod headers;
mod job;
mod measure;
mod migrating;
mod ours;
mod page;
mod picture;
mod random;
mod report;
mod theirs;
mod tiles;
mod worst;
mod writing;

use job::{Side, Spec};
use std::io::Write;
use std::path::Path;
use std::process::ExitCode;
use std::time::Duration;

/// The rows of a job, and the pixels of the large tile: for timing, for a short run, for counting instructions.
const FULL: (usize, usize) = (64, 1_000_000);
const SHORT: (usize, usize) = (8, 30_000);
const COUNTED: (usize, usize) = (4, 4096);

fn specs((rows, large): (usize, usize)) -> Vec<Spec> {
    let mut specs = tiles::specs(rows, large);
    specs.extend(headers::specs());
    specs.extend(writing::specs());
    specs.extend(worst::specs(rows));
    specs
}

fn measure(short: bool) {
    migrating::check();
    let effort = if short {
        measure::Effort { rounds: 5, least: Duration::from_micros(200) }
    } else {
        measure::Effort { rounds: 61, least: Duration::from_millis(2) }
    };
    let processor = std::fs::read_to_string("/proc/cpuinfo").unwrap_or_default();
    let processor = processor.lines().find_map(|line| line.strip_prefix("model name")?.split_once(": "));
    println!("machine\t{}", processor.map_or("unknown", |(_, name)| name));
    println!("cfitsio\t{}", cfitsio::version());
    println!("rounds\t{}", effort.rounds);
    for spec in specs(if short { SHORT } else { FULL }) {
        measure::measure(&spec, effort);
    }
}

/// The jobs whose instructions are counted, each with its sides; of a short run the first of each group.
fn jobs(short: bool) {
    for group in ["rows", "headers", "lookups", "continued", "commented", writing::GROUP, worst::GROUP] {
        let specs = specs(COUNTED).into_iter().filter(|spec| spec.group == group);
        for spec in specs.take(if short { 1 } else { usize::MAX }) {
            let sides: Vec<&str> = (spec.make)().sides().iter().map(|side| side.name()).collect();
            println!("{group}\t{}\t{}", spec.name, sides.join(" "));
        }
    }
}

fn once(group: &str, name: &str, side: &str) -> Option<()> {
    let specs = specs(COUNTED);
    let spec = specs.iter().find(|spec| spec.group == group && spec.name == name)?;
    measure::once(spec, Side::named(side)?);
    Some(())
}

/// Does what the words ask for; answers whether it could.
fn done(words: &[&str]) -> Option<()> {
    match *words {
        ["measure"] => measure(false),
        ["measure", "short"] => measure(true),
        ["jobs"] => jobs(false),
        ["jobs", "short"] => jobs(true),
        ["once", group, name, side] => once(group, name, side)?,
        ["header", cards] => {
            let cards = cards.parse().ok().filter(|cards| (9..=720).contains(cards))?;
            std::io::stdout().write_all(&headers::bytes(cards, 3)).ok()?;
        }
        ["report", lines, folder] => {
            let written = report::write(Path::new(lines), Path::new(folder));
            written.map_err(|why| eprintln!("bench: {why}")).ok()?;
        }
        ["draw", page, folder] => {
            let drawn =
                std::fs::read_to_string(page).and_then(|text| report::draw(&page::figures(&text), Path::new(folder)));
            drawn.map_err(|why| eprintln!("bench: {page}: {why}")).ok()?;
        }
        _ => {
            eprintln!(
                "usage: bench measure|jobs [short], once GROUP NAME SIDE, header CARDS, report LINES FOLDER, draw PAGE FOLDER"
            );
            return None;
        }
    }
    Some(())
}

fn main() -> ExitCode {
    let words: Vec<String> = std::env::args().skip(1).collect();
    match done(&words.iter().map(String::as_str).collect::<Vec<_>>()) {
        Some(()) => ExitCode::SUCCESS,
        None => ExitCode::FAILURE,
    }
}
