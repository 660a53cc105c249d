//! Times each call of the proved library as a ratio to the unproved Rust of `reference`, and the
//! exact plan also against other libraries' matchings, all in one run. Prints what it finds and
//! writes it to a file.
//!
//!     bench --out FILE --work FOLDER [--lemon PROGRAM] [--python PROGRAM --scipy SCRIPT] [--gate-log FILE]

mod calls;
mod demands;
mod gate;
mod peers;
mod same;
mod timing;

use demands::Demand;
use peers::Peer;
use std::fmt::Write as _;
use std::path::{Path, PathBuf};
use std::process::Command;
use std::{env, fs, io};
use timing::{Times, SAMPLES};

/// Whether this was built with the archive.
const PROVED: bool = cfg!(feature = "proved");
const SIZES: [usize; 3] = [16, 32, 64];
const WIDE_SIZES: [usize; 2] = [96, 128];

fn main() -> io::Result<()> {
    let out = PathBuf::from(option("--out").expect("--out FILE"));
    let work = PathBuf::from(option("--work").expect("--work FOLDER"));
    let mut report = Report::default();
    report.say("# Performance\n");
    report.say("Written by `bench/run`, which builds and times everything below in one run.\n");
    report.say(&conditions());
    each_call(&mut report);
    joining(&mut report);
    same_search(&mut report);
    exact_and_peers(&mut report, &work, "The exact plan and its peers", &demands(&SIZES), calls::pair);
    second_edition(&mut report, &work);
    #[cfg(feature = "proved")]
    editions(&mut report);
    growth(&mut report);
    report.say(include_str!("../tried.md"));
    gate_time(&mut report);
    fs::write(&out, report.text)
}

/// The word after this one on the command line.
fn option(name: &str) -> Option<String> {
    let words: Vec<String> = env::args().collect();
    let at = words.iter().position(|word| word == name)?;
    words.get(at + 1).cloned()
}

/// What is printed, and kept to be written.
#[derive(Default)]
struct Report {
    text: String,
}

impl Report {
    fn say(&mut self, line: &str) {
        println!("{line}");
        self.text.push_str(line);
        self.text.push('\n');
    }

    fn table(&mut self, head: &[&str], rows: &[Vec<String>]) {
        self.say(&format!("| {} |", head.join(" | ")));
        self.say(&format!("|{}", "---|".repeat(head.len())));
        for row in rows {
            self.say(&format!("| {} |", row.join(" | ")));
        }
        self.say("");
    }
}

fn conditions() -> String {
    let mut text = format!(
        "Processor: {}. One thread. Demands are seeded, so every run times the same ones: `dense` \
         has every cell at random (T about 40,000), `sparse` about four outputs for each input, `small` \
         cells of 0 to 3. A time is the least of {SAMPLES} samples, proved and unproved taken in turn. \
         *Rust* is `bindings/rust/reference`: unproved, written from docs/SPECIFICATION.md, at -O3 for the same \
         plain processor as the archive is.\n",
        processor()
    );
    if !PROVED {
        text.push_str(
            "\nThe archive is for x86-64, and this is another processor: the proved library was not timed.\n",
        );
    }
    text
}

/// Its name, as `lscpu` has it.
fn processor() -> String {
    let told = Command::new("lscpu").output().map(|output| output.stdout).unwrap_or_default();
    let told = String::from_utf8_lossy(&told);
    let model = told.lines().find_map(|line| line.strip_prefix("Model name:")).unwrap_or("unknown");
    format!("{} ({})", model.trim(), env::consts::ARCH)
}

fn demands(sizes: &[usize]) -> Vec<Demand> {
    let kinds = [demands::dense, demands::sparse, demands::small];
    kinds.iter().flat_map(|kind| sizes.iter().map(|&n| kind(n))).collect()
}

fn each_call(report: &mut Report) {
    report.say("## Each call\n");
    report.say("Proved time over Rust's time (below 1 the proved code is faster), then both times.\n");
    let demands = demands(&SIZES);
    let mut rows = Vec::new();
    for (call, _) in calls::CALLS {
        for of_kind in demands.chunks(SIZES.len()) {
            let mut row = vec![call.to_string(), of_kind[0].kind.to_string()];
            row.extend(of_kind.iter().map(|demand| compared(calls::pair(call, demand).time())));
            rows.push(row);
        }
    }
    report.table(&["call", "demand", "N = 16", "N = 32", "N = 64"], &rows);
    let runs = calls::CALLS.map(|(call, run)| format!("`{call}` {run}"));
    report.say(&format!("What one run is: {}.\n", runs.join("; ")));
}

fn joining(report: &mut Report) {
    report.say("## Joining\n");
    report.say(
        "8,192 records at random, of which so many have a setting that none before them has; Rust finds \
         settings by a `HashMap`. Proved time over Rust's, then both times.\n",
    );
    let row = |settings: usize| {
        let mut row = vec![grouped(settings as u64)];
        row.extend(SIZES.map(|n| compared(calls::join_settings(n, settings).time())));
        row
    };
    let rows = [8_192, 8_000, 4_096, 100, 1].map(row);
    report.table(&["settings", "N = 16", "N = 32", "N = 64"], &rows);
}

fn same_search(report: &mut Report) {
    report.say("## The same search in Rust\n");
    report.say(
        "The reference was written by itself. Here the proved planner's own search, written in plain Rust \
         (`bench/src/search.rs`), is the peer; it checks nothing. The proved labels have two words, for \
         switches of 128 ports; the peer is timed with one and with two. Proved time over its time, then \
         both times.\n",
    );
    let demands = demands(&SIZES);
    let mut rows = Vec::new();
    for (call, words) in [("exact", 1), ("doubled", 1), ("exact", 2), ("doubled", 2)] {
        for of_kind in demands.chunks(SIZES.len()) {
            let mut row = vec![call.to_string(), words.to_string(), of_kind[0].kind.to_string()];
            row.extend(of_kind.iter().map(|demand| compared(calls::same(call, words, demand).time())));
            rows.push(row);
        }
    }
    report.table(&["call", "words", "demand", "N = 16", "N = 32", "N = 64"], &rows);
}

fn compared(times: Times) -> String {
    match times.proved {
        None => format!("Rust {}", shown(times.reference)),
        Some(proved) => {
            let ratio = proved / times.reference;
            format!("**{ratio:.2}**: {} / {}", shown(proved), shown(times.reference))
        }
    }
}

/// A planner of a demand, beside the reference's.
type PairOf = for<'a> fn(&str, &'a Demand) -> timing::Pair<'a>;

fn second_edition(report: &mut Report, work: &Path) {
    report.say("## The second edition's planners\n");
    report.say("Switches of 96 and 128 ports. Proved time over Rust's time, then both times.\n");
    let demands = demands(&WIDE_SIZES);
    let mut rows = Vec::new();
    for call in calls::SECOND {
        for of_kind in demands.chunks(WIDE_SIZES.len()) {
            let mut row = vec![call.to_string(), of_kind[0].kind.to_string()];
            row.extend(of_kind.iter().map(|demand| compared(calls::second(call, demand).time())));
            rows.push(row);
        }
    }
    report.table(&["call", "demand", "N = 96", "N = 128"], &rows);
    exact_and_peers(report, work, "The second edition's exact plan and its peers", &demands, calls::second);
}

#[cfg(feature = "proved")]
fn editions(report: &mut Report) {
    report.say("## The second edition beside the first\n");
    report.say(
        "Both proved, on switches of 64 ports, which both editions take. The second edition's time over the \
         first's, then both times.\n",
    );
    let demands = demands(&[64]);
    let row = |call: &str| {
        let mut row = vec![call.to_string()];
        row.extend(demands.iter().map(|demand| compared(calls::editions(call, demand).time())));
        row
    };
    report.table(&["call", "dense", "sparse", "small"], &calls::EDITIONS.map(row));
}

fn exact_and_peers(report: &mut Report, work: &Path, title: &str, demands: &[Demand], pair: PairOf) {
    report.say(&format!("## {title}\n"));
    report.say(
        "LEMON and scipy run the same fill and peel loop and may take any full setting; the exact plan \
         takes the first in dictionary order, which is harder. *Kept* starts each matching from what is \
         left of the one before; *anew*, and scipy, from nothing.\n",
    );
    let peers = peers(work);
    let mut columns: Vec<(&str, Vec<String>)> = Vec::new();
    let times: Vec<Times> = demands.iter().map(|demand| pair("exact", demand).time()).collect();
    let proved = |times: &Times| times.proved.map_or("not timed".to_string(), shown);
    columns.push(("proved", times.iter().map(proved).collect()));
    columns.push(("Rust", times.iter().map(|times| shown(times.reference)).collect()));
    for peer in &peers {
        let cells = match peer.time(demands) {
            Ok(times) => times.into_iter().map(shown).collect(),
            Err(error) => {
                eprintln!("{}: {error}", peer.name);
                vec!["failed".to_string(); demands.len()]
            }
        };
        columns.push((peer.name, cells));
    }
    let mut head = vec!["demand", "N", "T", "records"];
    head.extend(columns.iter().map(|(name, _)| *name));
    let row = |(k, demand): (usize, &Demand)| {
        let numbers = [demand.n as u64, demand.longest, demand.records() as u64];
        let mut row = vec![demand.kind.to_string()];
        row.extend(numbers.map(grouped));
        row.extend(columns.iter().map(|(_, cells)| cells[k].clone()));
        row
    };
    let rows: Vec<Vec<String>> = demands.iter().enumerate().map(row).collect();
    report.table(&head, &rows);
}

/// The peers that this machine has, by the options that bench/run gives.
fn peers(work: &Path) -> Vec<Peer> {
    let mut peers = Vec::new();
    if let Some(lemon) = option("--lemon") {
        peers.push(Peer::new("LEMON kept", &[&lemon, "kept", "3"], work));
        peers.push(Peer::new("LEMON anew", &[&lemon, "anew", "2"], work));
    }
    if let (Some(python), Some(script)) = (option("--python"), option("--scipy")) {
        peers.push(Peer::new("scipy", &[&python, &script, "1"], work));
    }
    peers
}

fn growth(report: &mut Report) {
    report.say("## How the exact plan's time grows\n");
    report.say("With N, on dense demands:\n");
    let by_ports: Vec<Demand> = [4, 8, 16, 24, 32, 40, 48, 56, 64].map(demands::dense).into();
    growth_table(report, &by_ports, "N", |demand| demand.n as f64);
    report.say("With the number of records, at N = 64, on random demands of growing cells:\n");
    let by_records: Vec<Demand> = (0..=10).map(|k| demands::limited(64, (1 << k) + 1)).collect();
    growth_table(report, &by_records, "records", |demand| demand.records() as f64);
}

fn growth_table(report: &mut Report, demands: &[Demand], by: &str, size: fn(&Demand) -> f64) {
    let times: Vec<Times> = demands.iter().map(|demand| calls::pair("exact", demand).time()).collect();
    let of_record = |time: f64, demand: &Demand| shown(time / demand.records() as f64);
    let row = |(demand, times): (&Demand, &Times)| {
        let numbers = [demand.n as u64, demand.longest, demand.records() as u64];
        let mut row: Vec<String> = numbers.map(grouped).into();
        for time in [times.proved, Some(times.reference)] {
            row.push(time.map_or("not timed".to_string(), shown));
            row.push(time.map_or(String::new(), |time| of_record(time, demand)));
        }
        row
    };
    let rows: Vec<Vec<String>> = demands.iter().zip(&times).map(row).collect();
    let head = ["N", "T", "records", "proved", "for a record", "Rust", "for a record"];
    report.table(&head, &rows);
    let sizes: Vec<f64> = demands.iter().map(size).collect();
    let power = |times: Vec<f64>| format!("{by}^{:.1}", slope(&sizes, &times));
    let mut line = format!(
        "Fitted over the table, Rust's time grows as {}",
        power(times.iter().map(|t| t.reference).collect())
    );
    if let Some(proved) = times.iter().map(|times| times.proved).collect::<Option<Vec<f64>>>() {
        let _ = write!(line, ", the proved code's as {}", power(proved));
    }
    report.say(&format!("{line}.\n"));
}

/// The power of a power law through these points, by least squares over the logarithms.
fn slope(sizes: &[f64], times: &[f64]) -> f64 {
    let count = sizes.len() as f64;
    let mean = |values: &[f64]| values.iter().map(|value| value.ln()).sum::<f64>() / count;
    let (size, time) = (mean(sizes), mean(times));
    let points = || sizes.iter().zip(times).map(|(s, t)| (s.ln() - size, t.ln() - time));
    points().map(|(s, t)| s * t).sum::<f64>() / points().map(|(s, _)| s * s).sum::<f64>()
}

fn gate_time(report: &mut Report) {
    report.say("## The time of `rt ci`\n");
    let log = option("--gate-log").and_then(|file| fs::read_to_string(file).ok());
    match log.as_deref().and_then(gate::whole) {
        Some((seconds, last)) => report.say(&format!(
            "Every proof, every must-fail edit, every program and test: {} seconds, and `{last}`.",
            grouped(seconds)
        )),
        None => report.say(
            "No log of the gate was there: `(time rt ci --anew) >bench/build/ci.log 2>&1` in bash makes one.",
        ),
    }
}

/// Nanoseconds with three digits and a unit.
fn shown(nanoseconds: f64) -> String {
    let (value, unit) = match nanoseconds {
        ns if ns < 1e3 => (ns, "ns"),
        ns if ns < 1e6 => (ns / 1e3, "µs"),
        ns if ns < 1e9 => (ns / 1e6, "ms"),
        ns => (ns / 1e9, "s"),
    };
    let digits = if value < 10.0 {
        2
    } else if value < 100.0 {
        1
    } else {
        0
    };
    format!("{value:.digits$} {unit}")
}

/// A number with commas between thousands.
fn grouped(number: u64) -> String {
    let digits = number.to_string();
    let mut text = String::new();
    for (k, digit) in digits.chars().enumerate() {
        if k > 0 && (digits.len() - k) % 3 == 0 {
            text.push(',');
        }
        text.push(digit);
    }
    text
}
