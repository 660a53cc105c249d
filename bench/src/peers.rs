//! Peers outside Rust: the same peel loop over another library's matching, any full setting.

use crate::demands::Demand;
use std::fs;
use std::io;
use std::path::{Path, PathBuf};
use std::process::Command;

pub struct Peer {
    pub name: &'static str,
    command: Vec<String>,
    folder: PathBuf,
}

impl Peer {
    pub fn new(name: &'static str, command: &[&str], folder: &Path) -> Peer {
        let command = command.iter().map(|word| word.to_string()).collect();
        Peer { name, command, folder: folder.to_path_buf() }
    }

    /// The least nanoseconds that the peer takes for each demand.
    pub fn time(&self, demands: &[Demand]) -> io::Result<Vec<f64>> {
        let mut command = Command::new(&self.command[0]);
        command.args(&self.command[1..]);
        for demand in demands {
            command.arg(self.write(demand)?);
        }
        let output = command.output()?;
        if !output.status.success() {
            return Err(io::Error::other(String::from_utf8_lossy(&output.stderr).into_owned()));
        }
        let text = String::from_utf8_lossy(&output.stdout).into_owned();
        let times: Vec<f64> =
            text.lines().zip(demands).filter_map(|(line, demand)| time_of(line, demand)).collect();
        if times.len() != demands.len() {
            return Err(io::Error::other(format!("a plan whose total hold is not T: {text}")));
        }
        Ok(times)
    }

    fn write(&self, demand: &Demand) -> io::Result<PathBuf> {
        let file = self.folder.join(format!("{}-{}", demand.kind, demand.n));
        let numbers = std::iter::once(&(demand.n as u32)).chain(&demand.cells).copied().collect::<Vec<_>>();
        fs::write(&file, numbers.iter().flat_map(|number| number.to_le_bytes()).collect::<Vec<_>>())?;
        Ok(file)
    }
}

/// The time in a peer's line, if its total hold is that of an exact plan.
fn time_of(line: &str, demand: &Demand) -> Option<f64> {
    let numbers: Vec<u64> = line.split_whitespace().map_while(|word| word.parse().ok()).collect();
    match numbers[..] {
        [_, total, nanoseconds] if total == demand.longest => Some(nanoseconds as f64),
        _ => None,
    }
}
