//! The time of `rt ci`, from the log of a run under the shell's `time`: rt itself prints no times, so there are none of
//! single crates.

/// The seconds of the run, and rt's last line, "N passed, M failed".
pub fn whole(log: &str) -> Option<(u64, &str)> {
    let last = log.lines().rev().find(|line| line.contains(" passed, ") && line.ends_with(" failed"))?;
    let (minutes, seconds) =
        log.lines().rev().find_map(|line| line.strip_prefix("real\t"))?.strip_suffix('s')?.split_once('m')?;
    Some((60 * minutes.parse::<u64>().ok()? + seconds.parse::<f64>().ok()?.round() as u64, last))
}
