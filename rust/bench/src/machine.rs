//! The state of the machine while times are taken: without it a time says
//! nothing. What cannot be found out is called unknown.

use std::fs;
use std::process::Command;
use std::thread;
use std::time::Duration;

pub fn state() -> String {
    let cores = thread::available_parallelism().map_or("unknown".to_string(), |cores| cores.to_string());
    format!(
        "processor      {}\ncores          {cores}\nload average   {}\ncompiler       {}\nbuild          {}\n",
        processor(),
        load(),
        compiler(),
        build()
    )
}

/// The processor time of all programs that were run and have ended, from the
/// kernel's counts of hundredths of a second.
pub fn children() -> Duration {
    let stat = fs::read_to_string("/proc/self/stat").unwrap_or_default();
    // The name in brackets may hold anything; the fields after it are numbers.
    let fields: Vec<&str> = stat.rsplit(')').next().unwrap_or("").split_whitespace().collect();
    let count = |place: usize| fields.get(place).and_then(|field| field.parse::<u64>().ok()).unwrap_or(0);
    Duration::from_millis(10 * (count(13) + count(14)))
}

pub fn load() -> String {
    let load = fs::read_to_string("/proc/loadavg").unwrap_or_default();
    let averages: Vec<&str> = load.split_whitespace().take(3).collect();
    if averages.is_empty() {
        "unknown".to_string()
    } else {
        averages.join(" ")
    }
}

fn processor() -> String {
    let all = fs::read_to_string("/proc/cpuinfo").unwrap_or_default();
    let model =
        all.lines().find(|line| line.starts_with("model name")).and_then(|line| line.split(": ").nth(1));
    model.unwrap_or("unknown").to_string()
}

fn compiler() -> String {
    let told = Command::new("rustc").arg("--version").output();
    told.map_or("unknown".to_string(), |told| String::from_utf8_lossy(&told.stdout).trim().to_string())
}

/// The reference is built with this program, by the profile of the workspace.
fn build() -> String {
    let profile = if cfg!(debug_assertions) { "dev" } else { "release, opt-level 3, overflow checks on" };
    match option_env!("RUSTFLAGS") {
        None | Some("") => profile.to_string(),
        Some(flags) => format!("{profile}, RUSTFLAGS {flags}"),
    }
}
