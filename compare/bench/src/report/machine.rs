//! The machine, in general terms, and whether it had something else to do.

use std::fs;
use std::thread::available_parallelism;

/// Cores and model of the processor and the load of the last minute, as far as the system tells.
pub fn machine() -> String {
    let cores = available_parallelism().map_or(1, usize::from);
    let model = model().unwrap_or_else(|| std::env::consts::ARCH.to_string());
    let load = load().unwrap_or_else(|| "unknown".to_string());
    format!("cores: {cores}; processor: {model}; load when it began: {load}")
}

fn model() -> Option<String> {
    let text = fs::read_to_string("/proc/cpuinfo").ok()?;
    let line = text.lines().find(|line| line.starts_with("model name"))?;
    let (_, model) = line.split_once(':')?;
    Some(model.trim().to_string())
}

fn load() -> Option<String> {
    let text = fs::read_to_string("/proc/loadavg").ok()?;
    text.split_whitespace().next().map(str::to_string)
}
