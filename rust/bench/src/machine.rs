//! What the figures were taken on.

use std::fs;
use std::process::Command;
use std::time::{SystemTime, UNIX_EPOCH};

fn line_of(file: &str, name: &str) -> Option<String> {
    let text = fs::read_to_string(file).ok()?;
    let line = text.lines().find(|line| line.starts_with(name))?;
    Some(line.split_once(':')?.1.trim().to_string())
}

fn memory(name: &str) -> u64 {
    let line = line_of("/proc/meminfo", name).unwrap_or_default();
    let kibibytes = line.split_whitespace().next().unwrap_or("0");
    1024 * kibibytes.parse::<u64>().unwrap_or(0)
}

/// Memory that may be used now.
pub fn free_bytes() -> usize {
    memory("MemAvailable") as usize
}

pub fn processor() -> String {
    let name = line_of("/proc/cpuinfo", "model name").unwrap_or_else(|| "unknown".into());
    let count = std::thread::available_parallelism().map_or(1, |count| count.get());
    let model = line_of("/proc/cpuinfo", "model\t").unwrap_or_default();
    let family = line_of("/proc/cpuinfo", "cpu family").unwrap_or_default();
    let cache = line_of("/proc/cpuinfo", "cache size").unwrap_or_default();
    format!("{name} (family {family}, model {model}), {count} processors, last cache {cache}")
}

pub fn memory_size() -> String {
    format!("{:.1} GiB", memory("MemTotal") as f64 / f64::from(1 << 30))
}

pub fn kernel() -> String {
    fs::read_to_string("/proc/sys/kernel/osrelease")
        .map_or("unknown".into(), |text| format!("Linux {}", text.trim()))
}

/// The version of an installed Debian package.
pub fn package(name: &str) -> String {
    let asked = Command::new("dpkg-query")
        .args(["-W", "-f", "${Version}", name])
        .output();
    asked.map_or(String::new(), |output| {
        String::from_utf8_lossy(&output.stdout).trim().to_string()
    })
}

/// Today, in UTC, as year-month-day.
pub fn date() -> String {
    let now = SystemTime::now().duration_since(UNIX_EPOCH);
    let days = now.map_or(0, |time| time.as_secs() / 86400) as i64;
    // Days to a date of the Gregorian calendar, counted in years from March on.
    let days = days + 719_468;
    let era = days.div_euclid(146_097);
    let day = days.rem_euclid(146_097);
    let year = (day - day / 1460 + day / 36_524 - day / 146_096) / 365;
    let rest = day - (365 * year + year / 4 - year / 100);
    let month = (5 * rest + 2) / 153;
    let date = rest - (153 * month + 2) / 5 + 1;
    let month = if month < 10 { month + 3 } else { month - 9 };
    let year = year + 400 * era + i64::from(month <= 2);
    format!("{year:04}-{month:02}-{date:02}")
}
