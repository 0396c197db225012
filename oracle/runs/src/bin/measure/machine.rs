//! The machine that figures were measured on, and what else it did at the time.
use std::fs;
use std::thread::available_parallelism;
use std::time::Instant;

/// Measures, and prints before and after it on which machine, beside how much other work, and for how long.
pub fn described(measure: impl FnOnce()) {
    let start = Instant::now();
    let processor = after_colon("/proc/cpuinfo", "model name").unwrap_or("a processor that gives no name".to_string());
    let cores = available_parallelism().map_or(1, usize::from);
    println!("The machine has {cores} cores ({processor}{}). The compiler is {}.", caches(), env!("COMPILER"));
    println!("The load average at the start was {}.", load());
    measure();
    let minutes = start.elapsed().as_secs_f64() / 60.0;
    println!("\nThe load average at the end, with this program, was {}. `measure` took {minutes:.1} minutes.", load());
}

fn after_colon(path: &str, field: &str) -> Option<String> {
    let text = fs::read_to_string(path).ok()?;
    let line = text.lines().find(|line| line.starts_with(field))?;
    line.split_once(": ").map(|(_, value)| value.trim().to_string())
}

/// The caches of the first core, as far as the system tells.
fn caches() -> String {
    let of = |level: usize, what: &str| {
        fs::read_to_string(format!("/sys/devices/system/cpu/cpu0/cache/index{level}/size"))
            .map_or(String::new(), |size| format!(", {what}-level cache {}", size.trim()))
    };
    [of(0, "first"), of(2, "second"), of(3, "third")].concat()
}

/// How many programs wanted a core, over the last minute and over the last 15 minutes.
fn load() -> String {
    let text = fs::read_to_string("/proc/loadavg").unwrap_or_default();
    match text.split(' ').collect::<Vec<_>>()[..] {
        [minute, _, quarter, ..] => format!("{minute} over one minute and {quarter} over 15 minutes"),
        _ => "not known".to_string(),
    }
}
