//! What the times were measured on.

use std::fs;

/// Without these two the original's product is wrong, and its time means nothing.
#[cfg(target_arch = "x86_64")]
pub fn processor_lacks() -> Option<&'static str> {
    let there =
        std::is_x86_feature_detected!("pclmulqdq") && std::is_x86_feature_detected!("sse4.1");
    (!there).then_some("the processor lacks PCLMULQDQ or SSE4.1")
}

#[cfg(not(target_arch = "x86_64"))]
pub fn processor_lacks() -> Option<&'static str> {
    Some("the original's product is right on x86-64 only")
}

pub fn describe() {
    let processors = std::thread::available_parallelism().map_or(1, usize::from);
    println!("processor: {} ({processors} to be had)", model());
    println!("original: release build, {}", original_build());
}

fn model() -> String {
    let info = fs::read_to_string("/proc/cpuinfo").unwrap_or_default();
    info.lines()
        .find_map(|line| line.strip_prefix("model name")?.split_once(':'))
        .map_or("unknown".to_string(), |(_, name)| name.trim().to_string())
}

/// The original's carry-less product is inlined where the build knows the processor has it.
fn original_build() -> &'static str {
    if cfg!(target_feature = "pclmulqdq") {
        "-C target-cpu=native"
    } else {
        "NOT for this processor: build it with -C target-cpu=native, as ./bench does"
    }
}
