//! Instructions by callgrind: client requests that the tool sees while the program runs under it, and the dumps that it leaves.
use std::collections::HashMap;
use std::ffi::CString;
use std::path::Path;

const ZERO_STATS: u64 = 0x4354_0001;
const DUMP_STATS_AT: u64 = 0x4354_0003;

/// A client request of Valgrind: outside of it these instructions do nothing.
#[cfg(target_arch = "x86_64")]
fn request(number: u64, argument: u64) {
    let block = [number, argument, 0, 0, 0, 0];
    // SAFETY: the rotations by 128 bits in all leave rdi as it was, and the exchange of rbx with itself does nothing.
    unsafe {
        std::arch::asm!(
            "rol rdi, 3", "rol rdi, 13", "rol rdi, 61", "rol rdi, 51", "xchg rbx, rbx",
            in("rax") block.as_ptr(), inout("rdx") 0u64 => _, inout("rdi") 0u64 => _,
        );
    }
}

#[cfg(not(target_arch = "x86_64"))]
fn request(_: u64, _: u64) {}

/// Has the instructions of some work dumped under a label.
pub fn count(label: &str, work: impl FnOnce() -> u64) -> u64 {
    let label = CString::new(label).expect("no zero in it");
    request(ZERO_STATS, 0);
    let sum = work();
    request(DUMP_STATS_AT, label.as_ptr() as u64);
    sum
}

/// The instructions by label, of all dumps in a folder.
pub fn counts(folder: &Path) -> HashMap<String, u64> {
    let mut all = HashMap::new();
    for file in std::fs::read_dir(folder).expect("the folder of the dumps") {
        let text = std::fs::read_to_string(file.expect("a file").path()).unwrap_or_default();
        let label = text.lines().find_map(|line| line.strip_prefix("desc: Trigger: Client Request: "));
        let total = text.lines().find_map(|line| line.strip_prefix("totals: ").or(line.strip_prefix("summary: ")));
        if let (Some(label), Some(total)) = (label, total) {
            all.insert(label.trim().to_string(), total.trim().parse().unwrap_or(0));
        }
    }
    all
}
