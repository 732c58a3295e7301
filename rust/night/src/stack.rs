//! The stack that the proved programs need: one that is too small is refused at the start, and not met in the middle
//! of a night.

/// Kilobytes of stack that are asked for. The shift program takes 737 at most, and an environment, which stands there
/// too, up to a quarter of the limit; rust/README.md has what was measured.
pub const NEEDED: u64 = 1024;

const RLIMIT_STACK: i32 = 3;

/// C's `struct rlimit` on 64-bit Linux.
#[repr(C)]
struct Limit {
    soft: u64,
    hard: u64,
}

extern "C" {
    /// The C library has it, and std stands on that. The file /proc/self/limits says the same, but not every small
    /// root has /proc.
    fn getrlimit(resource: i32, limit: *mut Limit) -> i32;
}

/// The stack's soft limit in bytes, which is the highest number where there is none.
fn soft_limit() -> Option<u64> {
    let mut limit = Limit { soft: 0, hard: 0 };
    // The call writes the one struct that it is lent, and keeps nothing.
    let result = unsafe { getrlimit(RLIMIT_STACK, &mut limit) };
    (result == 0 && limit.soft <= limit.hard).then_some(limit.soft)
}

/// Says so where the stack is too small.
pub fn check() -> Result<(), String> {
    match soft_limit() {
        Some(bytes) if bytes / 1024 >= NEEDED => Ok(()),
        Some(bytes) => Err(format!(
            "the stack is limited to {} kilobytes and {NEEDED} are needed: say `ulimit -s {NEEDED}` first, or more",
            bytes / 1024
        )),
        None => Err("how large the stack may be cannot be told".to_string()),
    }
}

#[cfg(test)]
mod tests {
    use super::*;

    #[test]
    fn the_limit_is_what_the_system_says() {
        let limits = std::fs::read_to_string("/proc/self/limits").unwrap();
        let line = limits.lines().find_map(|line| line.strip_prefix("Max stack size")).unwrap();
        let word = line.split_whitespace().next().unwrap();
        assert_eq!(soft_limit(), Some(word.parse().unwrap_or(u64::MAX)));
    }
}
