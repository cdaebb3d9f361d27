//! The one request to valgrind that a run needs: write down what was counted since the last time. Outside valgrind it does nothing.
use std::ffi::CStr;

/// CALLGRIND_DUMP_STATS_AT of valgrind/callgrind.h.
const DUMP_STATS_AT: usize = (b'C' as usize) << 24 | (b'T' as usize) << 16 | 3;

/// Writes the counts down under a label, and counts from zero again.
pub fn dump(label: &CStr) {
    let request = [DUMP_STATS_AT, label.as_ptr() as usize, 0, 0, 0, 0];
    // The sequence that valgrind knows: four turns that leave rdi as it was, and an exchange that does nothing.
    unsafe {
        std::arch::asm!(
            "rol rdi, 3", "rol rdi, 13", "rol rdi, 61", "rol rdi, 51", "xchg rbx, rbx",
            in("rax") request.as_ptr(),
            inout("rdx") 0usize => _,
        );
    }
}
