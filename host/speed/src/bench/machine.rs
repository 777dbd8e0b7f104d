//! What safe Rust cannot do: a word to callgrind, the processor's time of programs. All `unsafe` code of the benchmark
//! stands here. For Linux on x86-64 and aarch64.

#[cfg(any(target_arch = "x86_64", target_arch = "aarch64"))]
use std::arch::asm;
use std::ffi::c_int;
use std::time::Duration;

extern "C" {
    fn getrusage(whose: c_int, usage: *mut i64) -> c_int;
}

/// What callgrind can be told; the numbers are those of valgrind/callgrind.h.
#[derive(Clone, Copy)]
pub enum Word {
    /// Write the counts so far to the next file, and start from 0 again.
    Dump = 0x4354_0000,
    /// Start or stop counting.
    Toggle = 0x4354_0002,
}

/// Tells callgrind a word. Anywhere else these instructions do nothing.
pub fn tell_callgrind(word: Word) {
    let request = [word as usize, 0, 0, 0, 0, 0];
    // SAFETY: the sequence of valgrind/valgrind.h. The rotations add up to whole turns and the last instruction changes
    // nothing, so the processor itself goes on as before; valgrind reads the request, and answers in a register that is
    // given up here.
    #[cfg(target_arch = "x86_64")]
    unsafe {
        asm!(
            "rol rdi, 3",
            "rol rdi, 13",
            "rol rdi, 61",
            "rol rdi, 51",
            "xchg rbx, rbx",
            in("rax") request.as_ptr(),
            inout("rdx") 0usize => _,
        );
    }
    // SAFETY: as above.
    #[cfg(target_arch = "aarch64")]
    unsafe {
        asm!(
            "ror x12, x12, #3",
            "ror x12, x12, #13",
            "ror x12, x12, #51",
            "ror x12, x12, #61",
            "orr x10, x10, x10",
            in("x4") request.as_ptr(),
            inout("x3") 0usize => _,
        );
    }
    std::hint::black_box(&request);
}

/// The processor's time, the system's for them included, of all programs that were run and have ended.
pub fn time_of_programs() -> Duration {
    const CHILDREN: c_int = -1;
    let mut usage = [0; 18];
    // SAFETY: on 64-bit Linux a struct rusage is 18 words of 8 bytes. It begins with two times, user's and system's, in
    // seconds and microseconds.
    let status = unsafe { getrusage(CHILDREN, usage.as_mut_ptr()) };
    assert!(status == 0, "the system does not tell the programs' time");
    Duration::from_secs((usage[0] + usage[2]) as u64) + Duration::from_micros((usage[1] + usage[3]) as u64)
}
