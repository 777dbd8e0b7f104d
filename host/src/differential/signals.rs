//! A byte touched in a protected page ends the process by a signal, and so does a part of a run that does not end. This
//! tells which case it was. Linux on x86-64.

use std::ffi::{c_int, c_uint, c_void};
use std::ptr;
use std::sync::atomic::{AtomicU64, Ordering::Relaxed};

/// The case that is being run: seed, part, case.
static WHERE: [AtomicU64; 3] = [AtomicU64::new(0), AtomicU64::new(0), AtomicU64::new(0)];

/// As the C library lays it out.
#[repr(C)]
struct Action {
    handler: extern "C" fn(c_int),
    blocked: [u64; 16],
    flags: c_int,
    restorer: usize,
}

extern "C" {
    fn sigaction(signal: c_int, action: *const Action, old: *mut Action) -> c_int;
    fn alarm(seconds: c_uint) -> c_uint;
    fn write(file: c_int, bytes: *const c_void, length: usize) -> isize;
    fn _exit(status: c_int) -> !;
}

/// Illegal instruction, abort, bus error, arithmetic, protected memory, alarm.
const SIGNALS: [c_int; 6] = [4, 6, 7, 8, 11, 14];
/// A part takes a few seconds at most.
const SECONDS_FOR_A_PART: c_uint = 300;
/// Rust gives each thread a second stack, so that a stack that has run over is told as well.
const ON_THE_SECOND_STACK: c_int = 0x0800_0000;
const STANDARD_ERROR: c_int = 2;

/// From now on such a signal is told, and the process ends with status 1.
pub fn tell_signals() {
    let action = Action { handler: told, blocked: [0; 16], flags: ON_THE_SECOND_STACK, restorer: 0 };
    for signal in SIGNALS {
        // SAFETY: the structure is the C library's own, and the handler calls nothing but `write` and `_exit`.
        let status = unsafe { sigaction(signal, &action, ptr::null_mut()) };
        assert!(status == 0, "signal {signal} cannot be told");
    }
}

/// A part begins: the alarm is set anew.
pub fn set_alarm() {
    // SAFETY: replaces the alarm that was set before.
    unsafe { alarm(SECONDS_FOR_A_PART) };
}

/// The run is over.
pub fn unset_alarm() {
    // SAFETY: takes the alarm back.
    unsafe { alarm(0) };
}

/// Remembers which case is being run.
pub fn now_at(seed: u64, part: u64, case: u64) {
    for (place, value) in WHERE.iter().zip([seed, part, case]) {
        place.store(value, Relaxed);
    }
}

extern "C" fn told(signal: c_int) {
    say(b"difference: signal ");
    say_number(signal as u64);
    say(b" instead of an answer (11: a byte outside the slices; 14: no answer at all) at seed ");
    say_number(WHERE[0].load(Relaxed));
    say(b", part ");
    say_number(WHERE[1].load(Relaxed));
    say(b", case ");
    say_number(WHERE[2].load(Relaxed));
    say(b"; --seed and --part repeat that part and print each case\n");
    // SAFETY: ends the process.
    unsafe { _exit(1) }
}

fn say(text: &[u8]) {
    // SAFETY: the text's own pointer and length.
    unsafe { write(STANDARD_ERROR, text.as_ptr().cast(), text.len()) };
}

fn say_number(number: u64) {
    let mut digits = [0; 20];
    let mut start = digits.len();
    let mut rest = number;
    loop {
        start -= 1;
        digits[start] = b'0' + (rest % 10) as u8;
        rest /= 10;
        if rest == 0 {
            break;
        }
    }
    say(&digits[start..]);
}
