//! Whether standard input or standard output was closed when the command began. Before `main` Rust's runtime opens /dev/null in place of a
//! closed one, and what is written there is lost without a word; so this is asked before it. The only unsafe code of the command.

#![allow(unsafe_code, reason = "one call of the C library, before `main`")]

use std::ffi::c_int;
use std::sync::atomic::{AtomicBool, Ordering};

static CLOSED: [AtomicBool; 2] = [AtomicBool::new(false), AtomicBool::new(false)];

unsafe extern "C" {
    fn fcntl(descriptor: c_int, command: c_int, ...) -> c_int;
}

const GET_FLAGS: c_int = 1;

extern "C" fn look() {
    for (descriptor, closed) in (0..).zip(&CLOSED) {
        // SAFETY: this command of `fcntl` takes no further argument and changes nothing.
        let answer = unsafe { fcntl(descriptor, GET_FLAGS) };
        closed.store(answer == -1, Ordering::Relaxed);
    }
}

// SAFETY: the loader calls each function of this section once, before `main`, and `look` needs nothing that is set up later.
#[used]
#[unsafe(link_section = ".init_array")]
static LOOK: extern "C" fn() = look;

pub fn input() -> bool {
    CLOSED[0].load(Ordering::Relaxed)
}

pub fn output() -> bool {
    CLOSED[1].load(Ordering::Relaxed)
}
