//! A lent list stands against a page that may not be touched: whoever reads or writes beside it
//! dies, by SIGSEGV.

use std::env;
use std::os::unix::process::ExitStatusExt;
use std::process::Command;

use crosscheck::guard::{self, lent, lent_mut};
use crosscheck::second::lists::Lists;

const SIGSEGV: i32 = 11;

/// What the child does; not set outside of it.
const TOUCH: &str = "CROSSCHECK_TOUCH";

/// Even numbers of books have their lists at an end, odd ones at a start.
const END: u64 = 0;
const START: u64 = 1;

const LEN: usize = 100;

/// Reads the byte at `at` of a lent list, in bounds or not.
fn read(book: u64, at: isize) {
    guard::turn(book);
    let list = [7_u8; LEN];
    let list = lent(&list);
    // SAFETY: none is claimed out of bounds; the process ends there.
    std::hint::black_box(unsafe { list.as_ptr().wrapping_offset(at).read_volatile() });
}

fn write(book: u64, at: isize) {
    guard::turn(book);
    let mut list = [7_u8; LEN];
    let mut list = lent_mut(&mut list);
    // SAFETY: as above.
    unsafe { list.as_mut_ptr().wrapping_offset(at).write_volatile(8) };
}

/// Reads the cell at `at` of a book's last list.
fn cell(book: u64, at: isize) {
    guard::turn(book);
    let lists = Lists::zeroed(48, 1);
    // SAFETY: as above.
    std::hint::black_box(unsafe { lists.widths.as_ptr().wrapping_offset(at).read_volatile() });
}

const LAST: isize = LEN as isize - 1;

type Touch = (&'static str, fn());

const WITHIN: [Touch; 4] = [
    ("read the last", || read(END, LAST)),
    ("read the first", || read(START, 0)),
    ("write the last", || write(END, LAST)),
    ("cell of a book", || cell(END, 1)),
];

const OUTSIDE: [Touch; 6] = [
    ("read past the end", || read(END, LAST + 1)),
    ("read before the start", || read(START, -1)),
    ("write past the end", || write(END, LAST + 1)),
    ("write before the start", || write(START, -1)),
    ("cell past a book's list", || cell(END, 2)),
    ("cell before a book's list", || cell(START, -1)),
];

/// By which signal a process ends that does what the name says.
fn signal(name: &str) -> Option<i32> {
    let mut command = Command::new(env::current_exe().unwrap());
    command.args(["--exact", "child", "--test-threads", "1"]);
    let ended = command.env(TOUCH, name).output().unwrap().status;
    assert!(ended.success() || ended.signal().is_some(), "{name}");
    ended.signal()
}

#[test]
fn child() {
    let Ok(name) = env::var(TOUCH) else {
        return;
    };
    let touches = WITHIN.iter().chain(&OUTSIDE);
    touches
        .filter(|touch| touch.0 == name)
        .for_each(|touch| touch.1());
}

#[test]
fn within_a_list_all_is_well() {
    for (name, _) in WITHIN {
        assert_eq!(signal(name), None, "{name}");
    }
}

#[test]
fn outside_of_a_list_the_run_ends() {
    for (name, _) in OUTSIDE {
        assert_eq!(signal(name), Some(SIGSEGV), "{name}");
    }
}

#[test]
fn what_is_written_into_a_lent_list_is_the_list_s() {
    for book in [END, START] {
        guard::turn(book);
        for len in [0, 1, 4095, 4096, 4097, 100_000] {
            let mut list: Vec<u32> = (0..len).collect();
            lent_mut(&mut list).iter_mut().for_each(|cell| *cell += 1);
            assert!(list.iter().copied().eq(1..=len), "{len}");
            assert_eq!(*lent(&list), list[..]);
        }
    }
}
