//! Lists between two pages of memory that may not be touched: an access outside a list ends the
//! run. The only unsafe code.
#![allow(unsafe_code)]

use std::cell::{Cell, RefCell};
use std::ffi::{c_int, c_void};
use std::fmt;
use std::ops::{Deref, DerefMut};
use std::ptr::{self, NonNull};
use std::slice;

unsafe extern "C" {
    fn mmap(
        at: *mut c_void,
        len: usize,
        prot: c_int,
        flags: c_int,
        fd: c_int,
        from: i64,
    ) -> *mut c_void;
    fn mprotect(at: *mut c_void, len: usize, prot: c_int) -> c_int;
    fn munmap(at: *mut c_void, len: usize) -> c_int;
}

// As Linux numbers them.
const PROT_NONE: c_int = 0;
const PROT_READ_WRITE: c_int = 3;
const PRIVATE_ANONYMOUS: c_int = 0x22;

const PAGE: usize = 4096;

/// Which of the two pages a list stands against.
#[derive(Clone, Copy, Debug, PartialEq, Eq)]
pub enum Edge {
    /// The page behind its last cell.
    End,
    /// The page before its first cell.
    Start,
}

thread_local! {
    static EDGE: Cell<Option<Edge>> = const { Cell::new(None) };
    static FREE: RefCell<Free> = const { RefCell::new(Free(Vec::new())) };
}

/// Has every list that is lent from here on stand against a page: at its end for an even number
/// of a book or try, at its start for an odd one.
pub fn turn(index: u64) {
    let edge = if index.is_multiple_of(2) {
        Edge::End
    } else {
        Edge::Start
    };
    EDGE.set(Some(edge));
}

/// Numbers for which any bytes are one.
pub trait Number: Copy + Default + fmt::Debug + PartialEq {}
impl Number for u8 {}
impl Number for u16 {}
impl Number for u32 {}
impl Number for u64 {}
impl Number for i64 {}

/// Pages between two that may not be touched; of this thread's free ones where there are any.
struct Pages {
    first: NonNull<u8>,
    count: usize,
}

/// Pages that are used again, as their making takes longer than most calls.
struct Free(Vec<Pages>);

impl Pages {
    fn of(bytes: usize) -> Pages {
        let count = bytes.div_ceil(PAGE).next_power_of_two();
        let kept = FREE.with_borrow_mut(|free| {
            let at = free.0.iter().rposition(|pages| pages.count == count)?;
            Some(free.0.swap_remove(at))
        });
        kept.unwrap_or_else(|| Pages::mapped(count))
    }

    fn mapped(count: usize) -> Pages {
        let len = (count + 2) * PAGE;
        // SAFETY: a mapping of its own, at a place that the system chooses.
        let whole = unsafe { mmap(ptr::null_mut(), len, PROT_NONE, PRIVATE_ANONYMOUS, -1, 0) };
        assert!(whole.addr() != usize::MAX, "no memory for {count} pages");
        let first = whole.wrapping_byte_add(PAGE);
        // SAFETY: the pages between the first and the last of that mapping.
        let done = unsafe { mprotect(first, count * PAGE, PROT_READ_WRITE) };
        assert!(done == 0, "{count} pages can't be made writable");
        let first = NonNull::new(first.cast()).expect("a mapping");
        Pages { first, count }
    }

    fn unmap(&self) {
        let whole = self.first.as_ptr().wrapping_sub(PAGE);
        // SAFETY: what `mapped` made, and no list is in it any more.
        unsafe { munmap(whole.cast(), (self.count + 2) * PAGE) };
    }
}

impl Drop for Free {
    fn drop(&mut self) {
        self.0.iter().for_each(Pages::unmap);
    }
}

/// A list that stands against one of its two pages.
pub struct Guarded<T: Number> {
    pages: Pages,
    first: NonNull<T>,
    len: usize,
}

// SAFETY: the memory is the list's own.
unsafe impl<T: Number> Send for Guarded<T> {}
unsafe impl<T: Number> Sync for Guarded<T> {}

impl<T: Number> Guarded<T> {
    pub fn resize(&mut self, len: usize, value: T) {
        let mut cells = self.to_vec();
        cells.resize(len, value);
        *self = Guarded::from(cells);
    }
}

impl<T: Number> From<&[T]> for Guarded<T> {
    fn from(cells: &[T]) -> Guarded<T> {
        let bytes = size_of_val(cells);
        let pages = Pages::of(bytes);
        let before = match EDGE.get() {
            Some(Edge::End) => pages.count * PAGE - bytes,
            Some(Edge::Start) | None => 0,
        };
        // SAFETY: within the pages, and aligned, as a cell's size divides a page's.
        let first = unsafe { pages.first.byte_add(before) }.cast();
        let len = cells.len();
        let mut list = Guarded { pages, first, len };
        list.copy_from_slice(cells);
        list
    }
}

impl<T: Number> From<Vec<T>> for Guarded<T> {
    fn from(cells: Vec<T>) -> Guarded<T> {
        Guarded::from(&cells[..])
    }
}

impl<T: Number> FromIterator<T> for Guarded<T> {
    fn from_iter<I: IntoIterator<Item = T>>(cells: I) -> Guarded<T> {
        Guarded::from(Vec::from_iter(cells))
    }
}

impl<'a, T: Number> IntoIterator for &'a Guarded<T> {
    type Item = &'a T;
    type IntoIter = slice::Iter<'a, T>;

    fn into_iter(self) -> slice::Iter<'a, T> {
        self.iter()
    }
}

impl<T: Number> Deref for Guarded<T> {
    type Target = [T];

    fn deref(&self) -> &[T] {
        // SAFETY: `len` cells from `first` on lie in the pages, which hold numbers, and are borrowed as the list is.
        unsafe { slice::from_raw_parts(self.first.as_ptr(), self.len) }
    }
}

impl<T: Number> DerefMut for Guarded<T> {
    fn deref_mut(&mut self) -> &mut [T] {
        // SAFETY: as above, and the list is borrowed alone.
        unsafe { slice::from_raw_parts_mut(self.first.as_ptr(), self.len) }
    }
}

impl<T: Number> Drop for Guarded<T> {
    fn drop(&mut self) {
        let Pages { first, count } = self.pages;
        let free = FREE.try_with(|free| free.borrow_mut().0.push(Pages { first, count }));
        if free.is_err() {
            self.pages.unmap();
        }
    }
}

impl<T: Number> Clone for Guarded<T> {
    fn clone(&self) -> Guarded<T> {
        Guarded::from(&self[..])
    }
}

impl<T: Number> Default for Guarded<T> {
    fn default() -> Guarded<T> {
        Guarded::from(&[][..])
    }
}

impl<T: Number> fmt::Debug for Guarded<T> {
    fn fmt(&self, f: &mut fmt::Formatter) -> fmt::Result {
        self[..].fmt(f)
    }
}

impl<T: Number, L: AsRef<[T]> + ?Sized> PartialEq<L> for Guarded<T> {
    fn eq(&self, other: &L) -> bool {
        self[..] == *other.as_ref()
    }
}

impl<T: Number> Eq for Guarded<T> {}

impl<T: Number> AsRef<[T]> for Guarded<T> {
    fn as_ref(&self) -> &[T] {
        self
    }
}

/// A list as it is lent: itself, and after `turn` a copy that stands against a page.
pub struct Lent<'a, T: Number> {
    list: &'a [T],
    copy: Option<Guarded<T>>,
}

/// A list as it is lent to be written; what was written into a copy is the list's in the end.
pub struct LentMut<'a, T: Number> {
    list: &'a mut [T],
    copy: Option<Guarded<T>>,
}

pub fn lent<T: Number>(list: &[T]) -> Lent<'_, T> {
    let copy = EDGE.get().map(|_| Guarded::from(list));
    Lent { list, copy }
}

pub fn lent_mut<T: Number>(list: &mut [T]) -> LentMut<'_, T> {
    let copy = EDGE.get().map(|_| Guarded::from(&*list));
    LentMut { list, copy }
}

impl<T: Number> Deref for Lent<'_, T> {
    type Target = [T];

    fn deref(&self) -> &[T] {
        self.copy.as_deref().unwrap_or(self.list)
    }
}

impl<T: Number> Deref for LentMut<'_, T> {
    type Target = [T];

    fn deref(&self) -> &[T] {
        self.copy.as_deref().unwrap_or(self.list)
    }
}

impl<T: Number> DerefMut for LentMut<'_, T> {
    fn deref_mut(&mut self) -> &mut [T] {
        self.copy.as_deref_mut().unwrap_or(self.list)
    }
}

impl<T: Number> Drop for LentMut<'_, T> {
    fn drop(&mut self) {
        if let Some(copy) = &self.copy {
            self.list.copy_from_slice(copy);
        }
    }
}
