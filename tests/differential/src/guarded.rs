//! Lists at the end of mapped memory. The page behind a list can be neither read nor written, so that a call which goes past its end is
//! stopped there; the page before the mapping neither.

use crate::compare::nan;
use std::sync::atomic::{AtomicU64, Ordering};

/// As in sys/mman.h and signal.h of Linux on x86-64, the one machine that the archives link for.
const PAGE: usize = 4096;
const READ_WRITE: i32 = 3;
const PRIVATE_ANONYMOUS: i32 = 0x22;
const SEGMENT_FAULT: i32 = 11;

extern "C" {
    fn mmap(at: *mut u8, length: usize, access: i32, flags: i32, file: i32, offset: i64) -> *mut u8;
    fn mprotect(at: *mut u8, length: usize, access: i32) -> i32;
    fn signal(number: i32, handler: extern "C" fn(i32)) -> usize;
}

/// The case under way, for the message.
static CASE: AtomicU64 = AtomicU64::new(0);

/// Names the case that `touched` says where one goes past a list.
pub fn under_way(case: u64) {
    CASE.store(case, Ordering::Relaxed);
}

/// A call that goes past a list ends the program with a line that names the case, and status 1.
pub fn watch() {
    // SAFETY: the handler ends the program.
    unsafe { signal(SEGMENT_FAULT, touched) };
}

extern "C" fn touched(_: i32) {
    println!("DIFFERENT: case {} goes past the end of a list", CASE.load(Ordering::Relaxed));
    std::process::exit(1);
}

/// Room for one list at a time, of so many elements at most.
pub struct Guarded<T> {
    /// Where the page without access starts.
    end: *mut T,
    room: usize,
    length: usize,
}

impl<T: Copy> Guarded<T> {
    pub fn new(most: usize) -> Self {
        let bytes = (most * size_of::<T>()).next_multiple_of(PAGE);
        // SAFETY: a mapping of its own, kept to the program's end; its inner pages get their access.
        unsafe {
            let before = mmap(std::ptr::null_mut(), bytes + 2 * PAGE, 0, PRIVATE_ANONYMOUS, -1, 0);
            assert!(before as isize != -1, "no memory");
            let start = before.add(PAGE);
            assert_eq!(mprotect(start, bytes, READ_WRITE), 0, "no access");
            Self { end: start.add(bytes).cast(), room: bytes / size_of::<T>(), length: 0 }
        }
    }

    /// A list of these elements, which ends where the access does.
    pub fn lend(&mut self, elements: &[T]) -> &mut [T] {
        assert!(elements.len() <= self.room);
        self.length = elements.len();
        let list = self.list();
        list.copy_from_slice(elements);
        list
    }

    pub fn list(&mut self) -> &mut [T] {
        // SAFETY: the room before `end` is mapped and aligned, and any bits are a T of those used here.
        unsafe { std::slice::from_raw_parts_mut(self.end.sub(self.length), self.length) }
    }
}

/// A list of numbers that a call writes, full of NaNs of which each has its own bits, with some more of these in front.
pub struct GuardedOutput(Guarded<u64>);

const GUARDS: usize = 4;

impl GuardedOutput {
    pub fn new(most: usize) -> Self {
        Self(Guarded::new(GUARDS + most))
    }

    pub fn lend(&mut self, length: usize) -> &mut [f64] {
        let nans: Vec<u64> = (0..GUARDS + length).map(nan).collect();
        let list = &mut self.0.lend(&nans)[GUARDS..];
        // SAFETY: same size and alignment; any bits are a double.
        unsafe { std::slice::from_raw_parts_mut(list.as_mut_ptr().cast(), list.len()) }
    }

    /// Whether the front is these numbers, by their bits, and all the rest as it was.
    pub fn holds(&mut self, front: &[f64]) -> bool {
        let cells = self.0.list();
        let end = GUARDS + front.len();
        let kept = |i: usize| cells[i] == nan(i);
        end <= cells.len()
            && cells[GUARDS..end].iter().zip(front).all(|(cell, value)| *cell == value.to_bits())
            && (0..GUARDS).chain(end..cells.len()).all(kept)
    }
}
