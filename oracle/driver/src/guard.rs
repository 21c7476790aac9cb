//! Memory between two pages that may not be touched. A buffer is lent flush with one of them,
//! and what is left of the region holds a pattern that is looked at afterwards. So a read or
//! write outside the buffer on the one side ends the process, and a write on the other shows.

use std::ffi::c_void;
use std::sync::atomic::{AtomicPtr, AtomicU64, AtomicUsize, Ordering};

extern "C" {
    fn mmap(at: *mut c_void, n: usize, prot: i32, flags: i32, fd: i32, off: i64) -> *mut c_void;
    fn mprotect(at: *mut c_void, n: usize, prot: i32) -> i32;
    fn munmap(at: *mut c_void, n: usize) -> i32;
    fn signal(number: i32, handler: extern "C" fn(i32)) -> usize;
    fn write(fd: i32, from: *const c_void, n: usize) -> isize;
    fn _exit(status: i32) -> !;
}

// What is being run, for the line that a touched guard page prints.
static SEED: AtomicU64 = AtomicU64::new(0);
static INDEX: AtomicU64 = AtomicU64::new(0);
static ENGINE: AtomicPtr<u8> = AtomicPtr::new(std::ptr::null_mut());
static ENGINE_LEN: AtomicUsize = AtomicUsize::new(0);

/// From now on a touched guard page ends the process with status 1 and a line that names the case.
pub fn watch() {
    unsafe {
        signal(11, touched);
        signal(7, touched);
    }
}

pub fn now_case(seed: u64, index: u64) {
    SEED.store(seed, Ordering::Relaxed);
    INDEX.store(index, Ordering::Relaxed);
}

pub fn now_engine(name: &'static str) {
    ENGINE_LEN.store(name.len(), Ordering::Relaxed);
    ENGINE.store(name.as_ptr() as *mut u8, Ordering::Relaxed);
}

// Only what a signal handler may do: no allocation, no lock.
extern "C" fn touched(_number: i32) {
    let text = |s: &[u8]| unsafe {
        write(1, s.as_ptr() as *const c_void, s.len());
    };
    let number = |mut n: u64| {
        let mut digits = [0_u8; 20];
        let mut at = digits.len();
        loop {
            at -= 1;
            digits[at] = b'0' + (n % 10) as u8;
            n /= 10;
            if n == 0 {
                break;
            }
        }
        text(&digits[at..]);
    };
    let seed = SEED.load(Ordering::Relaxed);
    let index = INDEX.load(Ordering::Relaxed);
    text(b"DIFFERENT: seed ");
    number(seed);
    text(b" case ");
    number(index);
    text(b": ");
    let name = ENGINE.load(Ordering::Relaxed);
    if !name.is_null() {
        let n = ENGINE_LEN.load(Ordering::Relaxed);
        text(unsafe { std::slice::from_raw_parts(name, n) });
    }
    text(b" touched memory outside the lent buffers\nagain (with --long, if it was given): compare --seed ");
    number(seed);
    text(b" --only ");
    number(index);
    text(b"\n");
    unsafe { _exit(1) }
}

const PAGE: usize = 4096;
const PATTERN: u8 = 0xc3;

pub struct Guarded {
    base: *mut u8,
    room: usize,
}

#[derive(Clone, Copy, PartialEq, Eq, Debug)]
pub enum Side {
    /// The buffer starts where the lower guard page ends.
    Low,
    /// The buffer ends where the upper guard page starts.
    High,
}

impl Guarded {
    /// At least `bytes` of room (and never less than a page).
    pub fn new(bytes: usize) -> Guarded {
        let room = bytes.max(1).div_ceil(PAGE) * PAGE;
        unsafe {
            // No access, private and anonymous.
            let all = mmap(std::ptr::null_mut(), room + 2 * PAGE, 0, 0x22, -1, 0);
            assert!(all as isize != -1, "no memory for a guarded region");
            let base = (all as *mut u8).add(PAGE);
            // Read and write.
            assert_eq!(mprotect(base as *mut c_void, room, 3), 0);
            std::ptr::write_bytes(base, PATTERN, room);
            Guarded { base, room }
        }
    }

    fn offset(&self, bytes: usize, side: Side) -> usize {
        assert!(bytes <= self.room, "the guarded region is too small");
        match side {
            Side::Low => 0,
            Side::High => self.room - bytes,
        }
    }

    /// Puts `contents` into the region and lends it.
    pub fn lend<T: Copy>(&mut self, contents: &[T], side: Side) -> &mut [T] {
        let bytes = std::mem::size_of_val(contents);
        let at = self.offset(bytes, side);
        unsafe {
            std::ptr::write_bytes(self.base, PATTERN, self.room);
            let p = self.base.add(at) as *mut T;
            assert!(p.is_aligned());
            std::ptr::copy_nonoverlapping(contents.as_ptr(), p, contents.len());
            std::slice::from_raw_parts_mut(p, contents.len())
        }
    }

    /// Whether the region outside the last lent `bytes` still holds the pattern.
    pub fn untouched(&self, bytes: usize, side: Side) -> bool {
        let at = self.offset(bytes, side);
        let all = unsafe { std::slice::from_raw_parts(self.base, self.room) };
        let holds = |part: &[u8]| part.chunks(PAGE).all(|c| *c == [PATTERN; PAGE][..c.len()]);
        holds(&all[..at]) && holds(&all[at + bytes..])
    }
}

impl Drop for Guarded {
    fn drop(&mut self) {
        unsafe {
            munmap(self.base.sub(PAGE) as *mut c_void, self.room + 2 * PAGE);
        }
    }
}
