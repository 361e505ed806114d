//! A stack of our own for one call: painted, so that the lowest byte written shows, or cut off, so that a touch below it is fatal.

use std::arch::asm;

extern "C" {
    /// Maps pages.
    fn mmap(at: *mut u8, bytes: usize, access: i32, flags: i32, file: i32, from: i64) -> *mut u8;
    /// Sets what may be done with pages.
    fn mprotect(at: *mut u8, bytes: usize, access: i32) -> i32;
    /// Gives pages back.
    fn munmap(at: *mut u8, bytes: usize) -> i32;
    /// Makes a second process of this one.
    fn fork() -> i32;
    /// Waits for a process and tells how it ended.
    fn waitpid(process: i32, status: *mut i32, options: i32) -> i32;
    /// Ends the process and does nothing else.
    fn _exit(code: i32) -> !;
}

/// Pages that may not be touched, and pages that may be read and written.
const NONE: i32 = 0;
const READ_WRITE: i32 = 3;

/// Pages of this process alone, without a file, for which no memory is kept ready.
const FRESH: i32 = 0x2 | 0x20 | 0x4000;

/// The bytes below the stack that may not be touched: more than any frame that could jump over them.
const GUARD: usize = 16 << 20;

/// The bytes of the stack.
pub const ROOM: usize = 4 << 20;

/// What the bytes of a stack are counted in, and what its top is a multiple of.
pub const UNIT: usize = 64;

/// A C function and so many words, of which it may want fewer: the first six go in registers, the others on its stack.
#[derive(Clone, Copy)]
pub struct Called {
    pub function: usize,
    pub words: [u64; 10],
    pub count: usize,
}

/// How a call on a stack that is cut off ended.
#[derive(PartialEq, Debug)]
pub enum End {
    /// It returned this answer's equal.
    Same,
    /// It returned another answer.
    Other,
    /// It touched what is not its own.
    Killed,
}

/// Calls a function with its stack pointer at a place, below which there must be stack enough.
unsafe fn call_at(top: usize, called: &Called) -> u64 {
    let [first, second, third, fourth, fifth, sixth, ..] = called.words;
    let stacked = &called.words[6..called.count];
    // The stack pointer of a call is a multiple of 16.
    let lower = top - 16 * stacked.len().div_ceil(2);
    std::ptr::copy_nonoverlapping(stacked.as_ptr(), lower as *mut u64, stacked.len());
    let answer;
    asm!(
        "mov r12, rsp",
        "mov rsp, r13",
        "call r14",
        "mov rsp, r12",
        out("r12") _,
        in("r13") lower,
        in("r14") called.function,
        in("rdi") first,
        in("rsi") second,
        in("rdx") third,
        in("rcx") fourth,
        in("r8") fifth,
        in("r9") sixth,
        lateout("rax") answer,
        clobber_abi("C"),
    );
    answer
}

/// The word that is painted at an address; it differs from address to address, so that a copied one shows.
fn paint(address: usize) -> u64 {
    (address as u64).wrapping_mul(0x9E37_79B9_7F4A_7C15) ^ 0xA5A5_A5A5_5A5A_5A5A
}

/// The stack, by the address of its lowest byte.
pub struct Region {
    base: usize,
}

impl Region {
    /// A painted stack.
    pub fn new() -> Region {
        // The pages are new ones, so that nothing else has them.
        let base = unsafe {
            let all = mmap(std::ptr::null_mut(), GUARD + ROOM, NONE, FRESH, -1, 0);
            assert!(all as isize != -1, "no pages for a stack");
            let base = all.add(GUARD);
            assert_eq!(mprotect(base, ROOM, READ_WRITE), 0, "no access to a stack");
            base as usize
        };
        let mut region = Region { base };
        region.repaint(0);
        region
    }

    /// The stack as words.
    fn words(&mut self) -> &mut [u64] {
        // The pages are mapped, readable and writable, and no call is using them.
        unsafe { std::slice::from_raw_parts_mut(self.base as *mut u64, ROOM / 8) }
    }

    /// Paints every word from one on.
    fn repaint(&mut self, from: usize) {
        let base = self.base;
        let words = self.words().iter_mut().enumerate().skip(from);
        words.for_each(|(at, word)| *word = paint(base + 8 * at));
    }

    /// A call's answer, and the bytes from the stack pointer before the call down to the lowest word that it changed.
    pub fn painted(&mut self, called: &Called) -> (u64, usize) {
        // The words are those of the function's own arguments, and the stack has more bytes than it needs, or the guard ends the process.
        let answer = unsafe { call_at(self.base + ROOM, called) };
        let base = self.base;
        let mut words = self.words().iter().enumerate();
        let changed = words.find(|(at, word)| **word != paint(base + 8 * at));
        let lowest = changed.map_or(ROOM / 8, |(at, _)| at);
        self.repaint(lowest);
        (answer, ROOM - 8 * lowest)
    }

    /// How a call ends in another process where it has so many bytes below its stack pointer.
    pub fn cut_off(&mut self, bytes: usize, called: &Called, answer: u64) -> End {
        assert!(bytes <= ROOM && bytes.is_multiple_of(UNIT));
        // The second process only makes the call and ends, whatever locks other threads had.
        unsafe {
            let process = fork();
            assert!(process >= 0, "no second process");
            if process == 0 {
                let same = call_at(self.base + bytes, called) == answer;
                _exit(i32::from(!same));
            }
            let mut status = 0;
            assert_eq!(waitpid(process, &mut status, 0), process);
            match (status & 0x7F, status >> 8 & 0xFF) {
                (0, 0) => End::Same,
                (0, _) => End::Other,
                _ => End::Killed,
            }
        }
    }
}

impl Drop for Region {
    /// Gives the pages back.
    fn drop(&mut self) {
        // Nothing points into the pages any more.
        unsafe { munmap((self.base - GUARD) as *mut u8, GUARD + ROOM) };
    }
}
