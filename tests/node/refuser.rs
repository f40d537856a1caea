//! Watches the requests for memory of the program that it is loaded into before all else. It refuses the one whose number,
//! counted from 1, stands in the variable REFUSE, and writes `refused` to standard error then. Where the variable TELL is set,
//! it writes `request BYTES` there for each.
#![no_std]

use core::ffi::{c_char, c_int, c_long, c_void};
use core::panic::PanicInfo;
use core::ptr::null_mut;
use core::sync::atomic::{AtomicBool, AtomicI64, Ordering::SeqCst};

unsafe extern "C" {
    fn __libc_malloc(size: usize) -> *mut c_void;
    fn __libc_realloc(block: *mut c_void, size: usize) -> *mut c_void;
    fn getenv(name: *const c_char) -> *const c_char;
    fn atol(text: *const c_char) -> c_long;
    fn write(file: c_int, bytes: *const c_void, count: usize) -> isize;
}

const UNREAD: i64 = i64::MIN;
const DIGITS: usize = 20;

/// How many requests are left until the one that is refused.
static LEFT: AtomicI64 = AtomicI64::new(UNREAD);
static TELLS: AtomicBool = AtomicBool::new(false);

fn say(text: &[u8]) {
    unsafe { write(2, text.as_ptr().cast(), text.len()) };
}

fn read_variables() {
    let number = unsafe { getenv(c"REFUSE".as_ptr()) };
    let left = if number.is_null() { 0 } else { unsafe { atol(number) } };
    TELLS.store(!unsafe { getenv(c"TELL".as_ptr()) }.is_null(), SeqCst);
    LEFT.store(left, SeqCst);
}

/// Writes the line of a request, at once.
fn tell(size: usize) {
    let mut line = *b"request 00000000000000000000\n";
    let (first, mut rest) = (line.len() - 1 - DIGITS, size);
    for place in (first..first + DIGITS).rev() {
        line[place] = b'0' + (rest % 10) as u8;
        rest /= 10;
    }
    say(&line);
}

fn is_refused(size: usize) -> bool {
    if LEFT.load(SeqCst) == UNREAD {
        read_variables();
    }
    if TELLS.load(SeqCst) {
        tell(size);
    }
    let refused = LEFT.fetch_sub(1, SeqCst) == 1;
    if refused {
        say(b"refused\n");
    }
    refused
}

#[unsafe(no_mangle)]
pub extern "C" fn malloc(size: usize) -> *mut c_void {
    if is_refused(size) { null_mut() } else { unsafe { __libc_malloc(size) } }
}

#[unsafe(no_mangle)]
pub extern "C" fn realloc(block: *mut c_void, size: usize) -> *mut c_void {
    if is_refused(size) { null_mut() } else { unsafe { __libc_realloc(block, size) } }
}

#[panic_handler]
fn stop(_: &PanicInfo) -> ! {
    loop {}
}
