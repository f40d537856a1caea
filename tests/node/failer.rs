//! Has calls of the system fail in the program that it is loaded into before all else. The variable FAIL says which: their name and
//! which one of that name, counted from 0, as `read 3`; where a number follows, so many in a row from that one on. Such a call does
//! nothing and is answered an error of input and output, and `failed` is written to standard error then. Calls on standard error aren't
//! counted. Where the variable PIECES is set, a read from standard input takes at most so many bytes. Where HOLD is set, a change of a
//! file's mode waits until there is a file at that path, for ten seconds at most. Where SLOW is set, each write to a file behind the
//! standard streams takes so many milliseconds.
#![no_std]

use core::ffi::{CStr, c_char, c_int, c_long, c_void};
use core::panic::PanicInfo;
use core::sync::atomic::{AtomicI64, Ordering::SeqCst};

unsafe extern "C" {
    fn syscall(number: c_long, ...) -> c_long;
    fn getenv(name: *const c_char) -> *const c_char;
    fn atol(text: *const c_char) -> c_long;
    fn __errno_location() -> *mut c_int;
}

const READ: c_long = 0;
const WRITE: c_long = 1;
const ACCESS: c_long = 21;
const NANOSLEEP: c_long = 35;
const SENDTO: c_long = 44;
const RECVFROM: c_long = 45;
const FDATASYNC: c_long = 75;
const CHMOD: c_long = 90;
const ACCEPT4: c_long = 288;

const INPUT_OUTPUT: c_int = 5;
const STANDARD_INPUT: c_int = 0;
const STANDARD_ERROR: c_int = 2;
const MILLISECOND: [i64; 2] = [0, 1_000_000];
const UNREAD: i64 = i64::MIN;

/// How many calls of the name that fails are left until the first one that does; below 0 behind it.
static LEFT: AtomicI64 = AtomicI64::new(UNREAD);

/// What stands behind a name and a space in the variable FAIL, if it is that name: which call fails first, and how many do in a row.
fn place_of(name: &CStr) -> Option<(i64, i64)> {
    let given = unsafe { getenv(c"FAIL".as_ptr()) };
    if given.is_null() {
        return None;
    }
    let rest = unsafe { CStr::from_ptr(given) }.to_bytes().strip_prefix(name.to_bytes())?.strip_prefix(b" ")?;
    let number = |text: &[u8]| i64::from(unsafe { atol(text.as_ptr().cast()) });
    let count = rest.iter().position(|&it| it == b' ').map_or(1, |space| number(&rest[space..]));
    Some((number(rest), count))
}

/// Whether this call of that name is one that fails.
fn fails(name: &CStr, file: c_int) -> bool {
    let Some((place, count)) = place_of(name).filter(|_| file != STANDARD_ERROR) else {
        return false;
    };
    let _is_first = LEFT.compare_exchange(UNREAD, place, SeqCst, SeqCst);
    let left = LEFT.fetch_sub(1, SeqCst);
    if left > 0 || left <= -count {
        return false;
    }
    let said = b"failed\n";
    unsafe {
        syscall(WRITE, STANDARD_ERROR, said.as_ptr(), said.len());
        *__errno_location() = INPUT_OUTPUT;
    }
    true
}

#[unsafe(no_mangle)]
pub extern "C" fn read(file: c_int, bytes: *mut c_void, count: usize) -> isize {
    if fails(c"read", file) {
        return -1;
    }
    let pieces = unsafe { getenv(c"PIECES".as_ptr()) };
    let most = if file == STANDARD_INPUT && !pieces.is_null() { unsafe { atol(pieces) as usize } } else { count };
    unsafe { syscall(READ, file, bytes, count.min(most)) as isize }
}

/// Waits for a millisecond.
fn wait() {
    unsafe { syscall(NANOSLEEP, MILLISECOND.as_ptr(), core::ptr::null::<i64>()) };
}

#[unsafe(no_mangle)]
pub extern "C" fn write(file: c_int, bytes: *const c_void, count: usize) -> isize {
    let slow = unsafe { getenv(c"SLOW".as_ptr()) };
    let milliseconds = if slow.is_null() || file <= STANDARD_ERROR { 0 } else { unsafe { atol(slow) } };
    for _ in 0..milliseconds {
        wait();
    }
    if fails(c"write", file) { -1 } else { unsafe { syscall(WRITE, file, bytes, count) as isize } }
}

#[unsafe(no_mangle)]
pub extern "C" fn fdatasync(file: c_int) -> c_int {
    if fails(c"fdatasync", file) { -1 } else { unsafe { syscall(FDATASYNC, file) as c_int } }
}

#[unsafe(no_mangle)]
pub extern "C" fn recvfrom(file: c_int, bytes: *mut c_void, count: usize, flags: c_int, from: *mut c_void, length: *mut c_int) -> isize {
    if fails(c"recvfrom", file) { -1 } else { unsafe { syscall(RECVFROM, file, bytes, count, flags, from, length) as isize } }
}

#[unsafe(no_mangle)]
pub extern "C" fn recv(file: c_int, bytes: *mut c_void, count: usize, flags: c_int) -> isize {
    let none: *mut c_void = core::ptr::null_mut();
    if fails(c"recv", file) { -1 } else { unsafe { syscall(RECVFROM, file, bytes, count, flags, none, none) as isize } }
}

#[unsafe(no_mangle)]
pub extern "C" fn sendto(file: c_int, bytes: *const c_void, count: usize, flags: c_int, to: *const c_void, length: c_int) -> isize {
    if fails(c"sendto", file) { -1 } else { unsafe { syscall(SENDTO, file, bytes, count, flags, to, length) as isize } }
}

#[unsafe(no_mangle)]
pub extern "C" fn send(file: c_int, bytes: *const c_void, count: usize, flags: c_int) -> isize {
    let none: *const c_void = core::ptr::null();
    if fails(c"send", file) { -1 } else { unsafe { syscall(SENDTO, file, bytes, count, flags, none, 0) as isize } }
}

#[unsafe(no_mangle)]
pub extern "C" fn accept4(file: c_int, from: *mut c_void, length: *mut c_int, flags: c_int) -> c_int {
    if fails(c"accept4", file) { -1 } else { unsafe { syscall(ACCEPT4, file, from, length, flags) as c_int } }
}

#[unsafe(no_mangle)]
pub extern "C" fn chmod(path: *const c_char, mode: u32) -> c_int {
    let awaited = unsafe { getenv(c"HOLD".as_ptr()) };
    let mut left = if awaited.is_null() { 0 } else { 10_000 };
    while left > 0 && unsafe { syscall(ACCESS, awaited, 0) } != 0 {
        wait();
        left -= 1;
    }
    unsafe { syscall(CHMOD, path, mode) as c_int }
}

#[panic_handler]
fn stop(_: &PanicInfo) -> ! {
    loop {}
}
