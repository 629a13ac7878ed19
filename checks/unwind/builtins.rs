// What compiled code calls of compiler_builtins, in a program that imports nothing.
#![feature(compiler_builtins)]
#![no_std]
#![compiler_builtins]
#[no_mangle]
pub unsafe extern "C" fn memcpy(to: *mut u8, from: *const u8, count: usize) -> *mut u8 {
    let mut at = 0;
    while at < count {
        core::ptr::write_volatile(to.add(at), *from.add(at));
        at += 1;
    }
    to
}
#[no_mangle]
pub unsafe extern "C" fn memmove(to: *mut u8, from: *const u8, count: usize) -> *mut u8 {
    if (to as usize) < from as usize {
        return memcpy(to, from, count);
    }
    let mut at = count;
    while at > 0 {
        at -= 1;
        core::ptr::write_volatile(to.add(at), *from.add(at));
    }
    to
}
#[no_mangle]
pub unsafe extern "C" fn memset(to: *mut u8, byte: i32, count: usize) -> *mut u8 {
    let mut at = 0;
    while at < count {
        core::ptr::write_volatile(to.add(at), byte as u8);
        at += 1;
    }
    to
}
#[no_mangle]
pub unsafe extern "C" fn memcmp(a: *const u8, b: *const u8, count: usize) -> i32 {
    let mut at = 0;
    while at < count {
        let (x, y) = (core::ptr::read_volatile(a.add(at)), core::ptr::read_volatile(b.add(at)));
        if x != y {
            return x as i32 - y as i32;
        }
        at += 1;
    }
    0
}
