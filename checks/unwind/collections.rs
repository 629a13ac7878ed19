// What the standard library's collections and texts do, in a program that imports nothing.
#![feature(alloc_error_handler, default_alloc_error_handler, lang_items)]
#![no_std]
#![no_main]
extern crate alloc;
use alloc::collections::{BTreeMap, VecDeque};
use alloc::{boxed::Box, format, string::String, vec::Vec};
use core::alloc::{GlobalAlloc, Layout};
use core::sync::atomic::{AtomicUsize, Ordering};

struct Bump;
static mut HEAP: [u8; 1 << 22] = [0; 1 << 22];
static NEXT: AtomicUsize = AtomicUsize::new(0);

unsafe impl GlobalAlloc for Bump {
    unsafe fn alloc(&self, layout: Layout) -> *mut u8 {
        let at = (NEXT.load(Ordering::Relaxed) + layout.align() - 1) & !(layout.align() - 1);
        NEXT.store(at + layout.size(), Ordering::Relaxed);
        core::ptr::addr_of_mut!(HEAP).cast::<u8>().add(at)
    }
    unsafe fn dealloc(&self, _: *mut u8, _: Layout) {}
}

#[global_allocator]
static BUMP: Bump = Bump;

#[panic_handler]
fn panicked(_: &core::panic::PanicInfo) -> ! {
    loop {}
}

trait Shape {
    fn area(&self, by: f64) -> f64;
}
struct Square(f64);
struct Circle(f64);
impl Shape for Square {
    fn area(&self, by: f64) -> f64 {
        self.0 * self.0 * by
    }
}
impl Shape for Circle {
    fn area(&self, by: f64) -> f64 {
        self.0 * 3.14159 * by
    }
}

#[no_mangle]
pub static _fltused: i32 = 0;

#[no_mangle]
#[inline(never)]
pub extern "C" fn start() -> usize {
    let mut total = 0;
    for round in 0..6u64 {
        let mut map: BTreeMap<String, u64> = BTreeMap::new();
        let mut seed = 12345 + round;
        for n in 0..60 {
            seed = seed.wrapping_mul(6364136223846793005).wrapping_add(1442695040888963407);
            *map.entry(format!("{:x}-{}", seed >> 50, n % 7)).or_insert(0) += n;
        }
        let mut all: Vec<(&String, &u64)> = map.iter().collect();
        all.sort_by(|a, b| b.1.cmp(a.1).then(a.0.cmp(b.0)));
        let mut queue: VecDeque<String> = all.iter().map(|p| format!("{:?}", p)).collect();
        while let Some(text) = queue.pop_front() {
            total += text.chars().filter(|c| c.is_alphanumeric()).count();
            if text.len() % 5 == 0 {
                queue.push_back(text.to_uppercase().replace("-", ""));
            }
        }
        let shapes: Vec<Box<dyn Shape>> = alloc::vec![Box::new(Square(2.5)), Box::new(Circle(seed as f64))];
        let text = format!("{:.3} {:e}", shapes.iter().map(|s| s.area(1.5)).sum::<f64>(), seed as f64);
        total += text.parse::<f64>().map_or(text.len(), |v| v as usize);
        total += i128::from(seed).wrapping_mul(i128::from(seed)).count_ones() as usize;
    }
    total
}
