//! Measures how much stack a call uses: the memory below the caller's frame is painted, and after the call the lowest byte that
//! changed is looked for.

use std::arch::asm;
use std::thread;

/// How much is painted.
const ROOM: usize = 1 << 18;

/// The stack of the thread that measures.
const STACK: usize = 1 << 20;

/// The most stack that any of the calls uses, in bytes, each on a stack that was just painted. The harness's own frame that
/// makes the call is counted too, some 20 to 140 bytes.
pub fn most(calls: Vec<Box<dyn FnMut() + Send + '_>>) -> usize {
    let used = thread::scope(|scope| {
        let measuring = thread::Builder::new().stack_size(STACK);
        let measured = move || calls.into_iter().map(|mut call| used(&mut *call)).max();
        let handle = measuring.spawn_scoped(scope, measured);
        handle.expect("a thread").join().expect("it ends")
    });
    used.unwrap_or(0)
}

/// The stack that one call uses, measured under two patterns, since a byte that is written may be the pattern's own.
#[inline(never)]
fn used(call: &mut dyn FnMut()) -> usize {
    let patterns = [0xa5c3_96e1_5a3c_691e_u64, 0x5a3c_691e_a5c3_96e1];
    let measured = patterns.map(|pattern| painted(pattern, call));
    measured.into_iter().max().unwrap_or(0)
}

#[inline(never)]
fn painted(pattern: u64, call: &mut dyn FnMut()) -> usize {
    let top: usize;
    // SAFETY: reads a register.
    unsafe { asm!("mov {}, rsp", out(reg) top, options(nomem, nostack, preserves_flags)) };
    let places = (top - ROOM..top).step_by(8);
    for place in places.clone() {
        // SAFETY: the thread's stack has four times the room, and below the stack pointer nothing is in use.
        unsafe { std::ptr::write_volatile(place as *mut u64, pattern) };
    }
    call();
    let mut untouched = 0;
    for place in places {
        // SAFETY: as above.
        if unsafe { std::ptr::read_volatile(place as *const u64) } != pattern {
            break;
        }
        untouched += 8;
    }
    ROOM - untouched
}
