//! How many machine instructions a call takes: the processor stops after each of them, and a signal handler counts. On Linux and x86-64.

use std::arch::asm;
use std::sync::atomic::{AtomicU64, Ordering::Relaxed};

/// What the C library's sigaction takes.
#[repr(C)]
struct SigAction {
    handler: usize,
    mask: [u64; 16],
    flags: i32,
    restorer: usize,
}

extern "C" {
    fn sigaction(signal: i32, action: *const SigAction, old: *mut SigAction) -> i32;
}

const SIGTRAP: i32 = 5;

static STEPS: AtomicU64 = AtomicU64::new(0);

extern "C" fn trapped(_signal: i32) {
    STEPS.fetch_add(1, Relaxed);
}

/// The instructions of a call, by one thread at a time.
pub fn steps(call: impl FnOnce()) -> u64 {
    let action = SigAction { handler: trapped as *const () as usize, mask: [0; 16], flags: 0, restorer: 0 };
    unsafe {
        assert_eq!(sigaction(SIGTRAP, &action, std::ptr::null_mut()), 0, "the signal can be handled");
        STEPS.store(0, Relaxed);
        asm!("pushfq", "or qword ptr [rsp], 0x100", "popfq");
        call();
        asm!("pushfq", "and qword ptr [rsp], -257", "popfq");
    }
    STEPS.load(Relaxed)
}
