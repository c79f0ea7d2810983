//! How much stack a call uses: it runs on a thread of its own over a painted stack, and the deepest byte that changed tells.

const THREAD: usize = 8 << 20;
const PAINTED: usize = 7 << 20;
const PAINT: u8 = 0xA5;
/// The least that can be told: room for the frames of the painting itself.
pub const LEAST: usize = 1024;

/// Bytes below the frame of the caller that `call` touched.
#[inline(never)]
fn depth(call: impl FnOnce()) -> usize {
    let here = 0u8;
    let top = std::ptr::addr_of!(here) as usize;
    // SAFETY: the range lies in this thread's own stack, mapped whole, below every live frame but those within the least.
    unsafe { paint(top) };
    call();
    // SAFETY: as above.
    unsafe { top - lowest(top) }
}

#[inline(never)]
unsafe fn paint(top: usize) {
    for at in top - PAINTED..top - LEAST {
        (at as *mut u8).write_volatile(PAINT);
    }
}

#[inline(never)]
unsafe fn lowest(top: usize) -> usize {
    (top - PAINTED..top - LEAST).find(|&at| (at as *const u8).read_volatile() != PAINT).unwrap_or(top - LEAST)
}

/// The stack of a call in bytes; less than the least counts as the least.
pub fn used(call: impl FnOnce() + Send) -> usize {
    std::thread::scope(|scope| {
        let thread = std::thread::Builder::new().stack_size(THREAD);
        let depth = thread.spawn_scoped(scope, || depth(call)).expect("a thread");
        depth.join().expect("the call returns")
    })
}
