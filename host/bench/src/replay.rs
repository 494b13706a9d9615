//! mbedTLS's replay window.
use std::ffi::c_void;
use std::hint::black_box;
use std::os::raw::c_int;
use std::ptr::NonNull;

extern "C" {
    fn mbed_new() -> *mut c_void;
    fn mbed_take(state: *mut c_void, number: u64) -> c_int;
}

/// A window, and the number that comes next: it goes on from pass to pass.
pub struct Replay {
    state: NonNull<c_void>,
    next: u64,
}

impl Replay {
    pub fn new() -> Replay {
        // SAFETY: it takes nothing, and a null answer is caught here.
        let state = NonNull::new(unsafe { mbed_new() });
        Replay { state: state.expect("mbedTLS has no memory for a window"), next: 0 }
    }

    /// Checks and marks so many numbers in order. Answers how many were taken.
    pub fn run(&mut self, count: usize) -> usize {
        let mut taken = 0;
        for _ in 0..count {
            // SAFETY: the state is this value's alone and was made by `mbed_new`.
            let answer = unsafe { mbed_take(black_box(self.state.as_ptr()), black_box(self.next)) };
            taken += usize::from(answer == 0);
            self.next += 1;
        }
        taken
    }
}
