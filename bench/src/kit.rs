//! The kit's side: the static library's one function, behind a safe one.

use plain::Report;

#[link(name = "host", kind = "static")]
unsafe extern "C" {
    fn mic1_run(
        image: *const u8,
        image_len: usize,
        memory: *mut u8,
        memory_len: usize,
        steps: u64,
        results: *mut u64,
        results_len: usize,
    ) -> bool;
}

/// What stands for the top where there is none.
const NO_TOP: i64 = 1 << 31;

/// The call as the library has it: false where `results` has no room for exactly four numbers.
pub fn call(image: &[u8], memory: &mut [u8], steps: u64, results: &mut [u64]) -> bool {
    // SAFETY: each pointer and length is a slice's, and the function keeps none of them.
    unsafe {
        mic1_run(
            image.as_ptr(),
            image.len(),
            memory.as_mut_ptr(),
            memory.len(),
            steps,
            results.as_mut_ptr(),
            results.len(),
        )
    }
}

/// Loads an image into a machine over the whole buffer, and runs up to so many steps.
pub fn run(image: &[u8], memory: &mut [u8], steps: u64) -> Report {
    let mut results = [0; 4];
    assert!(
        call(image, memory, steps, &mut results),
        "the library refused room for four results"
    );
    let [end, steps, cycles, top] = results;
    Report {
        end: u32::try_from(end).expect("a refusal's number has 32 bits"),
        steps,
        cycles,
        top: match top.cast_signed() {
            NO_TOP => None,
            top => Some(i32::try_from(top).expect("a top has 32 bits")),
        },
    }
}
