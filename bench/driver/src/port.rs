//! The port's side: the library that `rt lib` makes in `crates/driver_bench`.

use crate::scenario::Scenario;

#[link(name = "driver_bench", kind = "static")]
unsafe extern "C" {
    fn rf233_run(
        setup: *const u8,
        setup_len: usize,
        events: *const u8,
        events_len: usize,
        rounds: u32,
        pool: *mut u8,
        pool_len: usize,
    ) -> u64;
}

pub fn run(scenario: &Scenario, rounds: u32) -> u64 {
    let mut pool = [0u8; 3040];
    let (setup, events) = (&scenario.setup, &scenario.events);
    // SAFETY: the three pairs are slices, and the library reads and writes inside them.
    unsafe {
        rf233_run(
            setup.as_ptr(),
            setup.len(),
            events.as_ptr(),
            events.len(),
            rounds,
            pool.as_mut_ptr(),
            pool.len(),
        )
    }
}
