//! The C entries of support's engine, as include/plain.h declares them. The adapter's are in uplink/, with what holds of both.

extern "C" {
    pub fn plain_put(
        state: *mut u8,
        state_length: usize,
        slot: u32,
        ticket: u32,
        length: u32,
        reference: u32,
        answer: *mut u8,
        answer_length: usize,
    ) -> u32;
    pub fn plain_next(state: *mut u8, state_length: usize, answer: *mut u8, answer_length: usize) -> u32;
}
