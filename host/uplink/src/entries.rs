//! The C entries, as include/uplink.h declares them.
//!
//! The result of each is its number: 0 where it was accepted, else a refusal's. A length is that of the slice that the pointer before it leads
//! to; state, image, lists and answer must not overlap, and are lent for the call alone.

extern "C" {
    pub fn uplink_start(state: *mut u8, state_length: usize, edition: u32) -> u32;
    pub fn uplink_open(state: *mut u8, state_length: usize, weight: u32, answer: *mut u8, answer_length: usize) -> u32;
    pub fn uplink_put(
        state: *mut u8,
        state_length: usize,
        slot: u32,
        ticket: u32,
        length: u32,
        reference: u32,
        answer: *mut u8,
        answer_length: usize,
    ) -> u32;
    pub fn uplink_close(state: *mut u8, state_length: usize, slot: u32, ticket: u32, answer: *mut u8, answer_length: usize) -> u32;
    pub fn uplink_next(state: *mut u8, state_length: usize, answer: *mut u8, answer_length: usize) -> u32;
    pub fn uplink_ask(state: *const u8, state_length: usize, slot: u32, ticket: u32, answer: *mut u8, answer_length: usize) -> u32;
    pub fn uplink_fullest(state: *const u8, state_length: usize, answer: *mut u8, answer_length: usize) -> u32;
    pub fn uplink_park(
        state: *mut u8,
        state_length: usize,
        image: *mut u8,
        image_length: usize,
        answer: *mut u8,
        answer_length: usize,
    ) -> u32;
    pub fn uplink_unpark(state: *mut u8, state_length: usize, image: *const u8, image_length: usize) -> u32;
    pub fn uplink_lead(w1: u32, v1: u32, w2: u32, v2: u32, answer: *mut u8, answer_length: usize) -> u32;
    pub fn uplink_term(order: u32, position: u32, answer: *mut u8, answer_length: usize) -> u32;
    pub fn uplink_sheet(
        weights: *const u32,
        weights_length: usize,
        rows: *const u32,
        rows_length: usize,
        answer: *mut u8,
        answer_length: usize,
    ) -> u32;
}
