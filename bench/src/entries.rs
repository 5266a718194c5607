//! The entries that the bench calls, as `include/relay.h` declares them.

extern "C" {
    pub fn relay_check(
        table: *const u8,
        table_length: usize,
        roots: *const u8,
        roots_length: usize,
        order: *const u8,
        order_length: usize,
        answer: *mut u32,
        answer_length: usize,
    ) -> usize;

    pub fn relay_count(
        table: *const u8,
        table_length: usize,
        roots: *const u8,
        roots_length: usize,
        order: *const u8,
        order_length: usize,
        position: u32,
        count: *mut u64,
        count_length: usize,
        share: *mut f64,
        share_length: usize,
        answer: *mut u32,
        answer_length: usize,
    ) -> usize;

    pub fn relay_swap(
        table: *mut u8,
        table_length: usize,
        roots: *const u8,
        roots_length: usize,
        order: *mut u8,
        order_length: usize,
        log: *mut u8,
        log_length: usize,
        level: u32,
        answer: *mut u32,
        answer_length: usize,
    ) -> usize;

    pub fn relay_run(
        table: *mut u8,
        table_length: usize,
        roots: *const u8,
        roots_length: usize,
        order: *mut u8,
        order_length: usize,
        target: *const u8,
        target_length: usize,
        log: *mut u8,
        log_length: usize,
        plan: u32,
        budget: u32,
        answer: *mut u32,
        answer_length: usize,
    ) -> usize;

    pub fn relay_recover(
        table: *mut u8,
        table_length: usize,
        order: *mut u8,
        order_length: usize,
        log: *mut u8,
        log_length: usize,
        answer: *mut u32,
        answer_length: usize,
    ) -> usize;
}
