//! The functions of `include/balanced.h`, as they are: a slice is a pointer and then a length.
//!
//! The safe functions of this crate are thin over these. What a caller of these sees to is in the header: no pointer is
//! null, and what a call writes overlaps nothing else that is lent to the same call.

extern "C" {
    pub fn balanced_version() -> u32;

    pub fn balanced_plan(
        record: *const u8,
        record_len: usize,
        numbers: *mut u8,
        numbers_len: usize,
        shifts: *mut u8,
        shifts_len: usize,
        firsts: *mut u8,
        firsts_len: usize,
        base: *mut u16,
        base_len: usize,
    ) -> u8;

    pub fn balanced_encode(
        record: *const u8,
        record_len: usize,
        lanes: u32,
        message: *const u8,
        message_len: usize,
        shares: *mut u8,
        shares_len: usize,
    ) -> u8;

    pub fn balanced_update(
        record: *const u8,
        record_len: usize,
        lanes: u32,
        symbol: u32,
        lane: u32,
        old_symbol: u32,
        new_symbol: u32,
        shares: *mut u8,
        shares_len: usize,
        altered: *mut u32,
    ) -> u8;

    pub fn balanced_update_lanes(
        record: *const u8,
        record_len: usize,
        lanes: u32,
        symbol: u32,
        first: u32,
        old_symbols: *const u8,
        old_len: usize,
        new_symbols: *const u8,
        new_len: usize,
        shares: *mut u8,
        shares_len: usize,
        altered: *mut u32,
    ) -> u8;

    pub fn balanced_differences(
        record: *const u8,
        record_len: usize,
        lanes: u32,
        symbol: u32,
        old_symbols: *const u8,
        old_len: usize,
        new_symbols: *const u8,
        new_len: usize,
        differences: *mut u8,
        differences_len: usize,
    ) -> u8;

    pub fn balanced_add_share(
        record: *const u8,
        record_len: usize,
        lanes: u32,
        difference: *const u8,
        difference_len: usize,
        share: *mut u8,
        share_len: usize,
    ) -> u8;

    pub fn balanced_recover(
        record: *const u8,
        record_len: usize,
        lanes: u32,
        nodes: *const u8,
        nodes_len: usize,
        shares: *const u8,
        shares_len: usize,
        message: *mut u8,
        message_len: usize,
    ) -> u8;

    pub fn balanced_rebuild(
        record: *const u8,
        record_len: usize,
        lanes: u32,
        nodes: *const u8,
        nodes_len: usize,
        shares: *const u8,
        shares_len: usize,
        target: u32,
        share: *mut u8,
        share_len: usize,
    ) -> u8;

    pub fn balanced_repair_plan(record: *const u8, record_len: usize, missing: u32, bits: *mut u32, spare: *mut u32) -> u8;

    pub fn balanced_repair_bits(
        record: *const u8,
        record_len: usize,
        lanes: u32,
        node: u32,
        target: u32,
        missing: *const u8,
        missing_len: usize,
        share: *const u8,
        share_len: usize,
        bits: *mut u8,
        bits_len: usize,
    ) -> u8;

    pub fn balanced_repair_share(
        record: *const u8,
        record_len: usize,
        lanes: u32,
        target: u32,
        missing: *const u8,
        missing_len: usize,
        rows: *const u8,
        rows_len: usize,
        share: *mut u8,
        share_len: usize,
    ) -> u8;

    pub fn balanced_belongs(
        record: *const u8,
        record_len: usize,
        lanes: u32,
        shares: *const u8,
        shares_len: usize,
        first_wrong: *mut u32,
    ) -> u8;

    pub fn balanced_correct(
        record: *const u8,
        record_len: usize,
        lanes: u32,
        shares: *mut u8,
        shares_len: usize,
        altered: *mut u32,
    ) -> u8;

    pub fn balanced_correct_listed(
        record: *const u8,
        record_len: usize,
        lanes: u32,
        nodes: *const u8,
        nodes_len: usize,
        shares: *const u8,
        shares_len: usize,
        message: *mut u8,
        message_len: usize,
        wrong: *mut u32,
        wrong_len: usize,
        altered: *mut u32,
    ) -> u8;

    pub fn balanced_to_lanes(
        record: *const u8,
        record_len: usize,
        lanes: u32,
        by_node: *const u8,
        by_node_len: usize,
        by_lane: *mut u8,
        by_lane_len: usize,
    ) -> u8;

    pub fn balanced_to_nodes(
        record: *const u8,
        record_len: usize,
        lanes: u32,
        by_lane: *const u8,
        by_lane_len: usize,
        by_node: *mut u8,
        by_node_len: usize,
    ) -> u8;

    pub fn balanced_listed_to_lanes(
        record: *const u8,
        record_len: usize,
        lanes: u32,
        by_node: *const u8,
        by_node_len: usize,
        by_lane: *mut u8,
        by_lane_len: usize,
    ) -> u8;

    pub fn balanced_listed_to_nodes(
        record: *const u8,
        record_len: usize,
        lanes: u32,
        by_lane: *const u8,
        by_lane_len: usize,
        by_node: *mut u8,
        by_node_len: usize,
    ) -> u8;

    pub fn balanced_roster_start(record: *const u8, record_len: usize, roster: *mut u8, roster_len: usize) -> u8;

    pub fn balanced_roster_leave(record: *const u8, record_len: usize, roster: *mut u8, roster_len: usize, node: u32) -> u8;

    pub fn balanced_roster_rejoin(record: *const u8, record_len: usize, roster: *mut u8, roster_len: usize, node: u32)
        -> u8;

    pub fn balanced_roster_lowest(
        record: *const u8,
        record_len: usize,
        roster: *const u8,
        roster_len: usize,
        list: *mut u8,
        list_len: usize,
        enough: *mut u32,
    ) -> u8;

    pub fn balanced_roster_job(
        record: *const u8,
        record_len: usize,
        roster: *mut u8,
        roster_len: usize,
        list: *mut u8,
        list_len: usize,
        enough: *mut u32,
    ) -> u8;

    pub fn balanced_find_update(
        record: *const u8,
        record_len: usize,
        before: *const u8,
        before_len: usize,
        after: *const u8,
        after_len: usize,
        answer: *mut u32,
        symbol: *mut u32,
        amount: *mut u32,
    ) -> u8;

    pub fn balanced_mends(
        record: *const u8,
        record_len: usize,
        lane: *const u8,
        lane_len: usize,
        nodes: *mut u8,
        nodes_len: usize,
        symbols: *mut u8,
        symbols_len: usize,
        count: *mut u32,
    ) -> u8;

    pub fn balanced_carried_len(record: *const u8, record_len: usize, bytes_len: usize, carried_len: *mut usize) -> u8;

    pub fn balanced_carry_in(
        record: *const u8,
        record_len: usize,
        bytes: *const u8,
        bytes_len: usize,
        symbols: *mut u8,
        symbols_len: usize,
    ) -> u8;

    pub fn balanced_carry_out(
        record: *const u8,
        record_len: usize,
        symbols: *const u8,
        symbols_len: usize,
        bytes: *mut u8,
        bytes_len: usize,
    ) -> u8;

    pub fn balanced_carry_change(
        record: *const u8,
        record_len: usize,
        bytes_len: usize,
        at: usize,
        new_bytes: *const u8,
        new_len: usize,
        symbols: *mut u8,
        symbols_len: usize,
    ) -> u8;

    pub fn balanced_choose(n: u32, k: u32, record: *mut u8, room: usize, record_len: *mut u32) -> u8;

    pub fn balanced_weights(record: *const u8, record_len: usize, counts: *mut u32, counts_len: usize) -> u8;
}
