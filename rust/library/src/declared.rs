//! The C interface, as `include/tallowwing.h` declares it.

extern "C" {
    pub fn tallowwing_read_soc(text: *const u8, text_len: usize, record: *mut u8, record_len: usize) -> u64;
    pub fn tallowwing_read_pair(
        base: *const u8,
        base_len: usize,
        overlay: *const u8,
        overlay_len: usize,
        record: *mut u8,
        record_len: usize,
    ) -> u64;
    pub fn tallowwing_module_lines(base: *const u8, base_len: usize, overlay: *const u8, overlay_len: usize, module: u32) -> u64;
    pub fn tallowwing_write_pair(
        base: *const u8,
        base_len: usize,
        overlay: *const u8,
        overlay_len: usize,
        text: *mut u8,
        text_len: usize,
    ) -> u64;
    pub fn tallowwing_layout_pair(
        base: *const u8,
        base_len: usize,
        overlay: *const u8,
        overlay_len: usize,
        module: u32,
        test: u32,
        width: u32,
        capture: u32,
        layout: *mut u8,
        layout_len: usize,
    ) -> u64;
    pub fn tallowwing_module_time_pair(
        base: *const u8,
        base_len: usize,
        overlay: *const u8,
        overlay_len: usize,
        module: u32,
        width: u32,
        capture: u32,
    ) -> u64;
    pub fn tallowwing_module_wires_pair(
        base: *const u8,
        base_len: usize,
        overlay: *const u8,
        overlay_len: usize,
        module: u32,
        width: u32,
        capture: u32,
    ) -> u64;
    pub fn tallowwing_plan_pair(
        base: *const u8,
        base_len: usize,
        overlay: *const u8,
        overlay_len: usize,
        wires: u32,
        limit: u32,
        capture: u32,
        plan: *mut u8,
        plan_len: usize,
    ) -> u64;
    pub fn tallowwing_write_soc(record: *const u8, record_len: usize, text: *mut u8, text_len: usize) -> u64;
    pub fn tallowwing_layout(
        record: *const u8,
        record_len: usize,
        module: u32,
        test: u32,
        width: u32,
        capture: u32,
        layout: *mut u8,
        layout_len: usize,
    ) -> u64;
    pub fn tallowwing_module_time(record: *const u8, record_len: usize, module: u32, width: u32, capture: u32) -> u64;
    pub fn tallowwing_module_wires(record: *const u8, record_len: usize, module: u32, width: u32, capture: u32) -> u64;
    pub fn tallowwing_plan(
        record: *const u8,
        record_len: usize,
        wires: u32,
        limit: u32,
        capture: u32,
        plan: *mut u8,
        plan_len: usize,
    ) -> u64;
    pub fn tallowwing_budget(
        record: *const u8,
        record_len: usize,
        wires: u32,
        limit: u32,
        capture: u32,
        tries: u64,
        found: *mut u8,
        found_len: usize,
    ) -> u64;
    pub fn tallowwing_write_plan(plan: *const u8, plan_len: usize, file: *mut u8, file_len: usize) -> u64;
    pub fn tallowwing_read_plan(file: *const u8, file_len: usize, plan: *mut u8, plan_len: usize) -> u64;
    pub fn tallowwing_show(plan: *const u8, plan_len: usize, listing: *mut u8, listing_len: usize) -> u64;
    pub fn tallowwing_listing(input: *const u8, input_len: usize, listing: *mut u8, listing_len: usize) -> u64;
}
