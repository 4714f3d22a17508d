//! The functions of include/jengafir.h, as Rust calls them.

extern "C" {
    pub fn jengafir_draw_path(
        closed: u32,
        vertices: *const f32,
        vertices_len: usize,
        count: usize,
        codes: *mut u8,
        codes_len: usize,
        numbers: *mut f32,
        numbers_len: usize,
        codes_written: *mut usize,
        numbers_written: *mut usize,
    ) -> u32;
    pub fn jengafir_draw_item(
        row: *const u32,
        row_len: usize,
        items: *const f32,
        items_len: usize,
        codes: *mut u8,
        codes_len: usize,
        numbers: *mut f32,
        numbers_len: usize,
        codes_written: *mut usize,
        numbers_written: *mut usize,
    ) -> u32;
    pub fn jengafir_merge(
        rows: *const u32,
        rows_len: usize,
        row_count: usize,
        items: *const f32,
        items_len: usize,
        codes: *mut u8,
        codes_len: usize,
        numbers: *mut f32,
        numbers_len: usize,
        codes_written: *mut usize,
        numbers_written: *mut usize,
    ) -> u32;
    pub fn jengafir_tray_need(
        closed: u32,
        vertices: *const f32,
        vertices_len: usize,
        count: usize,
        codes_needed: *mut usize,
        numbers_needed: *mut usize,
    ) -> u32;
    pub fn jengafir_item_need(
        row: *const u32,
        row_len: usize,
        items: *const f32,
        items_len: usize,
        codes_needed: *mut usize,
        numbers_needed: *mut usize,
    ) -> u32;
    pub fn jengafir_merge_need(
        rows: *const u32,
        rows_len: usize,
        row_count: usize,
        items: *const f32,
        items_len: usize,
        codes_needed: *mut usize,
        numbers_needed: *mut usize,
    ) -> u32;
    pub fn jengafir_length(
        codes: *const u8,
        codes_len: usize,
        numbers: *const f32,
        numbers_len: usize,
        length: *mut f32,
    ) -> u32;
    pub fn jengafir_length_reaches(
        codes: *const u8,
        codes_len: usize,
        numbers: *const f32,
        numbers_len: usize,
        least: f32,
        reached: *mut u32,
        commands_read: *mut usize,
    ) -> u32;
    pub fn jengafir_command(
        codes: *const u8,
        codes_len: usize,
        numbers: *const f32,
        numbers_len: usize,
        k: usize,
        start: *mut usize,
        count: *mut usize,
    ) -> u32;
    pub fn jengafir_trim_ranges(
        start: f32,
        end: f32,
        offset: f32,
        ranges: *mut f32,
        range_count: *mut usize,
        whole: *mut u32,
    ) -> u32;
    pub fn jengafir_trim_lengths(
        start: f32,
        end: f32,
        offset: f32,
        mode: u8,
        codes: *const u8,
        codes_len: usize,
        numbers: *const f32,
        numbers_len: usize,
        cuts: *mut f32,
        range_count: *mut usize,
        whole: *mut u32,
    ) -> u32;
    pub fn jengafir_copy_order(
        repeater: *const f32,
        mode: u8,
        order: *mut u32,
        order_len: usize,
        order_count: *mut usize,
    ) -> u32;
    pub fn jengafir_copy_transform(
        repeater: *const f32,
        mode: u8,
        copy: usize,
        matrix: *mut f32,
        matrix_len: usize,
        matrix_count: *mut usize,
    ) -> u32;
    pub fn jengafir_mul_add(a: f32, b: f32, c: f32) -> f32;
    pub fn jengafir_hypot(x: f32, y: f32) -> f32;
    pub fn jengafir_floor(x: f32) -> f32;
    pub fn jengafir_ceil(x: f32) -> f32;
    pub fn jengafir_round(x: f32) -> f32;
    pub fn jengafir_abs(x: f32) -> f32;
    pub fn jengafir_rem_euclid_360(x: f32) -> f32;
}
