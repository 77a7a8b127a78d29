//! What the static library exports: a slice is a pointer and then a length.
#[rustfmt::skip]
extern "C" {
    pub fn dequant_read_header(
        header: *const u8, header_len: usize, bit: u64, kind: usize, rows: *mut u16, rows_len: usize,
        reply: *mut u64, reply_len: usize,
    ) -> u32;
    pub fn dequant_expand_kind(
        kind: usize, row: *const u16, row_len: usize, samples: *const i32, samples_len: usize,
        straight: *mut f32, straight_len: usize, transposed: *mut f32, transposed_len: usize,
        reply: *mut u64, reply_len: usize,
    ) -> u32;
    pub fn dequant_expand(
        rows: *const u16, rows_len: usize, samples: *const i32, samples_len: usize,
        straight: *mut f32, straight_len: usize, transposed: *mut f32, transposed_len: usize,
        reply: *mut u64, reply_len: usize,
    ) -> u32;
    pub fn dequant_lookup(
        straight: *const f32, straight_len: usize, transposed: *const f32, transposed_len: usize,
        kind: usize, channel: usize, order: u32, reply: *mut u64, reply_len: usize,
    ) -> u32;
    pub fn dequant_jpeg_quant_values(
        rows: *const u16, rows_len: usize, samples: *const i32, samples_len: usize, channel: usize,
        reply: *mut u64, reply_len: usize,
    ) -> u32;
    pub fn dequant_write_record(
        rows: *const u16, rows_len: usize, samples: *const i32, samples_len: usize,
        text: *mut u8, text_len: usize, reply: *mut u64, reply_len: usize,
    ) -> u32;
    pub fn dequant_read_record(
        text: *const u8, text_len: usize, rows: *mut u16, rows_len: usize,
        samples: *mut i32, samples_len: usize, reply: *mut u64, reply_len: usize,
    ) -> u32;
    pub fn dequant_total(
        arena: *const f32, arena_len: usize, first: usize, count: usize, reply: *mut u64, reply_len: usize,
    ) -> u32;
    pub fn dequant_replace_kind(
        arena: *mut f32, arena_len: usize, total: u64, kind: usize, weights: *const f32, weights_len: usize,
        reply: *mut u64, reply_len: usize,
    ) -> u32;
    pub fn dequant_short_add(
        arena: *mut f32, arena_len: usize, state: *mut u8, state_len: usize, kind: usize,
        weights: *const f32, weights_len: usize, reply: *mut u64, reply_len: usize,
    ) -> u32;
    pub fn dequant_short_lookup(
        arena: *const f32, arena_len: usize, state: *const u8, state_len: usize, kind: usize,
        reply: *mut u64, reply_len: usize,
    ) -> u32;
    pub fn dequant_short_drop(
        arena: *mut f32, arena_len: usize, state: *mut u8, state_len: usize, kind: usize,
        reply: *mut u64, reply_len: usize,
    ) -> u32;
}
