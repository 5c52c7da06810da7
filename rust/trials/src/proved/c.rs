//! The proved functions as C calls them, and the one place in the trials that declares them: first those of
//! `liblight_c.a`, which ships, then those of `libparts_c.a`, for the tests alone. The product's own
//! declarations are those of `light_tree/src/sys.rs`; `include/light_tree.h` tells of each function of the
//! first, and `light_tree/tests/header.rs` holds both files to it.

// SAFETY: nothing checks the lines of the second library against the Rattle source. There each function is
// proved for every input, so those on plain numbers are safe to call; those on slices take each as a pointer
// and a length, and are wrapped in `proved`.
unsafe extern "C" {
    pub safe fn light_version() -> u32;
    pub fn light_bounds_block(list: *const u32, list_len: usize, block: *mut u32, block_len: usize) -> u32;
    pub fn light_build(
        lights: usize,
        block: *const u32,
        block_len: usize,
        nodes: *mut u32,
        nodes_len: usize,
        table: *mut u32,
        table_len: usize,
        work: *mut u32,
        work_len: usize,
        answer: *mut u32,
        answer_len: usize,
    ) -> u32;
    pub fn light_sample(
        nodes: *const u8,
        nodes_len: usize,
        px: f32,
        py: f32,
        pz: f32,
        nx: f32,
        ny: f32,
        nz: f32,
        u: f32,
    ) -> u64;
    pub fn light_pmf(
        nodes: *const u8,
        nodes_len: usize,
        table: *const u8,
        table_len: usize,
        px: f32,
        py: f32,
        pz: f32,
        nx: f32,
        ny: f32,
        nz: f32,
        handle: u32,
    ) -> u64;
    pub fn light_pack(
        nodes: *const u8,
        nodes_len: usize,
        k: usize,
        present: u32,
        min_x: f32,
        min_y: f32,
        min_z: f32,
        max_x: f32,
        max_y: f32,
        max_z: f32,
        out: *mut u8,
        out_len: usize,
    ) -> u64;
    pub fn light_alias_table(
        weights: *const u32,
        weights_len: usize,
        bins: *mut u32,
        bins_len: usize,
        work: *mut u32,
        work_len: usize,
    ) -> u32;

    pub safe fn floats_of_one(which: u32, x: f32) -> f32;
    pub safe fn trig_of_one(which: u32, x: f32) -> f32;
    pub safe fn floats_of_two(which: u32, x: f32, y: f32) -> f32;
    pub safe fn floats_to_whole(which: u32, x: f32) -> u64;
    #[link_name = "floats_clamp"]
    pub safe fn clamp(x: f32, lo: f32, hi: f32) -> f32;
    #[link_name = "floats_is_sign_negative"]
    pub safe fn is_sign_negative(x: f32) -> bool;
    #[link_name = "floats_sqrt64"]
    pub safe fn sqrt64(x: f64) -> f64;
    #[link_name = "floats_narrow"]
    pub safe fn narrow(x: f64) -> f32;
    #[link_name = "floats_widen"]
    pub safe fn widen(x: f32) -> f64;
    #[link_name = "words_f32_of_word"]
    pub safe fn f32_of_word(w: u32) -> f32;
    #[link_name = "words_f64_of_word"]
    pub safe fn f64_of_word(w: u64) -> f64;
    #[link_name = "words_word_of_f64"]
    pub safe fn word_of_f64(x: f64) -> u64;

    pub fn words_word_at(bytes: *const u8, len: usize, place: usize) -> u32;
    pub fn words_set_word(bytes: *mut u8, len: usize, place: usize, w: u32);
    pub fn words_word_count(bytes: *const u8, len: usize) -> usize;
    pub fn words_fill(words: *mut u32, len: usize, from: usize, to: usize, v: u32);
    pub fn words_words_of_bytes(bytes: *const u8, len: usize, words: *mut u32, words_len: usize) -> u32;
    pub fn words_bytes_of_words(words: *const u32, len: usize, bytes: *mut u8, bytes_len: usize) -> u32;

    pub fn bounds_validate(record: *const u32, len: usize) -> u32;
    pub fn bounds_union(a: *const u32, a_len: usize, b: *const u32, b_len: usize, out: *mut u32, out_len: usize)
    -> u32;
    pub fn bounds_importance(record: *const u32, len: usize, query: *const u32, query_len: usize) -> u64;

    pub fn lamps_check_block(block: *const u32, len: usize) -> u32;
}
