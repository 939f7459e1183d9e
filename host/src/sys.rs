//! The library's functions as they are, include/mapsforge.h in Rust; that file says what each word is.
//!
//! A slice goes by its address and its number of entries. The wrappers of this crate are safe to call; these are not.

extern "C" {
    pub fn mapsforge_open(
        map: *const u8,
        map_len: usize,
        starts: *mut u64,
        starts_len: usize,
        letters: *mut u8,
        letters_len: usize,
        words: *mut [u64; 34],
        degrees: *mut [f64; 6],
        layout: *mut [u64; 7],
    ) -> u64;

    pub fn mapsforge_interval(
        map: *const u8,
        map_len: usize,
        layout: *const [u64; 7],
        sub_file: usize,
        words: *mut [u64; 6],
        interval: *mut [u64; 6],
    ) -> u64;

    pub fn mapsforge_sub_file(
        map: *const u8,
        map_len: usize,
        layout: *const [u64; 7],
        zoom: u8,
        words: *mut [u64; 8],
    ) -> u64;

    pub fn mapsforge_tag(
        map: *const u8,
        map_len: usize,
        starts: *const u64,
        starts_len: usize,
        letters: *const u8,
        letters_len: usize,
        first: usize,
        count: usize,
        k: usize,
        words: *mut [u64; 10],
    ) -> u64;

    pub fn mapsforge_text(
        text: *const u8,
        text_len: usize,
        buffer: *mut u8,
        buffer_len: usize,
        words: *mut [u64; 7],
    ) -> u64;

    pub fn mapsforge_tile_count(
        interval: *const [u64; 6],
        x_min: i32,
        y_min: i32,
        x_max: i32,
        y_max: i32,
        words: *mut [u64; 8],
    ) -> u64;

    pub fn mapsforge_tile_index(
        interval: *const [u64; 6],
        x_min: i32,
        y_min: i32,
        x_max: i32,
        y_max: i32,
        x: i32,
        y: i32,
        words: *mut [u64; 8],
    ) -> u64;

    pub fn mapsforge_index_entry(
        map: *const u8,
        map_len: usize,
        layout: *const [u64; 7],
        interval: *const [u64; 6],
        x_min: i32,
        y_min: i32,
        x_max: i32,
        y_max: i32,
        tile: usize,
        words: *mut [u64; 9],
    ) -> u64;

    pub fn mapsforge_column(
        longitude: f64,
        zoom: u8,
        words: *mut [u64; 6],
        column: *mut [i64; 1],
    ) -> u64;

    pub fn mapsforge_longitude(
        column: u32,
        zoom: u8,
        words: *mut [u64; 6],
        longitude: *mut [f64; 1],
    ) -> u64;

    pub fn mapsforge_window_count(
        x_min: i32,
        y_min: i32,
        x_max: i32,
        y_max: i32,
        left: i64,
        top: i64,
        right: i64,
        bottom: i64,
        words: *mut [u64; 7],
    ) -> u64;

    pub fn mapsforge_window_tile(
        x_min: i32,
        y_min: i32,
        x_max: i32,
        y_max: i32,
        left: i64,
        top: i64,
        right: i64,
        bottom: i64,
        k: u64,
        words: *mut [u64; 9],
        column_row: *mut [i64; 2],
    ) -> u64;

    pub fn mapsforge_shares_cell(bitmap: u16, mask: u16) -> bool;

    pub fn mapsforge_stream_open(
        map: *const u8,
        map_len: usize,
        layout: *const [u64; 7],
        interval: *const [u64; 6],
        sub_file: usize,
        x_min: i32,
        y_min: i32,
        x_max: i32,
        y_max: i32,
        tile: usize,
        zoom: u8,
        state: *mut [u64; 8],
        words: *mut [u64; 6],
    ) -> u64;

    pub fn mapsforge_stream_next(
        map: *const u8,
        map_len: usize,
        layout: *const [u64; 7],
        letters: *const u8,
        letters_len: usize,
        state: *mut [u64; 8],
        words: *mut [u64; 22],
        signed_words: *mut [i64; 2],
        degrees: *mut [f64; 2],
        ids: *mut [u64; 15],
    ) -> u64;

    pub fn mapsforge_stream_next_selected(
        map: *const u8,
        map_len: usize,
        layout: *const [u64; 7],
        letters: *const u8,
        letters_len: usize,
        select: *const [u64; 4],
        classes: *const u8,
        classes_len: usize,
        state: *mut [u64; 8],
        words: *mut [u64; 22],
        signed_words: *mut [i64; 2],
        degrees: *mut [f64; 2],
        ids: *mut [u64; 15],
    ) -> u64;

    pub fn mapsforge_stream_accept(
        map: *const u8,
        map_len: usize,
        state: *mut [u64; 8],
        node_counts: *mut u64,
        node_counts_len: usize,
        latitudes: *mut f64,
        latitudes_len: usize,
        longitudes: *mut f64,
        longitudes_len: usize,
        words: *mut [u64; 19],
        degrees: *mut [f64; 2],
    ) -> u64;

    pub fn mapsforge_stream_decline(state: *mut [u64; 8], words: *mut [u64; 6]) -> u64;

    pub fn mapsforge_stream_skip(
        map: *const u8,
        map_len: usize,
        layout: *const [u64; 7],
        letters: *const u8,
        letters_len: usize,
        state: *mut [u64; 8],
        words: *mut [u64; 22],
        signed_words: *mut [i64; 2],
        degrees: *mut [f64; 2],
        ids: *mut [u64; 15],
    ) -> u64;

    pub fn mapsforge_collect(
        map: *const u8,
        map_len: usize,
        layout: *const [u64; 7],
        letters: *const u8,
        letters_len: usize,
        interval: *const [u64; 6],
        x_min: i32,
        y_min: i32,
        x_max: i32,
        y_max: i32,
        tile: usize,
        words: *mut [u64; 15],
        points: *mut [u64; 256],
        ways: *mut [u64; 256],
        places: *mut u64,
        places_len: usize,
    ) -> u64;

    pub fn mapsforge_fetch(
        map: *const u8,
        map_len: usize,
        layout: *const [u64; 7],
        starts: *const u64,
        starts_len: usize,
        letters: *const u8,
        letters_len: usize,
        places: *const u64,
        places_len: usize,
        points: u64,
        ways: u64,
        feature: u64,
        node_counts: *mut u64,
        node_counts_len: usize,
        latitudes: *mut f64,
        latitudes_len: usize,
        longitudes: *mut f64,
        longitudes_len: usize,
        initial_latitudes: *mut f64,
        initial_latitudes_len: usize,
        initial_longitudes: *mut f64,
        initial_longitudes_len: usize,
        buffer: *mut u8,
        buffer_len: usize,
        words: *mut [u64; 37],
        signed_words: *mut [i64; 2],
        degrees: *mut [f64; 2],
        ids: *mut [u64; 15],
        tags: *mut [u64; 75],
    ) -> u64;

    pub fn mapsforge_measure_way_data(
        map: *const u8,
        map_len: usize,
        at: usize,
        data_blocks: u64,
        words: *mut [u64; 10],
    ) -> u64;

    pub fn mapsforge_read_way_data(
        map: *const u8,
        map_len: usize,
        at: usize,
        data_blocks: u64,
        double_delta: bool,
        node_counts: *mut u64,
        node_counts_len: usize,
        latitudes: *mut f64,
        latitudes_len: usize,
        longitudes: *mut f64,
        longitudes_len: usize,
        words: *mut [u64; 10],
    ) -> u64;

    pub fn mapsforge_check_rules(
        rules: *const u8,
        rules_len: usize,
        way_tags: u16,
        classes: *mut u8,
        classes_len: usize,
        words: *mut [u64; 6],
    ) -> u64;

    pub fn mapsforge_shows(
        classes: *const u8,
        classes_len: usize,
        zoom: u8,
        ids: *const u64,
        ids_len: usize,
        words: *mut [u64; 7],
    ) -> u64;

    pub fn mapsforge_wanted(
        map: *const u8,
        map_len: usize,
        layout: *const [u64; 7],
        letters: *const u8,
        letters_len: usize,
        interval: *const [u64; 6],
        x_min: i32,
        y_min: i32,
        x_max: i32,
        y_max: i32,
        tile: usize,
        zoom: u8,
        decisions: *const u8,
        decisions_len: usize,
        words: *mut [u64; 11],
    ) -> u64;
}
