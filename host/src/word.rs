//! The names that include/mapsforge.h gives to words, without its `MAPSFORGE_`; that file says what each word is.
//!
//! tests/header.rs holds the two to each other.

// The refusal's values.
pub const VALUE: usize = 0;
pub const NEEDED_NODE_COUNTS: usize = 0;
pub const NEEDED_LATITUDES: usize = 1;
pub const NEEDED_LONGITUDES: usize = 2;
pub const NEEDED_INITIAL_LATITUDES: usize = 3;
pub const NEEDED_INITIAL_LONGITUDES: usize = 4;
pub const NEEDED_BUFFER: usize = 5;
pub const NEEDED_STARTS: usize = 0;
pub const NEEDED_LETTERS: usize = 1;
pub const NEEDED_CLASSES: usize = 0;
pub const NEEDED_PLACES: usize = 0;
pub const RULES_TAG: usize = 0;
pub const RULES_ZOOM: usize = 1;
pub const VALUES: usize = 6;

// A part of the map, counted from its first word.
pub const PART_THERE: usize = 0;
pub const PART_PLACE: usize = 1;
pub const PART_SIZE: usize = 2;
pub const PART_WORDS: usize = 3;

// The degrees of a position.
pub const LATITUDE: usize = 0;
pub const LONGITUDE: usize = 1;
pub const POSITION_DEGREES: usize = 2;

// The signed words of a feature.
pub const LAYER: usize = 0;
pub const ELEVATION: usize = 1;
pub const SIGNED_WORDS: usize = 2;

// Limits.
pub const MAX_TAGS: usize = 15;
pub const MAX_ROWS: usize = 256;
pub const MOST_ENTRIES: usize = 131070;
pub const RULE_BYTES: usize = 4;
pub const ZOOMS: usize = 32;
pub const HIDDEN: usize = 0;
pub const CLASSES: usize = 64;
pub const STACK: usize = 32768;

// `mapsforge_open`: words, degrees, layout.
pub const OPEN_END: usize = 6;
pub const OPEN_HEADER_SIZE: usize = 7;
pub const OPEN_VERSION: usize = 8;
pub const OPEN_FILE_SIZE: usize = 9;
pub const OPEN_DATE: usize = 10;
pub const OPEN_TILE_SIZE: usize = 11;
pub const OPEN_FLAGS: usize = 12;
pub const OPEN_MAGIC: usize = 13;
pub const OPEN_MAGIC_SIZE: usize = 14;
pub const OPEN_PROJECTION: usize = 15;
pub const OPEN_PROJECTION_SIZE: usize = 16;
pub const OPEN_HAS_START_POSITION: usize = 17;
pub const OPEN_HAS_START_ZOOM: usize = 18;
pub const OPEN_START_ZOOM: usize = 19;
pub const OPEN_LANGUAGE: usize = 20;
pub const OPEN_COMMENT: usize = 23;
pub const OPEN_CREATED_BY: usize = 26;
pub const OPEN_POINT_TAGS: usize = 29;
pub const OPEN_POINT_TAG_COUNT: usize = 30;
pub const OPEN_WAY_TAGS: usize = 31;
pub const OPEN_WAY_TAG_COUNT: usize = 32;
pub const OPEN_SUB_FILES: usize = 33;
pub const OPEN_WORDS: usize = 34;
pub const OPEN_SOUTH: usize = 0;
pub const OPEN_WEST: usize = 1;
pub const OPEN_NORTH: usize = 2;
pub const OPEN_EAST: usize = 3;
pub const OPEN_START_LATITUDE: usize = 4;
pub const OPEN_START_LONGITUDE: usize = 5;
pub const OPEN_DEGREES: usize = 6;
pub const LAYOUT_DEBUG: usize = 0;
pub const LAYOUT_POINT_TAGS: usize = 1;
pub const LAYOUT_POINT_TAG_COUNT: usize = 2;
pub const LAYOUT_WAY_TAGS: usize = 3;
pub const LAYOUT_WAY_TAG_COUNT: usize = 4;
pub const LAYOUT_INTERVALS: usize = 5;
pub const LAYOUT_INTERVAL_COUNT: usize = 6;
pub const LAYOUT_WORDS: usize = 7;

// `mapsforge_interval`: interval.
pub const INTERVAL_THERE: usize = 0;
pub const INTERVAL_BASE_ZOOM: usize = 1;
pub const INTERVAL_MIN_ZOOM: usize = 2;
pub const INTERVAL_MAX_ZOOM: usize = 3;
pub const INTERVAL_START: usize = 4;
pub const INTERVAL_SIZE: usize = 5;
pub const INTERVAL_WORDS: usize = 6;

// `mapsforge_sub_file`.
pub const SUB_FILE_THERE: usize = 6;
pub const SUB_FILE_NUMBER: usize = 7;
pub const SUB_FILE_WORDS: usize = 8;

// `mapsforge_tag`, and the kinds of inline values.
pub const TAG_PLACE: usize = 6;
pub const TAG_SIZE: usize = 7;
pub const TAG_END: usize = 8;
pub const TAG_KIND: usize = 9;
pub const TAG_WORDS: usize = 10;
pub const KIND_NONE: u64 = 0;
pub const KIND_BYTE: u64 = 1;
pub const KIND_SHORT: u64 = 2;
pub const KIND_INT: u64 = 3;
pub const KIND_FLOAT: u64 = 4;
pub const KIND_TEXT: u64 = 5;

// `mapsforge_text`.
pub const TEXT_SIZE: usize = 6;
pub const TEXT_WORDS: usize = 7;

// `mapsforge_tile_count`.
pub const TILE_COUNT_THERE: usize = 6;
pub const TILE_COUNT_TILES: usize = 7;
pub const TILE_COUNT_WORDS: usize = 8;

// `mapsforge_tile_index`.
pub const TILE_INDEX_THERE: usize = 6;
pub const TILE_INDEX_NUMBER: usize = 7;
pub const TILE_INDEX_WORDS: usize = 8;

// `mapsforge_index_entry`.
pub const INDEX_ENTRY_WATER: usize = 6;
pub const INDEX_ENTRY_OFFSET: usize = 7;
pub const INDEX_ENTRY_PLACE: usize = 8;
pub const INDEX_ENTRY_WORDS: usize = 9;

// `mapsforge_window_count`.
pub const WINDOW_COUNT_TILES: usize = 6;
pub const WINDOW_COUNT_WORDS: usize = 7;

// `mapsforge_window_tile`: words, column_row.
pub const WINDOW_TILE_THERE: usize = 6;
pub const WINDOW_TILE_NUMBER: usize = 7;
pub const WINDOW_TILE_MASK: usize = 8;
pub const WINDOW_TILE_WORDS: usize = 9;
pub const WINDOW_TILE_COLUMN: usize = 0;
pub const WINDOW_TILE_ROW: usize = 1;
pub const WINDOW_TILE_NUMBERS: usize = 2;

// A stream's state, while no way waits, and while one does.
pub const STATE_WAITS: usize = 0;
pub const STATE_WATER: usize = 5;
pub const STATE_SUB_FILE: usize = 6;
pub const STATE_PLAIN: usize = 7;
pub const STATE_WORDS: usize = 8;
pub const IDLE_POINTS: usize = 1;
pub const IDLE_WAYS: usize = 2;
pub const IDLE_POINT: usize = 3;
pub const IDLE_WAY: usize = 4;
pub const WAITING_PAST: usize = 1;
pub const WAITING_WAYS: usize = 2;
pub const WAITING_BODY: usize = 3;
pub const WAITING_HEAD_PLAIN: usize = 4;

// `mapsforge_stream_next`, and the kinds of what comes.
pub const NEXT_KIND: usize = 6;
pub const NEXT_TAG_COUNT: usize = 7;
pub const NEXT_SIGNATURE: usize = 8;
pub const NEXT_NAME: usize = 11;
pub const NEXT_HOUSE_NUMBER: usize = 14;
pub const NEXT_HAS_ELEVATION: usize = 17;
pub const NEXT_BITMAP: usize = 18;
pub const NEXT_SUB_FILE: usize = 19;
pub const NEXT_WATER: usize = 20;
pub const NEXT_PLAIN: usize = 21;
pub const NEXT_WORDS: usize = 22;
pub const POINT: u64 = 0;
pub const WAY: u64 = 1;
pub const END: u64 = 2;

// `mapsforge_stream_next_selected`: select.
pub const SELECT_BY_WINDOW: usize = 0;
pub const SELECT_MASK: usize = 1;
pub const SELECT_BY_RULES: usize = 2;
pub const SELECT_ZOOM: usize = 3;
pub const SELECT_WORDS: usize = 4;

// `mapsforge_stream_accept`.
pub const ACCEPT_BLOCKS: usize = 6;
pub const ACCEPT_NODES: usize = 7;
pub const ACCEPT_NAME: usize = 8;
pub const ACCEPT_HOUSE_NUMBER: usize = 11;
pub const ACCEPT_REFERENCE: usize = 14;
pub const ACCEPT_HAS_LABEL: usize = 17;
pub const ACCEPT_PLAIN: usize = 18;
pub const ACCEPT_WORDS: usize = 19;

// `mapsforge_collect`.
pub const COLLECT_SIGNATURE: usize = 6;
pub const COLLECT_ROWS: usize = 9;
pub const COLLECT_FIRST_WAY_OFFSET: usize = 10;
pub const COLLECT_POINTS: usize = 11;
pub const COLLECT_WAYS: usize = 12;
pub const COLLECT_EXACT: usize = 13;
pub const COLLECT_PLAIN: usize = 14;
pub const COLLECT_WORDS: usize = 15;

// `mapsforge_fetch`, and a text in the buffer, counted from its first word.
pub const FETCH_KIND: usize = 6;
pub const FETCH_TAG_COUNT: usize = 7;
pub const FETCH_SIGNATURE: usize = 8;
pub const FETCH_HAS_NAME: usize = 11;
pub const FETCH_NAME: usize = 12;
pub const FETCH_HAS_HOUSE_NUMBER: usize = 17;
pub const FETCH_HOUSE_NUMBER: usize = 18;
pub const FETCH_HAS_REFERENCE: usize = 23;
pub const FETCH_REFERENCE: usize = 24;
pub const FETCH_HAS_ELEVATION: usize = 29;
pub const FETCH_BITMAP: usize = 30;
pub const FETCH_DOUBLE_DELTA: usize = 31;
pub const FETCH_BLOCKS: usize = 32;
pub const FETCH_NODES: usize = 33;
pub const FETCH_HAS_LABEL: usize = 34;
pub const FETCH_PLAIN: usize = 35;
pub const FETCH_HEAD_PLAIN: usize = 36;
pub const FETCH_WORDS: usize = 37;
pub const STRING_SIZE: usize = 0;
pub const STRING_KEY_SIZE: usize = 1;
pub const STRING_VALUE_SIZE: usize = 2;
pub const STRING_KEY_HASH: usize = 3;
pub const STRING_VALUE_HASH: usize = 4;
pub const STRING_WORDS: usize = 5;

// `mapsforge_measure_way_data` and `mapsforge_read_way_data`.
pub const WAY_DATA_BLOCKS: usize = 6;
pub const WAY_DATA_NODES: usize = 7;
pub const WAY_DATA_END: usize = 8;
pub const WAY_DATA_PLAIN: usize = 9;
pub const WAY_DATA_WORDS: usize = 10;

// `mapsforge_shows`: words.
pub const SHOWS_ACCEPT: usize = 6;
pub const SHOWS_WORDS: usize = 7;

// `mapsforge_wanted`: words.
pub const WANTED_POINTS: usize = 6;
pub const WANTED_WAYS: usize = 7;
pub const WANTED_BLOCKS: usize = 8;
pub const WANTED_NODES: usize = 9;
pub const WANTED_TEXT: usize = 10;
pub const WANTED_WORDS: usize = 11;
