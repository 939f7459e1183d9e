/* The Mapsforge tile reader, for programs that link target/staticlib/libmapsforge.a (`host/library` writes it; x86-64 Linux). C99 or later, or
 * C++. mapsforge_grid.h finds the tiles of a map; examples/list_tile.c is a small program with both.
 *
 * Every function takes anything, ends, stays inside what it is lent, and gives 0, or the number of a refusal (below); mapsforge_shares_cell
 * alone, which refuses nothing, gives true or false. Each is proved: see crates/exports_c/src/lib.rt. Nothing is allocated, no state is kept
 * between calls, and calls may run in several threads at once.
 *
 * A slice goes as its address and its number of entries; an array of a given length goes by its address alone. An empty slice's address
 * must not be null (any aligned address will do), and no two arguments of a call may overlap where one of them is written. Numbers of 64
 * bits and doubles stand where C puts them, at multiples of 8 bytes; the map, a text and a buffer may start anywhere.
 *
 * An answer writes its own words, and all others keep the values that the caller lent: they say nothing of it. Which are a result's own,
 * each call says below, array by array; words 0 to 5 of `words` never are. Lists and buffers are written at their fronts.
 *
 * A refusal's own words are its values, at the front of `words`. 3, 7, 19 and 20 write word 0: the map's version, the tag id, and the place
 * in the map where the missing read began. 23 and 24 write words 0 and 1: the way tag's id, and the zoom. 15 writes words 0 to 5: the lengths needed of the lists, in the order in which the call takes
 * them (words 0 to 4), and of the buffer (word 5), 0 for what the call does not take. The other refusals write no word. A refused call
 * touches nothing else: arrays, lists, buffers and the state of a stream are as they were. docs/REFUSALS.md has every refusal with its
 * smallest example, and what each call can answer.
 *
 * A part of the map, or of nothing, is three words: 1 if it is there, its place in the map, its size in bytes; else 0, 0, 0.
 * A text of a stream that is not valid UTF-8 is there with size 0.
 *
 * A number in groups of seven bits is plain if no shorter encoding gives the same value, and it is not minus zero (the byte 40, in base 16).
 * Of an unsigned number 00 and 80 01 are plain (0 and 128), 80 00 is not (0). Of a signed one 00, 41, C0 00 and C0 40 are (0, -1, 64 and
 * -64); 40, 80 00, BF 00 and 81 40 are not (0, 0, 63 and -1). Numbers that are not plain are read like others: they waste bytes, and no more. An answer
 * has a word that is 1 if all numbers that it speaks of were plain, else 0. These numbers count: coordinates, elevation, tag ids, lengths of
 * texts and of %s values, a way's stored size, its count of data blocks if it is stored, its counts of blocks and nodes, and in a tile's head
 * the counts of all rows of the zoom table and the first-way offset. Fields of a fixed size do not count, values of %b, %h, %i and %f among
 * them. An empty tile is plain. A stream's head of a way speaks of size, tag ids and lengths of %s values; accept of the whole way, its head
 * included; the end of the tile's whole head and of what was read of its features in calls that were not refused: of a declined way, the head.
 *
 * The caller keeps the map's bytes, the layout that mapsforge_open gave and the two lists of tags that it filled, and of each sub file the
 * interval that mapsforge_interval gave, and hands in what a call needs of them. So nothing is opened again, and a damaged header is
 * refused by mapsforge_open alone. Any words are taken: with a layout or an interval that did not come from this map, a call reads the map
 * by them, and what opening checks is not checked again. A zoom interval that is not in the map is refused with 1.
 *
 * The lists of tags have an entry for each tag of points, and behind those one for each tag of ways. `starts`: where the tag starts in the
 * map, which is the first byte of its length. `letters`: the letter of its inline value (b, h, i, f or s), or 0. Tag k of points is entry
 * k, and tag k of ways is entry k + layout[MAPSFORGE_LAYOUT_POINT_TAG_COUNT]. Their memory is the caller's, who keeps them beside the map's
 * bytes for as long as calls are made on that map. Nobody writes them in that time; several threads may read them at once. A map that has
 * changed is opened anew, with lists of its own.
 *
 * How long the lists must be, mapsforge_open says: with lists that are too short it answers 15, and both lengths are then the number of all
 * tags (words MAPSFORGE_NEEDED_STARTS and MAPSFORGE_NEEDED_LETTERS). So it is called with empty lists first; a map without tags needs none,
 * and opens at once. No map needs more than MAPSFORGE_MOST_ENTRIES entries in each.
 *
 * With the lists that opening filled of this map, every call gives what the map has. Any other lists are taken too: a call ends, stays
 * inside what it is lent, skips inline values by the letters that are listed (0 behind the end of the list), and names tags by the starts
 * (an empty name where the list has no entry, or the map no text there). No more is promised then: the lists of another map, or of this one
 * before it changed, give features that look right and are wrong, and nothing tells.
 *
 * mapsforge_collect fills one list more, `places`, with the place in the map at which each feature of the tile starts (in a debug map, its
 * signature's): points from 0, ways behind them. mapsforge_fetch takes it with the tile's counts, and reads the one feature that it is asked
 * for, so that the last way of a tile costs what the first one does. The list is the caller's, as those of tags are; it is of that tile
 * alone. With the list and the counts that collecting gave, a fetch gives what the tile has, and no byte but those of the header and the
 * feature matters to it. Any other list and counts are taken too: a call ends, stays inside what it is lent, and gives what can be read where
 * the list says, or a refusal.
 *
 * The caller computes the grid. The library takes every grid that is not reversed and not too large (14): with a wrong one it reads wrong
 * tiles, and nothing tells. A sub file's grid is the tiles of its base zoom that the map's bounding box touches: columns x_min to x_max and
 * rows y_min to y_max, both ends included, whatever zoom the tiles are shown at. Column 0 starts at 180 degrees west; row 0 is the
 * northernmost, so that y_min is the row of the box's north. With latitudes in radians, columns and rows are
 *
 *     x = floor(2^zoom * (longitude + 180) / 360), clamped to 0 and 2^zoom - 1   (mapsforge_column does not clamp)
 *     y = floor(2^zoom * (1 - ln(tan(latitude) + 1 / cos(latitude)) / pi) / 2), clamped to 0 and 2^zoom - 1
 *
 * Tiles are numbered from 0, row by row from the north-west: tile = (y - y_min) * (x_max - x_min + 1) + (x - x_min).
 *
 * The positions of points and nodes are offsets in degrees, to be added to latitude and longitude of the tile's north-western corner; a
 * label's is an offset from the way's first node.
 *
 * Stack: at most 12 KB for mapsforge_check_rules, 8 KB for mapsforge_fetch, 4 KB for the others (measured: 9, 6 and 3 KB). A thread of
 * MAPSFORGE_STACK bytes has room for each of them and for its own start. */
#ifndef MAPSFORGE_H
#define MAPSFORGE_H

#include <stdbool.h>
#include <stddef.h>
#include <stdint.h>

#ifdef __cplusplus
extern "C" {
#endif

/* Refusals. */
enum {
    MAPSFORGE_SOURCE = 1,                 /* the map ends too early: in its header, a sub file's signature or a feature */
    MAPSFORGE_INVALID_MAGIC = 2,
    MAPSFORGE_UNSUPPORTED_VERSION = 3,
    MAPSFORGE_INVALID_BOUNDING_BOX = 4,
    MAPSFORGE_INVALID_HEADER_SIZE = 5,
    MAPSFORGE_INVALID_INDEX_SIGNATURE = 6,
    MAPSFORGE_INVALID_TAG_ID = 7,
    MAPSFORGE_INVALID_TILE_INDEX = 8,     /* no such sub file or tile */
    MAPSFORGE_TEXT_TOO_LONG = 9,          /* a text of more than 2^20 bytes */
    MAPSFORGE_TOO_MANY_NODES = 10,        /* a block of more than 2^20 nodes */
    MAPSFORGE_NUMBER_TOO_LONG = 11,       /* the ninth byte of a number has its top bit */
    MAPSFORGE_COORDINATE_TOO_LARGE = 12,  /* a coordinate above 2^53 */
    MAPSFORGE_REVERSED_INTERVAL = 13,     /* a zoom interval whose minimum is above its maximum */
    MAPSFORGE_INVALID_GRID = 14,          /* a reversed grid, or one of more than 2^32 - 1 tiles */
    MAPSFORGE_TOO_SHORT = 15,             /* a lent list or buffer is shorter than the result */
    MAPSFORGE_OUT_OF_TURN = 16,           /* next while a way waits; accept, decline or skip while none does */
    MAPSFORGE_INVALID_FEATURE = 17,       /* a feature number at or above the count, or the length of the list of places */
    MAPSFORGE_ZOOM_TOO_LARGE = 18,        /* a zoom above 63 in column or longitude arithmetic */
    MAPSFORGE_INDEX_CUT_OFF = 19,         /* the map ends before the five bytes of the tile's index entry or of the next one do; word 0: that
                                             entry's place */
    MAPSFORGE_TILE_HEAD_CUT_OFF = 20,     /* the map ends in a tile's signature (word 0: its place), or in the zoom table or the
                                             first-way offset (word 0: the place of the missing byte). For any place of 2^64 or
                                             more, 19 and 20 have 2^64 - 1 */
    MAPSFORGE_INVALID_RULES = 22,         /* rules whose length is no multiple of 4, or one with a tag id outside the map, or with its
                                             lowest zoom above its highest */
    MAPSFORGE_RULES_OVERLAP = 23,         /* two rules or more name a way tag and zoom; the smallest tag id, and its smallest zoom */
    MAPSFORGE_RULES_GAP = 24              /* no rule names a way tag and zoom; the smallest tag id, and its smallest zoom */
};

/* The refusal's values, words 0 to 5 of every call. Where a call names no other words, they are all that `words` has. Only those of the
 * refusal that was answered are written. */
#define MAPSFORGE_VALUE 0                       /* of refusals 3, 7, 19 and 20 */
#define MAPSFORGE_NEEDED_NODE_COUNTS 0          /* of refusal 15: how many entries each list, and the buffer, must have */
#define MAPSFORGE_NEEDED_LATITUDES 1
#define MAPSFORGE_NEEDED_LONGITUDES 2
#define MAPSFORGE_NEEDED_INITIAL_LATITUDES 3
#define MAPSFORGE_NEEDED_INITIAL_LONGITUDES 4
#define MAPSFORGE_NEEDED_BUFFER 5
#define MAPSFORGE_NEEDED_STARTS 0               /* of mapsforge_open's */
#define MAPSFORGE_NEEDED_LETTERS 1
#define MAPSFORGE_NEEDED_CLASSES 0              /* of mapsforge_check_rules's */
#define MAPSFORGE_NEEDED_PLACES 0               /* of mapsforge_collect's */
#define MAPSFORGE_RULES_TAG 0                   /* of refusals 23 and 24: the way tag's id */
#define MAPSFORGE_RULES_ZOOM 1                  /* and the zoom */
#define MAPSFORGE_VALUES 6                      /* how many there are */

/* A part of the map, counted from its first word: words[MAPSFORGE_NEXT_NAME + MAPSFORGE_PART_SIZE]. */
#define MAPSFORGE_PART_THERE 0
#define MAPSFORGE_PART_PLACE 1
#define MAPSFORGE_PART_SIZE 2
#define MAPSFORGE_PART_WORDS 3

/* The two degrees of a point's position, or of a label's. */
#define MAPSFORGE_LATITUDE 0
#define MAPSFORGE_LONGITUDE 1
#define MAPSFORGE_POSITION_DEGREES 2

/* The signed words of a feature. */
#define MAPSFORGE_LAYER 0                       /* from -5 to 10 */
#define MAPSFORGE_ELEVATION 1                   /* a point's, in metres */
#define MAPSFORGE_SIGNED_WORDS 2

#define MAPSFORGE_MAX_TAGS 15                   /* a feature has no more: the length of ids */
#define MAPSFORGE_MAX_ROWS 256                  /* a zoom table has no more: the length of points and ways */
#define MAPSFORGE_MOST_ENTRIES 131070           /* starts and letters need no more: 65535 tags of points and as many of ways */
#define MAPSFORGE_RULE_BYTES 4                  /* a showing rule has so many */
#define MAPSFORGE_ZOOMS 32                      /* for which a rule gives a class: 0 to 31 */
#define MAPSFORGE_HIDDEN 0                      /* the class of what is not shown */
#define MAPSFORGE_CLASSES 64                    /* classes are below this */
#define MAPSFORGE_STACK 32768                   /* bytes: 32 KB */

/* Opens a map, and lists its tags: the start and the letter of each go to the fronts of the lists, and entries behind them keep their
 * values. 15 if a list is shorter than all tags together, tested last. A refused call leaves both lists alone.
 *   a map writes words 6 to 33; degrees 0 to 5 (4 and 5 are 0.0 without a start position); layout 0 to 6 */
#define MAPSFORGE_OPEN_END 6                    /* words: the place behind the header */
#define MAPSFORGE_OPEN_HEADER_SIZE 7            /* as stored */
#define MAPSFORGE_OPEN_VERSION 8
#define MAPSFORGE_OPEN_FILE_SIZE 9              /* as stored */
#define MAPSFORGE_OPEN_DATE 10                  /* milliseconds since 1970 */
#define MAPSFORGE_OPEN_TILE_SIZE 11             /* pixels */
#define MAPSFORGE_OPEN_FLAGS 12
#define MAPSFORGE_OPEN_MAGIC 13                 /* its place in the map */
#define MAPSFORGE_OPEN_MAGIC_SIZE 14
#define MAPSFORGE_OPEN_PROJECTION 15            /* its place in the map */
#define MAPSFORGE_OPEN_PROJECTION_SIZE 16
#define MAPSFORGE_OPEN_HAS_START_POSITION 17
#define MAPSFORGE_OPEN_HAS_START_ZOOM 18
#define MAPSFORGE_OPEN_START_ZOOM 19
#define MAPSFORGE_OPEN_LANGUAGE 20              /* a part, 20 to 22 */
#define MAPSFORGE_OPEN_COMMENT 23               /* a part, 23 to 25 */
#define MAPSFORGE_OPEN_CREATED_BY 26            /* a part, 26 to 28 */
#define MAPSFORGE_OPEN_POINT_TAGS 29            /* the place of the first name */
#define MAPSFORGE_OPEN_POINT_TAG_COUNT 30
#define MAPSFORGE_OPEN_WAY_TAGS 31              /* the place of the first name */
#define MAPSFORGE_OPEN_WAY_TAG_COUNT 32
#define MAPSFORGE_OPEN_SUB_FILES 33             /* how many there are */
#define MAPSFORGE_OPEN_WORDS 34
#define MAPSFORGE_OPEN_SOUTH 0                  /* degrees: the bounding box */
#define MAPSFORGE_OPEN_WEST 1
#define MAPSFORGE_OPEN_NORTH 2
#define MAPSFORGE_OPEN_EAST 3
#define MAPSFORGE_OPEN_START_LATITUDE 4         /* and the start position */
#define MAPSFORGE_OPEN_START_LONGITUDE 5
#define MAPSFORGE_OPEN_DEGREES 6
#define MAPSFORGE_LAYOUT_DEBUG 0                /* layout: whether there are signatures for debugging; any word but 0 is taken for yes */
#define MAPSFORGE_LAYOUT_POINT_TAGS 1           /* as above; no call looks at this word, nor at the place of the ways' */
#define MAPSFORGE_LAYOUT_POINT_TAG_COUNT 2
#define MAPSFORGE_LAYOUT_WAY_TAGS 3
#define MAPSFORGE_LAYOUT_WAY_TAG_COUNT 4
#define MAPSFORGE_LAYOUT_INTERVALS 5            /* where the first zoom interval stands: each takes 19 bytes */
#define MAPSFORGE_LAYOUT_INTERVAL_COUNT 6       /* taken modulo 256 */
#define MAPSFORGE_LAYOUT_WORDS 7
uint64_t mapsforge_open(const uint8_t *map, size_t map_len, uint64_t *starts, size_t starts_len, uint8_t *letters, size_t letters_len, uint64_t words[34], double degrees[6], uint64_t layout[7]);

/* The zoom interval of a sub file, which goes as it is to mapsforge_tile_count, mapsforge_tile_index, mapsforge_index_entry,
 * mapsforge_stream_open and mapsforge_collect. Of a missing one, word 0 is all that they look at. Refused with 1 if the interval is not in
 * the map, so never with a layout that mapsforge_open gave of this map.
 *   an interval writes interval 0 to 5
 *   a missing one writes interval 0 */
#define MAPSFORGE_INTERVAL_THERE 0              /* interval: any word but 0 is taken for a sub file that is there */
#define MAPSFORGE_INTERVAL_BASE_ZOOM 1          /* the grid's zoom. The three zooms are taken modulo 256 */
#define MAPSFORGE_INTERVAL_MIN_ZOOM 2
#define MAPSFORGE_INTERVAL_MAX_ZOOM 3
#define MAPSFORGE_INTERVAL_START 4              /* the sub file's place in the map */
#define MAPSFORGE_INTERVAL_SIZE 5               /* as stored */
#define MAPSFORGE_INTERVAL_WORDS 6
uint64_t mapsforge_interval(const uint8_t *map, size_t map_len, const uint64_t layout[7], size_t sub_file, uint64_t words[6], uint64_t interval[6]);

/* The first sub file whose interval has the zoom. Refused as mapsforge_interval is, at the first interval that is not in the map.
 *   a sub file writes words 6, 7
 *   none writes words 6 */
#define MAPSFORGE_SUB_FILE_THERE 6              /* words: whether there is one */
#define MAPSFORGE_SUB_FILE_NUMBER 7
#define MAPSFORGE_SUB_FILE_WORDS 8
uint64_t mapsforge_sub_file(const uint8_t *map, size_t map_len, const uint64_t layout[7], uint8_t zoom, uint64_t words[8]);

/* Tag k, from 0, of `count` tags from entry `first` of the lists on: of points with first 0 and their count, of ways with the points' count
 * and their own. 7 with k if k is not below count, or if `starts` has no such entry; else the text at its start is refused as a text is.
 *   a tag writes words 6 to 9 */
#define MAPSFORGE_TAG_PLACE 6                   /* words: where its text stands in the map */
#define MAPSFORGE_TAG_SIZE 7
#define MAPSFORGE_TAG_END 8                     /* the place behind the text */
#define MAPSFORGE_TAG_KIND 9                    /* what a feature stores for it by its letter, one of these kinds: */
#define MAPSFORGE_TAG_WORDS 10
#define MAPSFORGE_KIND_NONE 0                   /* nothing */
#define MAPSFORGE_KIND_BYTE 1                   /* %b, one byte */
#define MAPSFORGE_KIND_SHORT 2                  /* %h, two */
#define MAPSFORGE_KIND_INT 3                    /* %i, four */
#define MAPSFORGE_KIND_FLOAT 4                  /* %f, four */
#define MAPSFORGE_KIND_TEXT 5                   /* %s, a length and that many */
uint64_t mapsforge_tag(const uint8_t *map, size_t map_len, const uint64_t *starts, size_t starts_len, const uint8_t *letters, size_t letters_len, size_t first, size_t count, size_t k, uint64_t words[10]);

/* The text with each ill-formed part replaced by U+FFFD, to the front of the buffer; bytes behind it keep their values.
 *   a text writes words 6 */
#define MAPSFORGE_TEXT_SIZE 6                   /* words: its size there */
#define MAPSFORGE_TEXT_WORDS 7
uint64_t mapsforge_text(const uint8_t *text, size_t text_len, uint8_t *buffer, size_t buffer_len, uint64_t words[7]);

/* How many tiles the sub file has, by its grid.
 *   a count writes words 6, 7
 *   a missing sub file writes words 6 */
#define MAPSFORGE_TILE_COUNT_THERE 6            /* words: whether there is such a sub file */
#define MAPSFORGE_TILE_COUNT_TILES 7
#define MAPSFORGE_TILE_COUNT_WORDS 8
uint64_t mapsforge_tile_count(const uint64_t interval[6], int32_t x_min, int32_t y_min, int32_t x_max, int32_t y_max, uint64_t words[8]);

/* The number of the tile x, y of the sub file.
 *   a number writes words 6, 7
 *   none writes words 6 */
#define MAPSFORGE_TILE_INDEX_THERE 6            /* words: whether there is one: such a sub file, and x, y in the grid */
#define MAPSFORGE_TILE_INDEX_NUMBER 7
#define MAPSFORGE_TILE_INDEX_WORDS 8
uint64_t mapsforge_tile_index(const uint64_t interval[6], int32_t x_min, int32_t y_min, int32_t x_max, int32_t y_max, int32_t x, int32_t y, uint64_t words[8]);

/* A tile's entry in the index. The calls about a tile refuse in this order: no such sub file (8), a bad grid (14), no such tile (8), no
 * entry of the tile or, but for this call, of the next one (19), a reversed interval (13); then comes the tile, its bytes in file order;
 * and a list too short (15) last. This one stops behind 19. mapsforge_fetch is about a feature: it is told no tile.
 *
 * This call does not look at the next entry, which may mark the tile empty (see mapsforge_collect): its place is then that of another tile.
 *   an entry writes words 6 to 8 */
#define MAPSFORGE_INDEX_ENTRY_WATER 6           /* words: whether the tile is marked as water */
#define MAPSFORGE_INDEX_ENTRY_OFFSET 7          /* the tile's place from the sub file's start */
#define MAPSFORGE_INDEX_ENTRY_PLACE 8           /* and from the map's; 2^64 - 1 stands for any larger place */
#define MAPSFORGE_INDEX_ENTRY_WORDS 9
uint64_t mapsforge_index_entry(const uint8_t *map, size_t map_len, const uint64_t layout[7], const uint64_t interval[6], int32_t x_min, int32_t y_min, int32_t x_max, int32_t y_max, size_t tile, uint64_t words[9]);

/* The column that a longitude lies in, cut toward 0 and kept within 32 bits; of a NaN it is 0. Nothing is clamped: 180.0 at zoom 13 is
 * column 8192, one behind the last.
 *   a column writes column 0 */
uint64_t mapsforge_column(double longitude, uint8_t zoom, uint64_t words[6], int64_t column[1]);

/* The longitude at which a column starts.
 *   a longitude writes longitude 0 */
uint64_t mapsforge_longitude(uint32_t column, uint8_t zoom, uint64_t words[6], double longitude[1]);

/* A window over several tiles: which tiles of a grid a rectangle of sub tiles touches, and which cells of each. Sub tiles are two zoom levels
 * below the grid's zoom, so a tile has 4 by 4 of them, its cells: tile x, y has columns 4 * x to 4 * x + 3 and rows 4 * y to 4 * y + 3, also
 * where these are below 0. left to right and top to bottom include both ends; rows grow to the south. Any numbers are taken: a rectangle
 * with a low end above its high end touches no tile, and one that is 2^64 wide takes no longer than any other. A bad grid is refused with
 * 14, before all else.
 *
 * How many tiles: the touched columns times the touched rows, both counted within the grid.
 *   a count writes words 6 */
#define MAPSFORGE_WINDOW_COUNT_TILES 6          /* words: how many tiles */
#define MAPSFORGE_WINDOW_COUNT_WORDS 7
uint64_t mapsforge_window_count(int32_t x_min, int32_t y_min, int32_t x_max, int32_t y_max, int64_t left, int64_t top, int64_t right, int64_t bottom, uint64_t words[7]);

/* Tile k of them, from 0, row by row from the north, west to east; none from their count on. No tile comes twice, and none with the mask 0.
 *   a tile writes words 6 to 8; column_row 0, 1
 *   none writes words 6 */
#define MAPSFORGE_WINDOW_TILE_THERE 6           /* words: whether there is such a tile */
#define MAPSFORGE_WINDOW_TILE_NUMBER 7          /* its number in the sub file, as the calls about a tile take it */
#define MAPSFORGE_WINDOW_TILE_MASK 8            /* which of its 4 by 4 cells are touched, row by row, bit 15 the first */
#define MAPSFORGE_WINDOW_TILE_WORDS 9
#define MAPSFORGE_WINDOW_TILE_COLUMN 0          /* column_row */
#define MAPSFORGE_WINDOW_TILE_ROW 1
#define MAPSFORGE_WINDOW_TILE_NUMBERS 2
uint64_t mapsforge_window_tile(int32_t x_min, int32_t y_min, int32_t x_max, int32_t y_max, int64_t left, int64_t top, int64_t right, int64_t bottom, uint64_t k, uint64_t words[9], int64_t column_row[2]);

/* Whether a way's bitmap (MAPSFORGE_NEXT_BITMAP) shares a cell with its tile's mask. If it does not, a window declines the way. */
bool mapsforge_shares_cell(uint16_t bitmap, uint16_t mask);

/* Opens a stream of a tile at a zoom, which is clamped into the sub file's interval. sub_file is only what the stream's end answers. The
 * state is the caller's to keep and these calls' to write; any eight words are taken for one. A tile that its index marks empty (see
 * mapsforge_collect) has a stream that is at its end: nothing is to come, and both places are 0. No other tile's stream opens with a place of 0.
 *   a stream writes state 0 to 7 */
#define MAPSFORGE_STATE_WAITS 0                 /* state: 1 while a way waits, else 0; any word but 0 is taken for yes */
#define MAPSFORGE_STATE_WATER 5                 /* what the end will answer; any word but 0 is taken for yes, here and in word 7 */
#define MAPSFORGE_STATE_SUB_FILE 6
#define MAPSFORGE_STATE_PLAIN 7                 /* so far: of the tile's head once the stream is open, then with each call that is not refused */
#define MAPSFORGE_STATE_WORDS 8
#define MAPSFORGE_IDLE_POINTS 1                 /* while none waits: how many points are still to come, */
#define MAPSFORGE_IDLE_WAYS 2                   /* how many ways, */
#define MAPSFORGE_IDLE_POINT 3                  /* and where the next point */
#define MAPSFORGE_IDLE_WAY 4                    /* and the next way stand in the map */
#define MAPSFORGE_WAITING_PAST 1                /* while one waits: the place that declining goes to, */
#define MAPSFORGE_WAITING_WAYS 2                /* how many ways are to come behind it, */
#define MAPSFORGE_WAITING_BODY 3                /* where its body starts, */
#define MAPSFORGE_WAITING_HEAD_PLAIN 4          /* and whether its head was plain; any word but 0 is taken for yes */
uint64_t mapsforge_stream_open(const uint8_t *map, size_t map_len, const uint64_t layout[7], const uint64_t interval[6], size_t sub_file, int32_t x_min, int32_t y_min, int32_t x_max, int32_t y_max, size_t tile, uint8_t zoom, uint64_t state[8], uint64_t words[6]);

/* The next point; after the last point the next way's head, which then waits; at last the end, again and again. 16 while a way waits.
 * signed_words: the layer, and a point's elevation, 0 if it has none. degrees: a point's position. ids: the tag ids, zeros behind them.
 *   a point writes words 6 to 17, 21; signed_words 0, 1; degrees 0, 1; ids 0 to 14; state 0 to 7
 *   a way writes words 6, 7, 18, 21; signed_words 0; ids 0 to 14; state 0 to 7
 *   the end writes words 6, 19 to 21; state 0 to 7 */
#define MAPSFORGE_NEXT_KIND 6                   /* words: what it is, one of the kinds below */
#define MAPSFORGE_NEXT_TAG_COUNT 7              /* of a point or a way */
#define MAPSFORGE_NEXT_SIGNATURE 8              /* 8 to 10, of a point, are always 0: a stream gives no signatures */
#define MAPSFORGE_NEXT_NAME 11                  /* a part, 11 to 13, of a point: a way's texts come with its body */
#define MAPSFORGE_NEXT_HOUSE_NUMBER 14          /* a part, 14 to 16, of a point */
#define MAPSFORGE_NEXT_HAS_ELEVATION 17         /* of a point */
#define MAPSFORGE_NEXT_BITMAP 18                /* of a way: which of 4 by 4 cells of the tile it touches, row by row, bit 15 the first */
#define MAPSFORGE_NEXT_SUB_FILE 19              /* of the end */
#define MAPSFORGE_NEXT_WATER 20                 /* of the end: whether the tile is marked as water */
#define MAPSFORGE_NEXT_PLAIN 21                 /* whether all numbers were plain: of the point, of the way's head, or of the end (see above) */
#define MAPSFORGE_NEXT_WORDS 22
#define MAPSFORGE_POINT 0                       /* kinds, here and in mapsforge_fetch */
#define MAPSFORGE_WAY 1
#define MAPSFORGE_END 2                         /* only here */
uint64_t mapsforge_stream_next(const uint8_t *map, size_t map_len, const uint64_t layout[7], const uint8_t *letters, size_t letters_len, uint64_t state[8], uint64_t words[22], int64_t signed_words[2], double degrees[2], uint64_t ids[15]);

/* The same with every way declined that is not selected: the next point, the next way that is, or the end. A way is selected if it is in the
 * window, where select has one, and if the rules show it, where select has them. classes is a table that mapsforge_check_rules filled; without rules it
 * is not looked at. A refused call declines nothing: it leaves the state as it was before the call.
 *   writes what mapsforge_stream_next does */
#define MAPSFORGE_SELECT_BY_WINDOW 0            /* select: whether there is a window */
#define MAPSFORGE_SELECT_MASK 1                 /* its mask for the tile, of which 16 bits count */
#define MAPSFORGE_SELECT_BY_RULES 2             /* whether there are rules */
#define MAPSFORGE_SELECT_ZOOM 3                 /* the zoom to ask them for, of which 8 bits count */
#define MAPSFORGE_SELECT_WORDS 4
uint64_t mapsforge_stream_next_selected(const uint8_t *map, size_t map_len, const uint64_t layout[7], const uint8_t *letters, size_t letters_len, const uint64_t select[4], const uint8_t *classes, size_t classes_len, uint64_t state[8], uint64_t words[22], int64_t signed_words[2], double degrees[2], uint64_t ids[15]);

/* Decodes the waiting way. Its blocks' node counts, and all its latitudes and longitudes, go to the fronts of the lists; entries behind
 * them keep their values. degrees: the label's position. A refused call leaves the way waiting and the lists alone. How long the lists must
 * be for the ways of a tile, mapsforge_wanted says before; else 15 says it of the way that waits.
 *   a way writes words 6 to 18; degrees 0, 1 (0.0 without a label); state 0 to 7 */
#define MAPSFORGE_ACCEPT_BLOCKS 6               /* words: how many node counts */
#define MAPSFORGE_ACCEPT_NODES 7                /* and how many latitudes and longitudes went to the lists */
#define MAPSFORGE_ACCEPT_NAME 8                 /* a part, 8 to 10 */
#define MAPSFORGE_ACCEPT_HOUSE_NUMBER 11        /* a part, 11 to 13 */
#define MAPSFORGE_ACCEPT_REFERENCE 14           /* a part, 14 to 16 */
#define MAPSFORGE_ACCEPT_HAS_LABEL 17
#define MAPSFORGE_ACCEPT_PLAIN 18               /* whether all numbers of the whole way were plain, its head's too */
#define MAPSFORGE_ACCEPT_WORDS 19
uint64_t mapsforge_stream_accept(const uint8_t *map, size_t map_len, uint64_t state[8], uint64_t *node_counts, size_t node_counts_len, double *latitudes, size_t latitudes_len, double *longitudes, size_t longitudes_len, uint64_t words[19], double degrees[2]);

/* Goes past the waiting way, by its stored size; astray, if that is wrong: see MAPSFORGE_COLLECT_EXACT.
 *   a way writes state 0 to 7 */
uint64_t mapsforge_stream_decline(uint64_t state[8], uint64_t words[6]);

/* mapsforge_stream_decline and then mapsforge_stream_next, in one call. It saves a call, not time. A refused call declines nothing:
 * 16 while no way waits, and where next is refused the way still waits.
 *   writes what mapsforge_stream_next does */
uint64_t mapsforge_stream_skip(const uint8_t *map, size_t map_len, const uint64_t layout[7], const uint8_t *letters, size_t letters_len, uint64_t state[8], uint64_t words[22], int64_t signed_words[2], double degrees[2], uint64_t ids[15]);

/* Collects a tile: decodes every feature of it. points and ways: the zoom table. Row r is how many features are added at the interval's
 * lowest zoom plus r. A tile that its index marks empty (the next entry has the same offset; of the last tile, its offset is the sub file's
 * size) has no features, rows of 0, offset 0 and no signature; its stream is at its end, with its own water mark. So the next entry is read
 * too, here and by mapsforge_stream_open: a map that ends in it is refused with 19.
 *
 * places: where each feature starts, at its front; entries behind the last feature keep their values. If it is shorter than points and ways
 * together, the call is refused with 15, with the length needed (word MAPSFORGE_NEEDED_PLACES; 2^64 - 1 stands for any larger one), and
 * nothing else is written. A stream that was opened at zoom 255 has the same numbers in its state (MAPSFORGE_IDLE_POINTS, MAPSFORGE_IDLE_WAYS),
 * and reads no feature for them; but a damaged tile may count any number of features there, and then it is not collected.
 *   a tile writes words 6 to 14; points 0 to words[9] - 1; ways 0 to words[9] - 1 */
#define MAPSFORGE_COLLECT_SIGNATURE 6           /* words: a part, 6 to 8 */
#define MAPSFORGE_COLLECT_ROWS 9                /* how many rows the zoom table has */
#define MAPSFORGE_COLLECT_FIRST_WAY_OFFSET 10   /* as stored, counted from behind it */
#define MAPSFORGE_COLLECT_POINTS 11             /* how many there are */
#define MAPSFORGE_COLLECT_WAYS 12
#define MAPSFORGE_COLLECT_EXACT 13              /* whether every way's stored size is its decoded length: if so, ways can be declined */
#define MAPSFORGE_COLLECT_PLAIN 14              /* whether all numbers of the tile were plain: those of its head and of all its features */
#define MAPSFORGE_COLLECT_WORDS 15
uint64_t mapsforge_collect(const uint8_t *map, size_t map_len, const uint64_t layout[7], const uint8_t *letters, size_t letters_len, const uint64_t interval[6], int32_t x_min, int32_t y_min, int32_t x_max, int32_t y_max, size_t tile, uint64_t words[15], uint64_t points[256], uint64_t ways[256], uint64_t *places, size_t places_len);

/* Fetches feature k of a collected tile: points from 0, ways behind them. places, points and ways: the list that mapsforge_collect filled and
 * the counts that it gave. Refused with 17, before anything is read, if the number is not below points and ways together, or not below the
 * list's length. A way's node counts, latitudes and longitudes and its blocks' initial latitudes and longitudes go to the fronts of the lists;
 * the texts go to the buffer, one behind the other: the tags' strings in the order of their ids, then name, house number and reference; all
 * that stands behind keeps its values. signed_words: the layer, and a
 * point's elevation, 0 if it has none. degrees: a point's position, or a way's label's. ids: the tag ids, zeros behind them. tags: five
 * words for each tag, zeros behind them. A refused call leaves the lists and the buffer alone.
 *   a point writes words 6 to 29, 35; signed_words 0, 1; degrees 0, 1; ids 0 to 14; tags 0 to 74
 *   a way writes words 6 to 28, 30 to 36; signed_words 0; degrees 0, 1 (0.0 without a label); ids 0 to 14; tags 0 to 74
 *
 * A text in the buffer has five words, zeros if it is not there. They tell of the text, and of a tag: of a tag's string, split at its
 * first = (which counts to neither side; without one the value is empty); of a name, house number or reference, the tag with the key
 * "name", "addr:housenumber" or "ref" and the text as its value. The hash of n characters c: h = 0; for i from 0:
 * h = (h + c[i]) * 31^(n - i + 1), modulo 2^64. */
#define MAPSFORGE_FETCH_KIND 6                  /* words: MAPSFORGE_POINT or MAPSFORGE_WAY */
#define MAPSFORGE_FETCH_TAG_COUNT 7
#define MAPSFORGE_FETCH_SIGNATURE 8             /* a part, 8 to 10 */
#define MAPSFORGE_FETCH_HAS_NAME 11
#define MAPSFORGE_FETCH_NAME 12                 /* a text, 12 to 16 */
#define MAPSFORGE_FETCH_HAS_HOUSE_NUMBER 17
#define MAPSFORGE_FETCH_HOUSE_NUMBER 18         /* a text, 18 to 22 */
#define MAPSFORGE_FETCH_HAS_REFERENCE 23
#define MAPSFORGE_FETCH_REFERENCE 24            /* a text, 24 to 28; a point has none, so that 23 to 28 are 0 */
#define MAPSFORGE_FETCH_HAS_ELEVATION 29        /* of a point */
#define MAPSFORGE_FETCH_BITMAP 30               /* of a way, as are those that follow; see MAPSFORGE_NEXT_BITMAP */
#define MAPSFORGE_FETCH_DOUBLE_DELTA 31         /* whether its nodes are stored as differences of differences */
#define MAPSFORGE_FETCH_BLOCKS 32
#define MAPSFORGE_FETCH_NODES 33
#define MAPSFORGE_FETCH_HAS_LABEL 34
#define MAPSFORGE_FETCH_PLAIN 35                /* of a point or a way: whether all its numbers were plain */
#define MAPSFORGE_FETCH_HEAD_PLAIN 36           /* of a way: whether those of its head were, as a stream's next says */
#define MAPSFORGE_FETCH_WORDS 37
#define MAPSFORGE_STRING_SIZE 0                 /* a text, counted from its first word: its size in the buffer */
#define MAPSFORGE_STRING_KEY_SIZE 1             /* in bytes, as the value's */
#define MAPSFORGE_STRING_VALUE_SIZE 2
#define MAPSFORGE_STRING_KEY_HASH 3
#define MAPSFORGE_STRING_VALUE_HASH 4
#define MAPSFORGE_STRING_WORDS 5
uint64_t mapsforge_fetch(const uint8_t *map, size_t map_len, const uint64_t layout[7], const uint64_t *starts, size_t starts_len, const uint8_t *letters, size_t letters_len, const uint64_t *places, size_t places_len, uint64_t points, uint64_t ways, uint64_t feature, uint64_t *node_counts, size_t node_counts_len, double *latitudes, size_t latitudes_len, double *longitudes, size_t longitudes_len, double *initial_latitudes, size_t initial_latitudes_len, double *initial_longitudes, size_t initial_longitudes_len, uint8_t *buffer, size_t buffer_len, uint64_t words[37], int64_t signed_words[2], double degrees[2], uint64_t ids[15], uint64_t tags[75]);

/* The data of a way alone, from a place in the map on: measured, and read to the fronts of three lists. A refused call leaves the lists
 * alone.
 *   a way writes words 6 to 9 */
#define MAPSFORGE_WAY_DATA_BLOCKS 6             /* words: how many blocks */
#define MAPSFORGE_WAY_DATA_NODES 7              /* and how many nodes there are */
#define MAPSFORGE_WAY_DATA_END 8                /* the place behind them */
#define MAPSFORGE_WAY_DATA_PLAIN 9              /* whether all their numbers were plain, the counts of blocks and nodes too */
#define MAPSFORGE_WAY_DATA_WORDS 10
uint64_t mapsforge_measure_way_data(const uint8_t *map, size_t map_len, size_t at, uint64_t data_blocks, uint64_t words[10]);
uint64_t mapsforge_read_way_data(const uint8_t *map, size_t map_len, size_t at, uint64_t data_blocks, bool double_delta, uint64_t *node_counts, size_t node_counts_len, double *latitudes, size_t latitudes_len, double *longitudes, size_t longitudes_len, uint64_t words[10]);

/* Checks showing rules: which ways a program shows at which zoom. A rule is four bytes, 32 bits with the most significant first: the way
 * tag's id (16 bits), the lowest zoom (5), the highest zoom (5), and the class (6) that these zooms of the tag have, both ends included.
 * Class 0 (MAPSFORGE_HIDDEN) means hidden; what the others mean is the caller's. Rules stand in any order. For each of the map's way tags,
 * layout[MAPSFORGE_LAYOUT_WAY_TAG_COUNT] of them, the rules must name each zoom from 0 to 31 just one time.
 *
 * Rules that pass fill the front of the table `classes`: entry 32 * id + zoom is the class of that tag and zoom. The table takes 32 bytes
 * for each way tag; entries behind them keep their values, and no word is written. Refused in this order: 22, over all rules; 23; 24; last
 * 15, with the length that the table needs (word MAPSFORGE_NEEDED_CLASSES). A refused call leaves the table alone. It takes a time that
 * grows with the number of rules, for each 256 way tags: 2 million rules of 65535 tags take some 0.3 seconds. */
uint64_t mapsforge_check_rules(const uint8_t *rules, size_t rules_len, uint16_t way_tags, uint8_t *classes, size_t classes_len, uint64_t words[6]);

/* Whether a way with these tag ids is to be accepted at a zoom, by a table that mapsforge_check_rules filled: exactly if one of its tags
 * has a class other than 0 there. ids: the first words[MAPSFORGE_NEXT_TAG_COUNT] ids of the way's head; without tags it is declined. zoom:
 * the one that was asked for, not clamped; those above 31 count as 31. It is never refused. An id behind the table's end has class 0.
 *   a way writes words 6 */
#define MAPSFORGE_SHOWS_ACCEPT 6                /* words: whether the way is to be accepted */
#define MAPSFORGE_SHOWS_WORDS 7
uint64_t mapsforge_shows(const uint8_t *classes, size_t classes_len, uint8_t zoom, const uint64_t *ids, size_t ids_len, uint64_t words[7]);

/* What a tile's stream at a zoom will want, if its ways are accepted and declined as decisions says: byte k decides way k, 0 declines it, any
 * other value accepts it, and ways behind the end of the list are declined. No node is written. With lists of these lengths, or longer ones,
 * no mapsforge_stream_accept of that stream is refused with 15; nor of one that goes by mapsforge_stream_next_selected, where the decisions are
 * 1 for each way that window and rules select, and 0 for the others. It is refused as that stream is: as mapsforge_stream_open is with the same
 * arguments, or else as the first call of the stream that is refused.
 *   a tile writes words 6 to 10 */
#define MAPSFORGE_WANTED_POINTS 6               /* words: how many points the stream gives, */
#define MAPSFORGE_WANTED_WAYS 7                 /* and how many ways it accepts */
#define MAPSFORGE_WANTED_BLOCKS 8               /* the most blocks of any one accepted way (the length of node_counts), 0 without one */
#define MAPSFORGE_WANTED_NODES 9                /* the most nodes of any one (the length of latitudes and longitudes) */
#define MAPSFORGE_WANTED_TEXT 10                /* the longest name, house number or reference of a point or an accepted way, in bytes as
                                                   stored, whether or not they are valid UTF-8 */
#define MAPSFORGE_WANTED_WORDS 11
uint64_t mapsforge_wanted(const uint8_t *map, size_t map_len, const uint64_t layout[7], const uint8_t *letters, size_t letters_len, const uint64_t interval[6], int32_t x_min, int32_t y_min, int32_t x_max, int32_t y_max, size_t tile, uint8_t zoom, const uint8_t *decisions, size_t decisions_len, uint64_t words[11]);

#ifdef __cplusplus
}
#endif

#endif
