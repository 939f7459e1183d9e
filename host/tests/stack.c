/* How much stack each call takes, for tests/c.rs: each runs on a stack of its own, which is looked through afterwards. Before that, all of
 * them run in a thread of MAPSFORGE_STACK bytes. */
#define _GNU_SOURCE
#include "mapsforge.h"
#include "mapsforge_grid.h"

#include <pthread.h>
#include <stdio.h>
#include <stdlib.h>
#include <string.h>
#include <ucontext.h>

enum { BYTES = 1 << 20, ROOM = 1 << 16, STACK = 1 << 18, UNTOUCHED = 0xa5, ZOOM = 255 };

/* What the calls take and give: nothing of it is on the stack. */
static uint8_t map[BYTES], letters[ROOM], buffer[ROOM], rules[ROOM], classes[ROOM], decisions[ROOM];
static size_t len, sub_file, tile;
static mapsforge_grid grid;
static uint64_t feature, refusal, words[64], header[MAPSFORGE_OPEN_WORDS], layout[MAPSFORGE_LAYOUT_WORDS];
static uint64_t interval[MAPSFORGE_INTERVAL_WORDS], state[MAPSFORGE_STATE_WORDS], points[MAPSFORGE_MAX_ROWS], ways[MAPSFORGE_MAX_ROWS];
static uint64_t starts[ROOM], places[ROOM], point_count, way_count, counts[ROOM], ids[MAPSFORGE_MAX_TAGS], tags[MAPSFORGE_MAX_TAGS * MAPSFORGE_STRING_WORDS];
static int64_t signed_words[MAPSFORGE_SIGNED_WORDS];
static double degrees[MAPSFORGE_OPEN_DEGREES], place[MAPSFORGE_POSITION_DEGREES];
static double latitudes[ROOM], longitudes[ROOM], initial_latitudes[ROOM], initial_longitudes[ROOM];

static void nothing(void) {}
static void open_map(void) { refusal = mapsforge_open(map, len, starts, ROOM, letters, ROOM, header, degrees, layout); }
static void find_interval(void) { refusal = mapsforge_interval(map, len, layout, sub_file, words, interval); }
static void find_sub_file(void) { refusal = mapsforge_sub_file(map, len, layout, ZOOM, words); }
static void tag(void) {
    size_t first = (size_t)layout[MAPSFORGE_LAYOUT_POINT_TAG_COUNT], count = (size_t)layout[MAPSFORGE_LAYOUT_WAY_TAG_COUNT];
    refusal = mapsforge_tag(map, len, starts, ROOM, letters, ROOM, first, count, count - 1, words);
}
static void text(void) {
    static const uint8_t longest[] = {0xf0, 0x9f, 0x98, 0x80, 0xf0, 0x9f, 0x98};
    refusal = mapsforge_text(longest, sizeof longest, buffer, ROOM, words);
}
static void tile_count(void) { refusal = mapsforge_tile_count(interval, MAPSFORGE_CORNERS(grid), words); }
static void tile_index(void) { refusal = mapsforge_tile_index(interval, MAPSFORGE_CORNERS(grid), grid.x_max, grid.y_max, words); }
static void index_entry(void) { refusal = mapsforge_index_entry(map, len, layout, interval, MAPSFORGE_CORNERS(grid), tile, words); }
static void column(void) { refusal = mapsforge_column(degrees[MAPSFORGE_OPEN_EAST], 13, words, signed_words); }
static void longitude(void) { refusal = mapsforge_longitude(4096, 13, words, place); }
static void window_count(void) { refusal = mapsforge_window_count(MAPSFORGE_CORNERS(grid), INT64_MIN, INT64_MIN, INT64_MAX, INT64_MAX, words); }
static void window_tile(void) {
    refusal = mapsforge_window_tile(MAPSFORGE_CORNERS(grid), INT64_MIN, INT64_MIN, INT64_MAX, INT64_MAX, tile, words, signed_words);
}
static void shares_cell(void) { refusal = mapsforge_shares_cell(0xff00, 0x00ff) ? 1 : 0; }
static void stream_open(void) {
    refusal = mapsforge_stream_open(map, len, layout, interval, sub_file, MAPSFORGE_CORNERS(grid), tile, ZOOM, state, words);
}
static void stream_next(void) {
    refusal = mapsforge_stream_next(map, len, layout, letters, ROOM, state, words, signed_words, place, ids);
}
/* No way is in the window, so that it declines all. */
static void stream_next_selected(void) {
    uint64_t select[MAPSFORGE_SELECT_WORDS] = {1, 0, 1, ZOOM};
    refusal = mapsforge_stream_next_selected(map, len, layout, letters, ROOM, select, classes, ROOM, state, words, signed_words, place, ids);
}
static void stream_accept(void) {
    refusal = mapsforge_stream_accept(map, len, state, counts, ROOM, latitudes, ROOM, longitudes, ROOM, words, place);
}
static void stream_decline(void) { refusal = mapsforge_stream_decline(state, words); }
static void stream_skip(void) {
    refusal = mapsforge_stream_skip(map, len, layout, letters, ROOM, state, words, signed_words, place, ids);
}
static void collect(void) {
    refusal = mapsforge_collect(map, len, layout, letters, ROOM, interval, MAPSFORGE_CORNERS(grid), tile, words, points, ways, places, ROOM);
}
static void fetch(void) {
    refusal = mapsforge_fetch(map, len, layout, starts, ROOM, letters, ROOM, places, ROOM, point_count, way_count, feature, counts, ROOM,
                              latitudes, ROOM, longitudes, ROOM, initial_latitudes, ROOM, initial_longitudes, ROOM, buffer, ROOM, words,
                              signed_words, place, ids, tags);
}
/* Two nodes in one block. */
static const uint8_t way[] = {1, 2, 1, 1, 2, 2};
static void measure_way_data(void) { refusal = mapsforge_measure_way_data(way, sizeof way, 0, 1, words); }
static void read_way_data(void) {
    refusal = mapsforge_read_way_data(way, sizeof way, 0, 1, true, counts, ROOM, latitudes, ROOM, longitudes, ROOM, words);
}

/* All zooms of each way tag are shown. */
static void check_rules(void) {
    size_t tags = (size_t)layout[MAPSFORGE_LAYOUT_WAY_TAG_COUNT];
    for (size_t tag = 0; tag < tags; tag++) {
        uint8_t rule[MAPSFORGE_RULE_BYTES] = {(uint8_t)(tag >> 8), (uint8_t)tag, 0x07, 0xc1};
        memcpy(rules + sizeof rule * tag, rule, sizeof rule);
    }
    refusal = mapsforge_check_rules(rules, tags * MAPSFORGE_RULE_BYTES, (uint16_t)tags, classes, ROOM, words);
}
static void shows(void) { refusal = mapsforge_shows(classes, ROOM, ZOOM, ids, MAPSFORGE_MAX_TAGS, words); }

/* All ways are accepted. */
static void wanted(void) {
    memset(decisions, 1, ROOM);
    refusal = mapsforge_wanted(map, len, layout, letters, ROOM, interval, MAPSFORGE_CORNERS(grid), tile, ZOOM, decisions, ROOM, words);
}

/* The most that a call took. */
static struct call {
    const char *name;
    void (*run)(void);
    size_t most;
} calls[] = {
    {"open", open_map, 0},
    {"interval", find_interval, 0},
    {"sub_file", find_sub_file, 0},
    {"tag", tag, 0},
    {"text", text, 0},
    {"tile_count", tile_count, 0},
    {"tile_index", tile_index, 0},
    {"index_entry", index_entry, 0},
    {"column", column, 0},
    {"longitude", longitude, 0},
    {"window_count", window_count, 0},
    {"window_tile", window_tile, 0},
    {"shares_cell", shares_cell, 0},
    {"stream_open", stream_open, 0},
    {"stream_next", stream_next, 0},
    {"stream_accept", stream_accept, 0},
    {"stream_next_selected", stream_next_selected, 0},
    {"stream_decline", stream_decline, 0},
    {"stream_skip", stream_skip, 0},
    {"collect", collect, 0},
    {"fetch", fetch, 0},
    {"measure_way_data", measure_way_data, 0},
    {"read_way_data", read_way_data, 0},
    {"check_rules", check_rules, 0},
    {"shows", shows, 0},
    {"wanted", wanted, 0},
};
enum { CALLS = sizeof calls / sizeof *calls };

/* How much of a stack that nobody has touched is touched by what runs on it. */
static uint8_t stack[STACK];
static ucontext_t here, there;
static void (*running)(void);
static void start(void) { running(); }
static size_t touched(void (*run)(void)) {
    size_t k = 0;
    memset(stack, UNTOUCHED, STACK);
    running = run;
    getcontext(&there);
    there.uc_stack.ss_sp = stack;
    there.uc_stack.ss_size = STACK;
    there.uc_link = &here;
    makecontext(&there, start, 0);
    swapcontext(&here, &there);
    while (k < STACK && stack[k] == UNTOUCHED) {
        k++;
    }
    return STACK - k;
}

/* Makes a call, which must not be refused here, and measures it if so asked. */
static bool measuring;
static void call(void (*run)(void)) {
    size_t k = 0, took = 0;
    if (measuring) {
        took = touched(run);
    } else {
        run();
    }
    while (calls[k].run != run) {
        k++;
    }
    if (refusal != 0) {
        fprintf(stderr, "%s: refused with %d\n", calls[k].name, (int)refusal);
        exit(1);
    }
    calls[k].most = took > calls[k].most ? took : calls[k].most;
}

static void walk_stream(void) {
    uint64_t waiting[MAPSFORGE_STATE_WORDS];
    call(wanted);
    call(stream_open);
    memcpy(waiting, state, sizeof state);
    call(stream_next_selected);
    memcpy(state, waiting, sizeof state);
    for (call(stream_next); words[MAPSFORGE_NEXT_KIND] != MAPSFORGE_END; call(stream_next)) {
        if (words[MAPSFORGE_NEXT_KIND] == MAPSFORGE_WAY) {
            memcpy(waiting, state, sizeof state);
            call(stream_decline);
            memcpy(state, waiting, sizeof state);
            call(stream_skip);
            memcpy(state, waiting, sizeof state);
            call(stream_accept);
        }
    }
}

static void walk_tile(void) {
    call(index_entry);
    call(window_tile);
    call(collect);
    point_count = words[MAPSFORGE_COLLECT_POINTS];
    way_count = words[MAPSFORGE_COLLECT_WAYS];
    for (feature = 0; feature < point_count + way_count; feature++) {
        call(fetch);
    }
    walk_stream();
}

static void *walk(void *unused) {
    call(open_map);
    call(find_sub_file);
    call(tag);
    call(text);
    call(column);
    call(longitude);
    call(measure_way_data);
    call(read_way_data);
    call(check_rules);
    call(shows);
    for (sub_file = 0; sub_file < header[MAPSFORGE_OPEN_SUB_FILES]; sub_file++) {
        call(find_interval);
        mapsforge_grid_of_sub_file(degrees, interval, &grid);
        call(tile_count);
        call(tile_index);
        call(window_count);
        call(shares_cell);
        for (tile = 0; tile < mapsforge_grid_tiles(&grid); tile++) {
            walk_tile();
        }
    }
    return unused;
}

static void walk_in_a_thread(void) {
    pthread_t thread;
    pthread_attr_t small;
    if (pthread_attr_init(&small) != 0 || pthread_attr_setstacksize(&small, MAPSFORGE_STACK) != 0 ||
        pthread_create(&thread, &small, walk, NULL) != 0 || pthread_join(thread, NULL) != 0) {
        exit(1);
    }
}

int main(int argc, char **argv) {
    FILE *file = argc == 2 ? fopen(argv[1], "rb") : NULL;
    if (file == NULL) {
        return 1;
    }
    len = fread(map, 1, BYTES, file);
    walk_in_a_thread();
    measuring = true;
    walk(NULL);
    size_t own = touched(nothing);
    for (size_t k = 0; k < CALLS; k++) {
        printf("mapsforge_%s %zu\n", calls[k].name, calls[k].most - own);
    }
    return 0;
}
