/* Prints some words of a map, for tests/header.rs. */
#include "mapsforge.h"
#include "mapsforge_grid.h"

#include <inttypes.h>
#include <stdio.h>
#include <stdlib.h>

enum { SUB_FILE = 2, TILE = 10, ZOOM = 13, ROOM = 4096 };

static void check(const char *call, uint64_t refusal) {
    if (refusal != 0) {
        fprintf(stderr, "%s: refused with %" PRIu64 "\n", call, refusal);
        exit(1);
    }
}

/* The bytes of a file. */
static uint8_t *content(const char *path, size_t *len) {
    FILE *file = fopen(path, "rb");
    if (file == NULL || fseek(file, 0, SEEK_END) != 0) {
        exit(1);
    }
    long size = ftell(file);
    rewind(file);
    uint8_t *bytes = malloc((size_t)size + 1);
    if (bytes == NULL || fread(bytes, 1, (size_t)size, file) != (size_t)size) {
        exit(1);
    }
    fclose(file);
    *len = (size_t)size;
    return bytes;
}

int main(int argc, char **argv) {
    size_t len = 0;
    if (argc != 2) {
        return 1;
    }
    uint8_t *map = content(argv[1], &len);
    uint64_t words[MAPSFORGE_OPEN_WORDS], layout[MAPSFORGE_LAYOUT_WORDS];
    double degrees[MAPSFORGE_OPEN_DEGREES];

    /* Empty lists, of which the addresses are not null; then lists as long as refusal 15 says. */
    uint64_t none = 0;
    uint8_t nothing = 0;
    if (mapsforge_open(map, len, &none, 0, &nothing, 0, words, degrees, layout) != MAPSFORGE_TOO_SHORT) {
        return 1;
    }
    size_t tags_len = (size_t)words[MAPSFORGE_NEEDED_STARTS], letters_len = (size_t)words[MAPSFORGE_NEEDED_LETTERS];
    uint64_t *starts = malloc(tags_len * sizeof *starts);
    uint8_t *letters = malloc(letters_len);
    if (starts == NULL || letters == NULL) {
        return 1;
    }
    check("open", mapsforge_open(map, len, starts, tags_len, letters, letters_len, words, degrees, layout));
    printf("listed %zu and %zu tags\n", tags_len, letters_len);
    printf("version %" PRIu64 "\n", words[MAPSFORGE_OPEN_VERSION]);
    printf("size %" PRIu64 "\n", words[MAPSFORGE_OPEN_FILE_SIZE]);
    printf("south %.17g\n", degrees[MAPSFORGE_OPEN_SOUTH]);
    printf("sub files %" PRIu64 "\n", words[MAPSFORGE_OPEN_SUB_FILES]);

    /* What the calls about tiles take in place of the map's header. */
    uint64_t refused[MAPSFORGE_VALUES], interval[MAPSFORGE_INTERVAL_WORDS], count[MAPSFORGE_TILE_COUNT_WORDS];
    mapsforge_grid grid;
    check("interval", mapsforge_interval(map, len, layout, SUB_FILE, refused, interval));
    check("grid", mapsforge_grid_of_sub_file(degrees, interval, &grid));
    check("tile_count", mapsforge_tile_count(interval, MAPSFORGE_CORNERS(grid), count));
    printf("columns %" PRId32 " to %" PRId32 ", rows %" PRId32 " to %" PRId32 "\n", grid.x_min, grid.x_max, grid.y_min, grid.y_max);
    printf("base zoom %" PRIu64 ", %" PRIu64 " tiles\n", interval[MAPSFORGE_INTERVAL_BASE_ZOOM], count[MAPSFORGE_TILE_COUNT_TILES]);

    /* An empty list says how many features there are. */
    static uint64_t places[ROOM];
    uint64_t tile[MAPSFORGE_COLLECT_WORDS], points[MAPSFORGE_MAX_ROWS], ways[MAPSFORGE_MAX_ROWS];
    printf("too short %d\n", mapsforge_collect(map, len, layout, letters, letters_len, interval, MAPSFORGE_CORNERS(grid), TILE, tile, points, ways,
                                              places, 0) == MAPSFORGE_TOO_SHORT);
    printf("needs %" PRIu64 " places\n", tile[MAPSFORGE_NEEDED_PLACES]);
    check("collect", mapsforge_collect(map, len, layout, letters, letters_len, interval, MAPSFORGE_CORNERS(grid), TILE, tile, points, ways,
                                       places, ROOM));
    printf("tile %" PRIu64 " points, %" PRIu64 " ways, exact %" PRIu64 ", plain %" PRIu64 "\n", tile[MAPSFORGE_COLLECT_POINTS],
           tile[MAPSFORGE_COLLECT_WAYS], tile[MAPSFORGE_COLLECT_EXACT], tile[MAPSFORGE_COLLECT_PLAIN]);
    printf("row 0: %" PRIu64 "+%" PRIu64 "\n", points[0], ways[0]);

    /* The texts of the first feature: its tags, then its name. */
    static double latitudes[ROOM], longitudes[ROOM], initial_latitudes[ROOM], initial_longitudes[ROOM];
    static uint64_t counts[ROOM];
    uint64_t fetched[MAPSFORGE_FETCH_WORDS], ids[MAPSFORGE_MAX_TAGS], tags[MAPSFORGE_MAX_TAGS * MAPSFORGE_STRING_WORDS];
    int64_t signed_words[MAPSFORGE_SIGNED_WORDS];
    double position[MAPSFORGE_POSITION_DEGREES];
    uint8_t buffer[ROOM];
    check("fetch", mapsforge_fetch(map, len, layout, starts, tags_len, letters, letters_len, places, ROOM, tile[MAPSFORGE_COLLECT_POINTS],
                                   tile[MAPSFORGE_COLLECT_WAYS], 0, counts, ROOM, latitudes, ROOM, longitudes, ROOM, initial_latitudes, ROOM, initial_longitudes, ROOM, buffer,
                                   ROOM, fetched, signed_words, position, ids, tags));
    const char *text = (const char *)buffer;
    for (uint64_t k = 0; k < fetched[MAPSFORGE_FETCH_TAG_COUNT]; k++) {
        uint64_t size = tags[k * MAPSFORGE_STRING_WORDS + MAPSFORGE_STRING_SIZE];
        printf("tag %.*s\n", (int)size, text);
        text += size;
    }
    printf("name %.*s\n", (int)fetched[MAPSFORGE_FETCH_NAME + MAPSFORGE_STRING_SIZE], text);

    /* Accepts each way by lists that are long enough; counts the nodes. */
    uint64_t state[MAPSFORGE_STATE_WORDS], nodes = 0, heads = 0, kind = MAPSFORGE_POINT, plain = 0;
    check("stream_open", mapsforge_stream_open(map, len, layout, interval, SUB_FILE, MAPSFORGE_CORNERS(grid), TILE, ZOOM, state, refused));
    while (kind != MAPSFORGE_END) {
        uint64_t next[MAPSFORGE_NEXT_WORDS], body[MAPSFORGE_ACCEPT_WORDS];
        double label[MAPSFORGE_POSITION_DEGREES];
        check("stream_next", mapsforge_stream_next(map, len, layout, letters, letters_len, state, next, signed_words, position, ids));
        kind = next[MAPSFORGE_NEXT_KIND];
        plain = next[MAPSFORGE_NEXT_PLAIN];
        if (kind != MAPSFORGE_WAY) {
            continue;
        }
        heads += 1;
        check("stream_accept", mapsforge_stream_accept(map, len, state, counts, ROOM, latitudes, ROOM, longitudes, ROOM, body, label));
        nodes += body[MAPSFORGE_ACCEPT_NODES];
    }
    printf("streamed %" PRIu64 " ways, %" PRIu64 " nodes, plain %" PRIu64 "\n", heads, nodes, plain);
    printf("out of turn %d\n", mapsforge_stream_decline(state, refused) == MAPSFORGE_OUT_OF_TURN);
    free(letters);
    free(starts);
    free(map);
    return 0;
}
