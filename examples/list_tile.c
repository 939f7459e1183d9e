/* Streams the tile at a position and lists the names in it: list_tile MAP ZOOM LATITUDE LONGITUDE. C99, and C++ too.
 *
 *     gcc -Iinclude examples/list_tile.c target/staticlib/libmapsforge.a -lm -o list_tile */
#include "mapsforge.h"
#include "mapsforge_grid.h"

#include <stdio.h>
#include <stdlib.h>
#include <string.h>

/* Room for a map of 64 MB, for the lists of its tags, which are kept beside it (those of any map fit), and for a decision on each of a
 * tile's ways. */
enum { BYTES = 1 << 26, WAYS = 1 << 20, TAGS = MAPSFORGE_MOST_ENTRIES };
static uint8_t map[BYTES], letters[TAGS], decisions[WAYS];
static uint64_t starts[TAGS];

static void check(const char *call, uint64_t refusal) {
    if (refusal != 0) {
        fprintf(stderr, "%s: refused with %d\n", call, (int)refusal);
        exit(1);
    }
}

/* Prints a name, if there is one. It is a part of the map; names in other languages stand behind a carriage return. */
static void print_name(const char *kind, const uint64_t *part) {
    const char *name = (const char *)map + part[MAPSFORGE_PART_PLACE];
    int size = 0;
    while (size < (int)part[MAPSFORGE_PART_SIZE] && name[size] != '\r') {
        size++;
    }
    if (part[MAPSFORGE_PART_THERE] != 0) {
        printf("%s %.*s\n", kind, size, name);
    }
}

int main(int argc, char **argv) {
    FILE *file = argc == 5 ? fopen(argv[1], "rb") : NULL;
    if (file == NULL) {
        return 2;
    }
    size_t len = fread(map, 1, BYTES, file);
    uint8_t zoom = (uint8_t)atoi(argv[2]);

    /* What tiles need of the header, and the sub file that has the zoom. Without one the interval stays zeros, and the stream will be
     * refused with 8. */
    uint64_t header[MAPSFORGE_OPEN_WORDS], layout[MAPSFORGE_LAYOUT_WORDS], found[MAPSFORGE_SUB_FILE_WORDS];
    uint64_t interval[MAPSFORGE_INTERVAL_WORDS] = {0}, values[MAPSFORGE_VALUES];
    double degrees[MAPSFORGE_OPEN_DEGREES];
    check("open", mapsforge_open(map, len, starts, TAGS, letters, TAGS, header, degrees, layout));
    check("sub_file", mapsforge_sub_file(map, len, layout, zoom, found));
    size_t sub_file = found[MAPSFORGE_SUB_FILE_THERE] ? found[MAPSFORGE_SUB_FILE_NUMBER] : SIZE_MAX;
    check("interval", mapsforge_interval(map, len, layout, sub_file, values, interval));

    /* The grid, and in it the tile of the position. If it has none, the stream will be refused with 8, too. */
    mapsforge_grid grid;
    int32_t x, y;
    uint64_t tile = UINT64_MAX;
    uint8_t base_zoom = (uint8_t)interval[MAPSFORGE_INTERVAL_BASE_ZOOM];
    check("grid", mapsforge_grid_of_sub_file(degrees, interval, &grid));
    check("column", mapsforge_grid_column(atof(argv[4]), base_zoom, &x));
    check("row", mapsforge_grid_row(atof(argv[3]), base_zoom, &y));
    mapsforge_grid_number(&grid, x, y, &tile);

    /* Points, then ways, each of which waits until it is accepted or declined. */
    uint64_t state[MAPSFORGE_STATE_WORDS], next[MAPSFORGE_NEXT_WORDS], body[MAPSFORGE_ACCEPT_WORDS], ids[MAPSFORGE_MAX_TAGS];
    int64_t numbers[MAPSFORGE_SIGNED_WORDS];
    double position[MAPSFORGE_POSITION_DEGREES], label[MAPSFORGE_POSITION_DEGREES];
    check("stream", mapsforge_stream_open(map, len, layout, interval, sub_file, MAPSFORGE_CORNERS(grid), tile, zoom, state, values));

    /* All ways are accepted: how many blocks and nodes each of them has at the most. With lists of these lengths none is refused with 15. */
    uint64_t wanted[MAPSFORGE_WANTED_WORDS];
    memset(decisions, 1, WAYS);
    check("wanted", mapsforge_wanted(map, len, layout, letters, TAGS, interval, MAPSFORGE_CORNERS(grid), tile, zoom, decisions, WAYS, wanted));
    size_t blocks = wanted[MAPSFORGE_WANTED_BLOCKS], nodes = wanted[MAPSFORGE_WANTED_NODES];
    uint64_t *counts = (uint64_t *)calloc(blocks + 1, sizeof(uint64_t));
    double *latitudes = (double *)calloc(nodes + 1, sizeof(double)), *longitudes = (double *)calloc(nodes + 1, sizeof(double));
    if (counts == NULL || latitudes == NULL || longitudes == NULL) {
        return 2;
    }
    do {
        check("next", mapsforge_stream_next(map, len, layout, letters, TAGS, state, next, numbers, position, ids));
        if (next[MAPSFORGE_NEXT_KIND] == MAPSFORGE_POINT) {
            print_name("point", next + MAPSFORGE_NEXT_NAME);
        } else if (next[MAPSFORGE_NEXT_KIND] == MAPSFORGE_WAY) {
            check("accept", mapsforge_stream_accept(map, len, state, counts, blocks, latitudes, nodes, longitudes, nodes, body, label));
            print_name("way", body + MAPSFORGE_ACCEPT_NAME);
        }
    } while (next[MAPSFORGE_NEXT_KIND] != MAPSFORGE_END);

    /* The end says of all that was read whether its numbers are as short as they can be. */
    if (!next[MAPSFORGE_NEXT_PLAIN]) {
        printf("some numbers waste bytes\n");
    }
    free(counts);
    free(latitudes);
    free(longitudes);
    return 0;
}
