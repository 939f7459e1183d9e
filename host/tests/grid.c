/* Grids by mapsforge_grid.h, for tests/c.rs, which says the same by the wrapper. A line of the input is `box`, south, west, north, east
 * (the bits of each in base 16), zoom; or `grid`, x_min, y_min, x_max, y_max, zoom. */
#include "mapsforge_grid.h"

#include <inttypes.h>
#include <stdio.h>
#include <string.h>

static uint64_t bits(double number) {
    uint64_t word;
    memcpy(&word, &number, sizeof word);
    return word;
}

/* A tile by its number: its place, the number that this place has, and its corner. */
static void print_tile(const mapsforge_grid *grid, uint8_t zoom, uint64_t tile) {
    int32_t x, y;
    uint64_t back = 0;
    double corner[MAPSFORGE_POSITION_DEGREES] = {0.0, 0.0};
    if (!mapsforge_grid_place(grid, tile, &x, &y)) {
        printf(" | none");
        return;
    }
    bool there = mapsforge_grid_number(grid, x, y, &back);
    uint64_t refusal = mapsforge_grid_corner(x, y, zoom, corner);
    printf(" | %" PRId32 " %" PRId32 " %d %" PRIu64 " %" PRIu64, x, y, there, back, refusal);
    printf(" %" PRIx64 " %" PRIx64, bits(corner[MAPSFORGE_LATITUDE]), bits(corner[MAPSFORGE_LONGITUDE]));
}

/* Whether a place is in the grid, if it is one. */
static bool in_grid(const mapsforge_grid *grid, int64_t x, int64_t y) {
    uint64_t tile;
    bool place = x >= INT32_MIN && x <= INT32_MAX && y >= INT32_MIN && y <= INT32_MAX;
    return place && mapsforge_grid_number(grid, (int32_t)x, (int32_t)y, &tile);
}

static void print_grid(mapsforge_grid grid, uint8_t zoom) {
    uint64_t tiles = mapsforge_grid_tiles(&grid);
    printf("%" PRId32 " %" PRId32 " %" PRId32 " %" PRId32, MAPSFORGE_CORNERS(grid));
    printf(" %" PRIu64 " %" PRIu64 " %" PRIu64, mapsforge_grid_columns(&grid), mapsforge_grid_rows(&grid), tiles);
    print_tile(&grid, zoom, 0);
    print_tile(&grid, zoom, tiles / 3);
    print_tile(&grid, zoom, tiles - 1);
    print_tile(&grid, zoom, tiles);
    /* Beside it on each side. */
    bool west = in_grid(&grid, (int64_t)grid.x_min - 1, grid.y_min), north = in_grid(&grid, grid.x_max, (int64_t)grid.y_min - 1);
    bool east = in_grid(&grid, (int64_t)grid.x_max + 1, grid.y_max), south = in_grid(&grid, grid.x_min, (int64_t)grid.y_max + 1);
    printf(" | %d%d%d%d\n", west, north, east, south);
}

static void print_box(const double box[4], uint8_t zoom) {
    mapsforge_grid grid;
    int32_t row;
    double latitude;
    uint64_t refusal = mapsforge_grid_of_box(box, zoom, &grid);
    if (refusal == 0) {
        print_grid(grid, zoom);
        return;
    }
    uint64_t of_row = mapsforge_grid_row(box[MAPSFORGE_OPEN_NORTH], zoom, &row);
    uint64_t of_latitude = mapsforge_grid_latitude(0, zoom, &latitude);
    printf("refused with %" PRIu64 ", %" PRIu64 ", %" PRIu64 "\n", refusal, of_row, of_latitude);
}

int main(void) {
    uint64_t words[4];
    mapsforge_grid grid;
    unsigned zoom;
    char kind[8];
    while (scanf("%7s", kind) == 1) {
        if (strcmp(kind, "box") == 0) {
            double box[4];
            if (scanf("%" SCNx64 "%" SCNx64 "%" SCNx64 "%" SCNx64 "%u", &words[0], &words[1], &words[2], &words[3], &zoom) != 5) {
                return 1;
            }
            memcpy(box, words, sizeof box);
            print_box(box, (uint8_t)zoom);
        } else {
            if (scanf("%" SCNd32 "%" SCNd32 "%" SCNd32 "%" SCNd32 "%u", &grid.x_min, &grid.y_min, &grid.x_max, &grid.y_max, &zoom) != 5) {
                return 1;
            }
            print_grid(grid, (uint8_t)zoom);
        }
    }
    return 0;
}
