/* The tiles of a map: the grid of a sub file, the tile of a position, the corner of a tile. Small functions over mapsforge.h, which says
 * what a grid is. They need the C library's mathematics (-lm).
 *
 * Those that can be refused give 0, or MAPSFORGE_ZOOM_TOO_LARGE for a zoom above 63, and then write nothing. All of them give what the Rust
 * wrapper gives (host/src/grid.rs), bit for bit, which a test holds them to; but not if they are compiled with -ffast-math. */
#ifndef MAPSFORGE_GRID_H
#define MAPSFORGE_GRID_H

#include "mapsforge.h"

#include <math.h>

/* Columns x_min to x_max and rows y_min to y_max of the base zoom, both ends included; y_min is the northernmost. */
typedef struct mapsforge_grid {
    int32_t x_min;
    int32_t y_min;
    int32_t x_max;
    int32_t y_max;
} mapsforge_grid;

/* A grid as four arguments: mapsforge_tile_count(interval, MAPSFORGE_CORNERS(grid), words). */
#define MAPSFORGE_CORNERS(grid) (grid).x_min, (grid).y_min, (grid).x_max, (grid).y_max

/* The latitude in degrees at which the rows end: beyond it tangent and logarithm no longer tell the row. */
#define MAPSFORGE_LATITUDE_LIMIT 85.05112877980659
#define MAPSFORGE_PI 3.14159265358979323846

/* The last column, and row, of a zoom up to 63, as far as it fits 32 bits. */
static inline int32_t mapsforge_grid_last(uint8_t zoom) {
    return zoom > 30 ? INT32_MAX : (int32_t)(((uint32_t)1 << zoom) - 1);
}

/* The column that a longitude lies in, clamped: 180 degrees east is in the last one. */
static inline uint64_t mapsforge_grid_column(double longitude, uint8_t zoom, int32_t *column) {
    uint64_t words[MAPSFORGE_VALUES];
    int64_t found;
    uint64_t refusal = mapsforge_column(longitude, zoom, words, &found);
    if (refusal == 0) {
        int32_t last = mapsforge_grid_last(zoom);
        *column = found < 0 ? 0 : found > last ? last : (int32_t)found;
    }
    return refusal;
}

/* The row that a latitude lies in, clamped: the poles are in the first and the last one. Of a NaN it is 0, as the column. */
static inline uint64_t mapsforge_grid_row(double latitude, uint8_t zoom, int32_t *row) {
    if (zoom > 63) {
        return MAPSFORGE_ZOOM_TOO_LARGE;
    }
    int32_t last = mapsforge_grid_last(zoom);
    if (latitude >= MAPSFORGE_LATITUDE_LIMIT) {
        *row = 0;
        return 0;
    }
    if (latitude <= -MAPSFORGE_LATITUDE_LIMIT) {
        *row = last;
        return 0;
    }
    double radians = latitude * MAPSFORGE_PI / 180.0;
    double down = (1.0 - log(tan(radians) + 1.0 / cos(radians)) / MAPSFORGE_PI) / 2.0 * (double)((uint64_t)1 << zoom);
    /* What does not fit is kept from the cast, which C leaves undefined there. */
    *row = !(down > 0.0) ? 0 : down >= (double)last ? last : (int32_t)down;
    return 0;
}

/* The latitude at which a row starts: its northern edge. (mapsforge_longitude has a column's western edge.) */
static inline uint64_t mapsforge_grid_latitude(uint32_t row, uint8_t zoom, double *latitude) {
    if (zoom > 63) {
        return MAPSFORGE_ZOOM_TOO_LARGE;
    }
    double turned = MAPSFORGE_PI - 2.0 * MAPSFORGE_PI * (double)row / (double)((uint64_t)1 << zoom);
    *latitude = atan(sinh(turned)) * 180.0 / MAPSFORGE_PI;
    return 0;
}

/* The tiles of a zoom that a box touches. box: south, west, north, east, as the first four degrees of mapsforge_open. */
static inline uint64_t mapsforge_grid_of_box(const double box[4], uint8_t zoom, mapsforge_grid *grid) {
    mapsforge_grid found = {0, 0, 0, 0};
    uint64_t refusal = mapsforge_grid_column(box[MAPSFORGE_OPEN_WEST], zoom, &found.x_min);
    if (refusal != 0) {
        return refusal;
    }
    /* What follows is refused only for the zoom, too. */
    mapsforge_grid_column(box[MAPSFORGE_OPEN_EAST], zoom, &found.x_max);
    mapsforge_grid_row(box[MAPSFORGE_OPEN_NORTH], zoom, &found.y_min);
    mapsforge_grid_row(box[MAPSFORGE_OPEN_SOUTH], zoom, &found.y_max);
    *grid = found;
    return 0;
}

/* The grid of a sub file: degrees as mapsforge_open gave them, interval as mapsforge_interval gave it of one that is there. */
static inline uint64_t mapsforge_grid_of_sub_file(const double degrees[6], const uint64_t interval[6], mapsforge_grid *grid) {
    return mapsforge_grid_of_box(degrees, (uint8_t)interval[MAPSFORGE_INTERVAL_BASE_ZOOM], grid);
}

/* How many columns and rows a grid has, 0 in a reversed one, and how many tiles; 2^64 - 1 stands for 2^64. */
static inline uint64_t mapsforge_grid_columns(const mapsforge_grid *grid) {
    return grid->x_max < grid->x_min ? 0 : (uint64_t)((int64_t)grid->x_max - grid->x_min) + 1;
}

static inline uint64_t mapsforge_grid_rows(const mapsforge_grid *grid) {
    return grid->y_max < grid->y_min ? 0 : (uint64_t)((int64_t)grid->y_max - grid->y_min) + 1;
}

static inline uint64_t mapsforge_grid_tiles(const mapsforge_grid *grid) {
    uint64_t columns = mapsforge_grid_columns(grid), rows = mapsforge_grid_rows(grid);
    return rows != 0 && columns > UINT64_MAX / rows ? UINT64_MAX : columns * rows;
}

/* The number of the tile in column x and row y, if the grid has it. */
static inline bool mapsforge_grid_number(const mapsforge_grid *grid, int32_t x, int32_t y, uint64_t *tile) {
    if (x < grid->x_min || x > grid->x_max || y < grid->y_min || y > grid->y_max) {
        return false;
    }
    *tile = (uint64_t)((int64_t)y - grid->y_min) * mapsforge_grid_columns(grid) + (uint64_t)((int64_t)x - grid->x_min);
    return true;
}

/* The column and the row of the tile with this number, if the grid has it. */
static inline bool mapsforge_grid_place(const mapsforge_grid *grid, uint64_t tile, int32_t *x, int32_t *y) {
    uint64_t columns = mapsforge_grid_columns(grid);
    if (tile >= mapsforge_grid_tiles(grid)) {
        return false;
    }
    *x = (int32_t)(grid->x_min + (int64_t)(tile % columns));
    *y = (int32_t)(grid->y_min + (int64_t)(tile / columns));
    return true;
}

/* The north-western corner of the tile in column x and row y, to which the positions of its features are added. corner: latitude,
 * longitude. */
static inline uint64_t mapsforge_grid_corner(int32_t x, int32_t y, uint8_t zoom, double corner[2]) {
    uint64_t words[MAPSFORGE_VALUES];
    uint64_t refusal = mapsforge_grid_latitude((uint32_t)y, zoom, &corner[MAPSFORGE_LATITUDE]);
    if (refusal == 0) {
        refusal = mapsforge_longitude((uint32_t)x, zoom, words, &corner[MAPSFORGE_LONGITUDE]);
    }
    return refusal;
}

#endif
