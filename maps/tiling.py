"""Lays features into the tiles of a sub file: the grid, the zoom rows and the sub-tile bitmaps.

Positions are pairs of latitude and longitude in whole microdegrees.
"""

import math
from dataclasses import dataclass
from typing import NamedTuple, Optional

MICRO = 1_000_000
CELLS = 4  # sub tiles along a side of a tile; they are the tiles two zoom levels deeper
ALL_CELLS = 0xFFFF


# Features


@dataclass
class Point:
    """A point; a tag is a text, or a pair of a text such as `ele=%i` and a value."""

    zoom: int  # the lowest level that shows it
    position: tuple
    tags: tuple = ()
    name: Optional[str] = None
    house_number: Optional[str] = None
    elevation: Optional[int] = None
    layer: int = 0
    number: int = 0  # for the debug signature

    def box(self):
        return self.position, self.position


@dataclass
class Way:
    """A way; its data blocks are lists of coordinate blocks, those are lists of positions."""

    zoom: int
    data_blocks: list
    tags: tuple = ()
    name: Optional[str] = None
    house_number: Optional[str] = None
    reference: Optional[str] = None
    label: Optional[tuple] = None
    layer: int = 0
    area: bool = False
    coast: bool = False
    number: int = 0

    def blocks(self):
        return [block for blocks in self.data_blocks for block in blocks]

    def box(self):
        return enclosing([node for block in self.blocks() for node in block])


def enclosing(pairs):
    """The least and the greatest corner of the rectangle around some pairs."""
    return tuple(map(min, zip(*pairs))), tuple(map(max, zip(*pairs)))


# Tile numbers


def column(lon, zoom):
    return int(2**zoom * (lon / MICRO + 180) / 360)


def row(lat, zoom):
    angle = math.radians(lat / MICRO)
    return int((1 - math.log(math.tan(angle) + 1 / math.cos(angle)) / math.pi) / 2 * 2**zoom)


class Grid(NamedTuple):
    """The first and last columns and rows of some tiles."""

    x_min: int
    y_min: int
    x_max: int
    y_max: int

    def places(self):
        """Column and row of each tile, row by row."""
        return [(x, y) for y in range(self.y_min, self.y_max + 1)
                for x in range(self.x_min, self.x_max + 1)]


def grid_of(box, zoom):
    """The tiles that a box touches; rows are counted from the north."""
    (south, west), (north, east) = box
    return Grid(column(west, zoom), row(north, zoom), column(east, zoom), row(south, zoom))


# Tiles


class Tile:
    """A tile with the points and ways of each row of its zoom table."""

    def __init__(self, x, y, zoom, levels):
        self.x, self.y, self.zoom = x, y, zoom
        self.rows = [([], []) for _ in range(levels)]

    def ways(self):
        return [way for _, ways in self.rows for way in ways]

    def only_sea(self):
        """No coast may reach into it."""
        return not any(way.coast for way in self.ways())

    def corner(self):
        """The position of the top left corner."""
        lat = math.degrees(math.atan(math.sinh(math.pi * (1 - 2 * self.y / 2**self.zoom))))
        lon = self.x / 2**self.zoom * 360 - 180
        return round(lat * MICRO), round(lon * MICRO)


class SubFile(NamedTuple):
    """The tiles of a zoom interval, row by row."""

    grid: Grid
    tiles: list


def lay_out(interval, box, points, ways):
    """The sub file of an interval with the features in a box that the interval shows."""
    grid = grid_of(box, interval.base)
    levels = interval.high - interval.low + 1
    tiles = {place: Tile(*place, interval.base, levels) for place in grid.places()}
    for kind, features in enumerate((points, ways)):
        for feature in features:
            if feature.zoom <= interval.high:
                level = max(feature.zoom, interval.low) - interval.low
                for place in grid_of(feature.box(), interval.base).places():
                    tiles[place].rows[level][kind].append(feature)
    return SubFile(grid, list(tiles.values()))


# Sub-tile bitmaps


def bitmap(way, tile):
    """The cells of a tile that a way touches, bit 15 for the top left one.

    A line is taken to touch all cells between two neighbouring nodes, an area all those of its box.
    The format asks for all cells of the tile if the way is a coast.
    """
    if way.coast:
        return ALL_CELLS
    if way.area:
        return cell_bits([cell(corner, tile) for corner in way.box()])
    bits = 0
    for block in way.blocks():
        cells = [cell(node, tile) for node in block]
        for pair in zip(cells, cells[1:]):
            bits |= cell_bits(pair)
    return bits


def cell(position, tile):
    """Column and row of a position's cell; outside the tile they are below 0 or above 3."""
    lat, lon = position
    return column(lon, tile.zoom + 2) - CELLS * tile.x, row(lat, tile.zoom + 2) - CELLS * tile.y


def cell_bits(cells):
    """The bits of the rectangle around some cells, as far as it lies in the tile."""
    (left, top), (right, bottom) = enclosing(cells)
    bits = 0
    for y in range(max(top, 0), min(bottom, CELLS - 1) + 1):
        for x in range(max(left, 0), min(right, CELLS - 1) + 1):
            bits |= 0x8000 >> (CELLS * y + x)
    return bits
