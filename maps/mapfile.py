"""Encoders for maps in the Mapsforge binary map file format, versions 3 to 5.

Each function gives the bytes of one part: a number, a text, a point, a way, a tile, a sub file, the
header, the whole map. Sizes, counts, offsets and flags that are left out are worked out from the
rest. Those that are given are written as given, also if they are wrong, and `Raw` bytes in place of
a number, text or table are written unchanged. So crafted maps come from the same functions as good
ones.

Positions are pairs of latitude and longitude in whole microdegrees, in a tile counted from its top
left corner. A `mark` is a debug signature.

A map of one tile with one way, whose stored size is a byte short:

    body = way_body([[[(-10, 20), (-15, 30)]]], [0], name="Pier")
    one = tile([([], [way(body, size=len(body) - 1)])])
    fields = Header(box=(0, 0, 9000, 9000), way_tags=["man_made=pier"])
    data = map_file(fields, [Interval(14, 14, 14)], [sub_file([one])])
"""

import functools
import struct
from dataclasses import dataclass
from typing import NamedTuple, Optional

MAGIC = b"mapsforge binary OSM"
INDEX_SIGNATURE = b"+++IndexStart+++"
SIGNATURE_SIZE = 32
ENTRY_SIZE = 5
WATER = 1 << 39

# Flags of the header.
DEBUG, START, START_ZOOM, LANGUAGES, COMMENT, CREATED_BY = 0x80, 0x40, 0x20, 0x10, 0x08, 0x04
# Flags of points and ways.
NAME, HOUSE_NUMBER, ELEVATION = 0x80, 0x40, 0x20
REFERENCE, LABEL, DATA_BLOCKS, DOUBLE_DELTA = 0x20, 0x10, 0x08, 0x04


class Raw(bytes):
    """Bytes to be written unchanged."""


def or_raw(encode):
    """Lets an encoder take `Raw` as its first argument; that is then its result."""

    @functools.wraps(encode)
    def encoder(value, *others, **named):
        return bytes(value) if isinstance(value, Raw) else encode(value, *others, **named)

    return encoder


# Numbers


@or_raw
def fixed(value, size):
    """A number of `size` bytes, the most significant one first; negative: two's complement."""
    return value.to_bytes(size, "big", signed=value < 0)


@or_raw
def unsigned(value, width=1):
    """VBE-U: 7 bits a byte, the lowest first. A number shorter than `width` bytes is padded."""
    if value < 0:
        raise ValueError(f"negative: {value}")
    out = bytearray()
    while value > 0x7F or len(out) + 1 < width:
        out.append((value & 0x7F) | 0x80)
        value >>= 7
    out.append(value)
    return bytes(out)


@or_raw
def signed(value, width=1, minus=None):
    """VBE-S: as VBE-U, but the last byte has the sign and 6 bits; `minus` sets it, also for 0."""
    if minus is None:
        minus = value < 0
    value = abs(value)
    out = bytearray()
    while value > 0x3F or len(out) + 1 < width:
        out.append((value & 0x7F) | 0x80)
        value >>= 7
    out.append(value | (0x40 if minus else 0))
    return bytes(out)


@or_raw
def position(lat_lon):
    """Latitude and longitude, VBE-S each."""
    lat, lon = lat_lon
    return signed(lat) + signed(lon)


# Texts, tags and signatures


@or_raw
def text(value, length=None):
    """A text, or the bytes of one, behind its length in bytes."""
    data = value.encode() if isinstance(value, str) else value
    return unsigned(len(data) if length is None else length) + data


def optional(encode, value):
    """Nothing for None."""
    return b"" if value is None else encode(value)


def value_letter(tag):
    """The letter behind the first `=%` of a tag, which tells the kind of its values, or nothing."""
    return tag.partition("=%")[2][:1]


def tag_value(tag, value):
    """The inline value of a tag such as `maxspeed=%b`; nothing for a tag that has none."""
    letter = value_letter(tag)
    if letter == "s":
        return text(value)
    if letter in ("b", "h", "i", "f"):
        return struct.pack(">" + letter, value)
    return b""


def tag_ids(ids):
    """The tag ids of a feature, VBE-U each."""
    return b"".join(unsigned(number) for number in ids)


def special_byte(layer, tag_count):
    """Layer (-5 to 10) and number of tags (0 to 15) of a feature."""
    return ((layer + 5) << 4) | tag_count


def flag_byte(*pairs):
    """The sum of the flags whose field is there."""
    return sum(flag for flag, field in pairs if field is not None)


def signature(words):
    """A debug signature of a tile, point or way, padded with blanks."""
    return words.encode().ljust(SIGNATURE_SIZE)


def tile_signature(x, y):
    return signature(f"###TileStart{x},{y}###")


def point_signature(number):
    return signature(f"***POIStart{number}***")


def way_signature(number):
    return signature(f"---WayStart{number}---")


# Points


def point(lat_lon, ids=(), values=b"", name=None, house_number=None, elevation=None, layer=0, *,
          special=None, flags=None, mark=b""):
    """A point; `values` are the inline values of its tags, in the order of the ids."""
    if special is None:
        special = special_byte(layer, len(ids))
    if flags is None:
        flags = flag_byte((NAME, name), (HOUSE_NUMBER, house_number), (ELEVATION, elevation))
    return b"".join([
        mark,
        position(lat_lon),
        fixed(special, 1),
        tag_ids(ids),
        values,
        fixed(flags, 1),
        optional(text, name),
        optional(text, house_number),
        optional(signed, elevation),
    ])


# Ways


def way(body, *, size=None, width=1, mark=b""):
    """A way: its size and its body, from the bitmap on, which the size should count."""
    return mark + unsigned(len(body) if size is None else size, width) + body


def way_body(data_blocks, ids=(), values=b"", name=None, house_number=None, reference=None,
             label=None, layer=0, bitmap=0xFFFF, *,
             double=None, special=None, flags=None, block_count=None):
    """A way from its bitmap on.

    `data_blocks` is a list of data blocks, each a list of coordinate blocks, each a list of nodes.
    `label` is counted from the first node. If `double` is None, the shorter delta form is taken.
    The number of data blocks is written if it is given or is not 1.
    """
    if double is None:
        double = double_is_shorter(data_blocks)
    if block_count is None and not isinstance(data_blocks, Raw) and len(data_blocks) != 1:
        block_count = len(data_blocks)
    if special is None:
        special = special_byte(layer, len(ids))
    if flags is None:
        flags = flag_byte((NAME, name), (HOUSE_NUMBER, house_number), (REFERENCE, reference),
                          (LABEL, label), (DATA_BLOCKS, block_count),
                          (DOUBLE_DELTA, double or None))
    return b"".join([
        fixed(bitmap, 2),
        fixed(special, 1),
        tag_ids(ids),
        values,
        fixed(flags, 1),
        optional(text, name),
        optional(text, house_number),
        optional(text, reference),
        optional(position, label),
        optional(unsigned, block_count),
        way_data(data_blocks, double),
    ])


def double_is_shorter(data_blocks):
    """Whether double delta takes fewer bytes than single delta."""
    return len(way_data(data_blocks, True)) < len(way_data(data_blocks, False))


@or_raw
def way_data(data_blocks, double):
    """All data blocks of a way."""
    return b"".join(data_block(blocks, double) for blocks in data_blocks)


@or_raw
def data_block(blocks, double, count=None):
    """A data block: of a multipolygon the outer coordinate block, then the inner ones."""
    count = len(blocks) if count is None else count
    return unsigned(count) + b"".join(coordinate_block(nodes, double) for nodes in blocks)


@or_raw
def coordinate_block(nodes, double, count=None):
    """The nodes of a coordinate block in single or double delta form."""
    count = len(nodes) if count is None else count
    return unsigned(count) + b"".join(position(step) for step in stored_steps(nodes, double))


def stored_steps(nodes, double):
    """What is stored for the nodes: the first one, then the steps, or their changes if `double`."""
    steps = differences(nodes)
    return steps[:2] + differences(steps[1:])[1:] if double else steps


def differences(pairs):
    """The first pair, and then each one less the one before it."""
    return [(lat - a, lon - b) for (lat, lon), (a, b) in zip(pairs, [(0, 0), *pairs])]


# Tiles and sub files


def tile(rows, *, table=None, first_way=None, mark=b""):
    """A tile. `rows` has for each zoom level a pair of lists: encoded points and encoded ways.

    `table` gives other counts, also in pairs, `first_way` another offset of the first way.
    """
    points = b"".join(part for row_points, _ in rows for part in row_points)
    ways = b"".join(part for _, row_ways in rows for part in row_ways)
    if table is None:
        table = [(len(row_points), len(row_ways)) for row_points, row_ways in rows]
    if first_way is None:
        first_way = len(points)
    return mark + zoom_table(table) + unsigned(first_way) + points + ways


@or_raw
def zoom_table(table):
    """For each zoom level the number of points and of ways."""
    return b"".join(unsigned(points) + unsigned(ways) for points, ways in table)


@or_raw
def index_entry(offset, water=False):
    """The entry of a tile that begins `offset` bytes behind the sub file's start."""
    return fixed(offset | (WATER if water else 0), ENTRY_SIZE)


def sub_file(tiles, water=(), *, offsets=None, debug=False, mark=INDEX_SIGNATURE):
    """The index and the encoded tiles, row by row.

    `water` has the numbers of the tiles with the water bit; `offsets` gives some tiles, by number,
    another offset or a `Raw` entry.
    """
    others = offsets or {}
    head = mark if debug else b""
    offset = len(head) + ENTRY_SIZE * len(tiles)
    entries = []
    for number, data in enumerate(tiles):
        entries.append(index_entry(others.get(number, offset), number in water))
        offset += len(data)
    return head + b"".join(entries) + b"".join(tiles)


# Header and map


class Interval(NamedTuple):
    """A zoom interval: base, lowest and highest level, and where its sub file is."""

    base: int
    low: int
    high: int
    start: int = 0
    size: int = 0


@dataclass
class Header:
    """The fields of the header but for the sizes and the zoom intervals."""

    box: tuple  # min latitude, min longitude, max latitude, max longitude
    version: int = 5
    created: int = 0  # milliseconds since 1970
    tile_size: int = 256
    projection: str = "Mercator"
    debug: bool = False
    start: Optional[tuple] = None
    start_zoom: Optional[int] = None
    languages: Optional[str] = None
    comment: Optional[str] = None
    created_by: Optional[str] = None
    point_tags: tuple = ()
    way_tags: tuple = ()
    magic: bytes = MAGIC
    flags: Optional[int] = None


def header(fields, intervals, *, header_size=None, file_size=0):
    """The header; its size counts what comes behind the size."""
    rest = b"".join([
        fixed(fields.version, 4),
        fixed(file_size, 8),
        fixed(fields.created, 8),
        *(fixed(side, 4) for side in fields.box),
        fixed(fields.tile_size, 2),
        text(fields.projection),
        fixed(header_flags(fields) if fields.flags is None else fields.flags, 1),
        *(fixed(side, 4) for side in fields.start or ()),
        b"" if fields.start_zoom is None else fixed(fields.start_zoom, 1),
        optional(text, fields.languages),
        optional(text, fields.comment),
        optional(text, fields.created_by),
        tag_table(fields.point_tags),
        tag_table(fields.way_tags),
        interval_table(intervals),
    ])
    return fields.magic + fixed(len(rest) if header_size is None else header_size, 4) + rest


def header_flags(fields):
    """Whether it is a debug map, and which of the optional fields there are."""
    return flag_byte((DEBUG, fields.debug or None), (START, fields.start),
                     (START_ZOOM, fields.start_zoom), (LANGUAGES, fields.languages),
                     (COMMENT, fields.comment), (CREATED_BY, fields.created_by))


@or_raw
def tag_table(tags):
    """The tags of the points or those of the ways; a tag's id is its place."""
    return fixed(len(tags), 2) + b"".join(text(tag) for tag in tags)


@or_raw
def interval_table(intervals):
    """The zoom intervals behind their number."""
    out = fixed(len(intervals), 1)
    for base, low, high, start, size in intervals:
        out += fixed(base, 1) + fixed(low, 1) + fixed(high, 1) + fixed(start, 8) + fixed(size, 8)
    return out


def placed(fields, intervals, sub_files):
    """The intervals with start and size for sub files one behind the other, behind the header."""
    start = len(header(fields, intervals))
    out = []
    for interval, data in zip(intervals, sub_files):
        out.append(interval._replace(start=start, size=len(data)))
        start += len(data)
    return out


def map_file(fields, intervals, sub_files, *, as_given=False, header_size=None, file_size=None):
    """The whole map. Starts and sizes are worked out, unless the intervals are to be `as_given`."""
    if not as_given:
        intervals = placed(fields, intervals, sub_files)
    body = b"".join(sub_files)
    if file_size is None:
        file_size = len(header(fields, intervals)) + len(body)
    return header(fields, intervals, header_size=header_size, file_size=file_size) + body
