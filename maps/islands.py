"""The invented data of islands.map: a harbour town, four islands and the boats between them.

Nothing of it exists: at 62.27° N on the Greenwich meridian there is open sea. Places are given in
metres east and north of there.
"""

import math

from tiling import Point, Way

ORIGIN = (62_267_923, 0)  # where four tiles meet at each zoom level from 8 on
LAT_STEP, LON_STEP = 9, 19  # microdegrees a metre, about


def at(east, north):
    """A place as a position."""
    return ORIGIN[0] + round(north * LAT_STEP), ORIGIN[1] + round(east * LON_STEP)


SOUTH_WEST, NORTH_EAST = (-3400, -1900), (4200, 4000)
BOX = (at(*SOUTH_WEST), at(*NORTH_EAST))
START = at(2140, -260)
START_ZOOM = 14
LANGUAGES = "nb,en"
COMMENT = ("Invented data for tests of map readers: these islands, their harbours, boats and "
           "lighthouses do not exist. Not to be used for navigation.")


# Shapes, in metres


def curve(places, steps, closed=False):
    """A smooth line through some places (Catmull-Rom), `steps` nodes for each stretch of it."""
    count = len(places)
    if closed:
        around = [places[i % count] for i in range(-1, count + 2)]
    else:
        around = [places[0], *places, places[-1]]
    out = []
    for i in range(len(around) - 3):
        out += [between(around[i:i + 4], step / steps) for step in range(steps)]
    return out + [out[0] if closed else places[-1]]


def between(four, t):
    """The place at part `t` of the stretch between the middle two of four places."""
    out = []
    for a, b, c, d in zip(*four):
        slope, bend, twist = (c - a) / 2, a - 2.5 * b + 2 * c - d / 2, 1.5 * (b - c) + (d - a) / 2
        out.append(b + t * (slope + t * (bend + t * twist)))
    return tuple(out)


def heading(start, end):
    """The direction (of length 1) from one place to another, and how far it is."""
    east, north = end[0] - start[0], end[1] - start[1]
    length = math.sqrt(east * east + north * north)
    return (east / length, north / length), length


def beside(start, along, ahead, left):
    """The place so many metres ahead of a start in a direction, and so many to the left."""
    return (start[0] + along[0] * ahead - along[1] * left,
            start[1] + along[1] * ahead + along[0] * left)


def rectangle(middle, length, depth, along):
    """The corners of a house; `along` is the direction of its front."""
    return [beside(middle, along, s * length / 2, t * depth / 2)
            for s, t in ((-1, -1), (1, -1), (1, 1), (-1, 1))]


def plots(street, spacing, setback):
    """Places along a street, alternately left and right of it, with the street's direction."""
    for start, end in zip(street, street[1:]):
        along, length = heading(start, end)
        for i in range(int(length / spacing)):
            for side in (setback, -setback):
                yield beside(start, along, (i + 0.5) * spacing, side), along


# Features


def line(zoom, places, *tags, **fields):
    """A way of one block."""
    return Way(zoom, [[positions(places)]], tags, **fields)


def area(zoom, places, *tags, **fields):
    """A closed way; its first place is added behind the last."""
    return Way(zoom, [[positions(places + places[:1])]], tags, area=True, **fields)


def coast(places, **fields):
    """A closed coastline with the land to its left."""
    return Way(0, [[positions(places)]], ("natural=coastline",), area=True, coast=True, **fields)


def positions(places):
    return [at(*place) for place in places]


def spot(zoom, place, *tags, **fields):
    return Point(zoom, at(*place), tags, **fields)


def named(base, **others):
    """A name with its forms in other languages, as maps from version 4 on keep them."""
    return base + "".join(f"\r{language}\b{name}" for language, name in others.items())


# Land and water

MAINLAND = [(4200, 700), (3500, 520), (3000, 150), (2750, -250), (2450, -330), (2200, -180),
            (1950, -380), (1750, -520), (1450, -470), (1150, -260), (700, -420), (250, -700),
            (-300, -760), (-800, -1050), (-1200, -1500), (-1500, -1900)]
STOROYA = [(1750, 1450), (1550, 1750), (1200, 1900), (850, 1820), (520, 1850), (280, 1600),
           (330, 1300), (560, 1080), (900, 1000), (1250, 930), (1550, 1080)]
MAKEHOLMEN = [(-1000, 820), (-1150, 1080), (-1420, 1180), (-1750, 1050), (-1850, 760), (-1650, 520),
              (-1350, 450), (-1080, 560)]
YTTEROY = [(330, 3120), (180, 3420), (-120, 3560), (-480, 3500), (-700, 3230), (-620, 2950),
           (-300, 2830), (60, 2850)]
KAMOME = [(3350, 2920), (3220, 3080), (3000, 3100), (2830, 2950), (2900, 2760), (3120, 2720),
          (3300, 2790)]
SKERRIES = [[(2160, 640), (2230, 700), (2190, 790), (2110, 740)],
            [(2390, 820), (2450, 830), (2430, 900)],
            [(-120, 1990), (-60, 2010), (-40, 2090), (-130, 2080)]]
RIVER = [(900, -1890), (1000, -1500), (1080, -1100), (1130, -720), (1160, -500), (1150, -260)]
LAKE = [(1250, 1450), (1180, 1560), (1010, 1590), (870, 1500), (900, 1380), (1080, 1320)]
LAKE_ISLET = [(1040, 1480), (1010, 1430), (1070, 1410), (1110, 1450)]


def land():
    """Coastlines, the biggest first."""
    edge = [(4200, -1900), (4200, 700)]
    yield coast(curve(MAINLAND, 5) + edge)
    for shape in (STOROYA, MAKEHOLMEN, YTTEROY, KAMOME):
        yield coast(curve(shape, 5, closed=True))
    for shape in SKERRIES:
        yield coast(shape + shape[:1])


def waters():
    lake = positions(curve(LAKE, 4, closed=True))
    islet = positions(curve(LAKE_ISLET, 3, closed=True))
    yield Way(10, [[lake, islet]], ("natural=water", "water=lake", ("depth=%h", 31)), area=True,
              name=named("Storvatnet", en="Great Tarn"), label=at(960, 1480))
    yield line(11, curve(RIVER, 5), "waterway=river", name="Byelva")
    yield line(14, [(1600, -1890), (1420, -1500), (1300, -1150), (1110, -930)], "waterway=stream",
               name="Kvernbekken")
    for depth, grow in ((10, 1.25), (20, 1.5)):
        for shape, middle in ((MAKEHOLMEN, (-1420, 800)), (YTTEROY, (-180, 3170)),
                              (KAMOME, (3100, 2900))):
            ring = [beside(middle, (1, 0), (x - middle[0]) * grow, (y - middle[1]) * grow)
                    for x, y in shape]
            yield line(12, curve(ring, 3, closed=True), ("depth=%h", depth),
                       "seamark:type=depth_contour")


def grounds():
    """Woods, fields and other grounds; some with a label."""
    yield area(11, [(1400, -560), (1720, -570), (2000, -400), (2300, -310), (2720, -370),
                    (2640, -1150), (2000, -1260), (1560, -1280)],
               "landuse=residential", name="Havnby", label=at(2040, -900))
    yield area(12, [(300, -1150), (900, -1000), (1000, -1500), (820, -1850), (100, -1850)],
               "natural=wood", name="Kongsskogen", label=at(520, -1500))
    yield area(12, [(2900, -1000), (3600, -1100), (4100, -1350), (4000, -1850), (3000, -1700)],
               "natural=wood", name="Haugmarka", label=at(3500, -1450))
    yield area(13, [(600, 1600), (900, 1720), (1150, 1780), (1000, 1620), (700, 1500)],
               "natural=wood", name="Nordlia")
    yield area(13, [(1300, 1150), (1560, 1160), (1600, 1400), (1380, 1380)], "landuse=meadow")
    yield area(13, [(-1600, 700), (-1500, 620), (-1320, 640), (-1380, 800)], "landuse=meadow")
    yield area(13, [(-450, 3200), (-200, 3260), (-180, 3420), (-400, 3420)], "natural=heath")
    yield area(14, [(2080, -1080), (2170, -1070), (2180, -1160), (2090, -1170)],
               "landuse=cemetery", name="Havnby kirkegård", label=at(2130, -1120))
    yield area(14, [(1760, -1120), (1860, -1130), (1875, -1210), (1780, -1205)],
               "leisure=pitch", "sport=soccer")
    yield area(13, [(1950, -400), (2080, -270), (2230, -200), (2260, -290), (2120, -370)],
               "landuse=harbour", ("operator=%s", "Havnby havnevesen"), name="Havnby havn",
               label=at(2130, -300))
    yield area(15, [(2150, -340), (2215, -300), (2235, -335), (2175, -372)], "amenity=parking",
               ("building:colour=%i", -1), ("capacity=%i", 86), label=at(2190, -337))
    yield Way(11, [[positions(curve(LAKE, 2, closed=True)),
                    positions(curve(LAKE_ISLET, 2, closed=True))],
                   [positions([(560, 1150), (760, 1120), (720, 1240), (560, 1150)])],
                   [positions([(1420, 1560), (1560, 1500), (1500, 1640), (1420, 1560)])]],
              ("leisure=nature_reserve", "boundary=protected_area"), area=True,
              name=named("Storøya naturreservat", en="Storøya nature reserve"))


# Roads

MAIN_ROAD = ("highway=primary", "surface=asphalt", ("maxspeed=%b", 80))
STREETS = {
    "Storgata": [(1500, -640), (1800, -620), (2100, -560), (2400, -500), (2680, -420)],
    "Kirkegata": [(2100, -560), (2080, -760), (2050, -1000), (2020, -1200)],
    "Havnegata": [(1800, -620), (1950, -470), (2150, -375), (2300, -350)],
    "Skolegata": [(1600, -800), (1640, -1000), (1700, -1250)],
    "Bakkegata": [(1640, -1000), (1850, -1020), (2050, -1000), (2300, -960), (2500, -900)],
    "Fyrgata": [(2400, -500), (2440, -700), (2500, -900), (2520, -1100)],
}
ISLAND_ROADS = {
    "Øyvegen": [(1300, 990), (1480, 1150), (1600, 1420), (1430, 1640), (1150, 1760), (800, 1700),
                (480, 1680), (430, 1400), (650, 1180), (950, 1100), (1300, 990)],
    "Måkevegen": [(-1040, 760), (-1200, 700), (-1400, 900), (-1640, 880)],
    "Åsgårdsstien": [(-280, 2880), (-200, 3040), (-60, 3200), (-150, 3400)],
    "鷗坂": [(2960, 2780), (3020, 2880), (3140, 2940), (3120, 3040)],
}


def main_roads():
    """The main road is five ways: road, tunnel, road, bridge, road."""
    fields = {"name": "Riksvegen", "reference": "Rv 99"}
    yield line(7, [(4200, -1100), (3980, -1010), (3700, -950)], *MAIN_ROAD, **fields)
    yield line(8, [(3700, -950), (3560, -900), (3380, -850), (3200, -800)], *MAIN_ROAD,
               "tunnel=yes", layer=-1, name="Haugtunnelen", reference="Rv 99")
    yield line(7, [(3200, -800), (2700, -760), (2350, -720), (2000, -760), (1600, -800),
                   (1180, -705)], *MAIN_ROAD, **fields)
    yield line(8, [(1180, -705), (1130, -720), (1080, -735)], *MAIN_ROAD, "bridge=yes", layer=1,
               name="Elvebrua", reference="Rv 99")
    yield line(7, curve([(1080, -735), (700, -850), (200, -1080), (-300, -1180), (-800, -1450),
                         (-1180, -1890)], 4), *MAIN_ROAD, **fields)
    yield line(10, curve([(2680, -420), (2900, -350), (3090, 50), (3500, 380), (4190, 560)], 4),
               "highway=secondary", ("maxspeed=%b", 60), name="Strandvegen", reference="Fv 412")


def streets():
    for number, (name, places) in enumerate(STREETS.items()):
        yield line(13 + number // 3, places, "highway=residential", ("maxspeed=%b", 30), name=name)
    for number, (name, places) in enumerate(ISLAND_ROADS.items()):
        yield line(11 + number, curve(places, 3), "highway=unclassified", name=name,
                   reference=f"Kv {31 + number}" if number < 3 else None)
    yield line(14, [(2150, -375), (2170, -290), (2205, -215)], "highway=service",
               name="Bryggevegen")
    yield line(14, [(1950, -470), (1985, -410), (2060, -320)], "highway=service")
    yield line(15, [(2360, -650), (2350, -725), (2340, -800)], "highway=footway", "bridge=yes",
               layer=2, name="Gangbrua")
    yield line(16, [(2050, -1000), (2075, -1020), (2100, -1040)], "highway=steps",
               ("step_count=%h", 312))
    # three stretches of one path
    yield Way(14, [[positions([(1450, -500), (1200, -320), (1000, -360), (700, -470)])],
                   [positions([(620, -520), (250, -760), (-100, -820)])],
                   [positions([(-280, -830), (-780, -1120), (-1150, -1560)])]],
              ("highway=path", "route=hiking"), name="Kyststien")
    # nobody knows what this is
    yield line(17, [(2980, -480), (3040, -520)])


# Boats and harbours


def boats():
    """Lines of the boats, long and smooth."""
    company = ("operator=%s", "Øyferja AS")
    yield line(8, curve([(2145, -170), (2050, 150), (1750, 520), (1420, 760), (1300, 915)], 8),
               company, "route=ferry", ("draught=%f", 2.4), ("maxspeed=%b", 18), ("depth=%h", 412),
               ("capacity=%i", 120_000), "motorcar=yes", name="Havnby–Storøya", reference="31")
    yield line(9, curve([(300, 1310), (-100, 1150), (-600, 900), (-985, 815)], 8), company,
               "route=ferry", "motorcar=yes", name="Storøya–Måkeholmen", reference="32")
    yield line(9, curve([(-1290, 1175), (-1200, 1700), (-800, 2300), (-310, 2815)], 8), company,
               "route=ferry", "motorcar=yes", name="Måkeholmen–Ytterøy", reference="33")
    yield line(9, curve([(2215, -160), (2330, 400), (2420, 1300), (2700, 2200), (2955, 2735)], 8),
               "route=ferry", ("draught=%f", -0.75), name="Havnby–鷗島", reference="34")
    yield line(6, curve([(2100, -200), (1500, 300), (0, 250), (-1500, -200), (-3390, -100)], 10),
               "route=ferry", ("operator=%s", "Kystruta – Береговая линия"), name="Kystruta")
    yield line(12, [(1700, -520), (1400, -100), (1000, 500), (1050, 985)], "man_made=pipeline",
               "substance=water", layer=-2)


# The piers, from the shore to the head.
PIERS = {"Brygge A": ((2000, -350), (1975, -250)),
         "Brygge B": ((2100, -270), (2070, -170)),
         "Brygge C": ((2180, -205), (2160, -95)),
         "Storøya brygge": ((1310, 945), (1330, 870)),
         "Storøya vestbrygge": ((340, 1330), (270, 1340)),
         "Måkebrygga": ((-1015, 800), (-940, 800)),
         "Ytterøy brygge": ((-320, 2835), (-330, 2770)),
         "鷗島桟橋": ((2945, 2755), (2925, 2690))}


def ramps():
    """To the right of each pier the ramp where its boat loads: from land to water."""
    out = []
    for shore, head in PIERS.values():
        along, _ = heading(shore, head)
        out.append([beside(shore, along, ahead, -22) for ahead in (-12, 8, 30)])
    return out


def harbours():
    for name, (shore, head) in PIERS.items():
        along, length = heading(shore, head)
        yield line(13, [shore, beside(shore, along, length / 2, 2), head], "man_made=pier",
                   name=name)
    for number, ramp in enumerate(ramps(), start=1):
        yield line(13, ramp, "leisure=slipway", ("width=%f", 6.5), name=f"Rampe {number}",
                   reference=str(number))
    yield line(13, [(1880, -420), (1900, -300), (1960, -180), (2040, -110)], "man_made=breakwater",
               name="Moloen")
    yield line(14, [(1950, -392), (2010, -335), (2110, -255), (2190, -195)], "man_made=quay")


# Houses


def houses():
    for street in STREETS.values():
        yield from row_of_houses(street, 52, 26, (18, 12))
    yield from row_of_houses(ISLAND_ROADS["Øyvegen"], 120, 30, (14, 10))
    yield from row_of_houses(ISLAND_ROADS["Måkevegen"], 90, 24, (12, 9))
    yield from row_of_houses(ISLAND_ROADS["Åsgårdsstien"], 85, 22, (11, 9))
    yield from row_of_houses(ISLAND_ROADS["鷗坂"], 60, 20, (10, 8))


def row_of_houses(street, spacing, setback, size):
    """Odd numbers to the left, even ones to the right; sizes differ a little."""
    for number, (middle, along) in enumerate(plots(street, spacing, setback), start=1):
        length, depth = size[0] + number % 4, size[1] + number % 3
        letter = "B" if number % 11 == 0 else ""
        yield area(15 + number % 2, rectangle(middle, length, depth, along), "building=yes",
                   house_number=f"{number}{letter}")


def great_buildings():
    """Buildings with names, labels, and one with as many tags as a way can have."""
    yield area(14, rectangle((2120, -1045), 34, 16, (0.96, 0.28)), "building=church",
               ("height=%f", 41.5), ("building:colour=%i", -0x1A2B3C), name="Havnby kirke",
               label=at(2120, -1045))
    yield area(14, rectangle((1790, -1075), 60, 24, (0.8, 0.6)), "building=school",
               name="Havnby skole", house_number="12–16", label=at(1790, -1075))
    yield area(14, rectangle((2215, -262), 40, 16, (0.8, 0.6)), "amenity=ferry_terminal",
               "building=yes", "building:material=brick", ("building:colour=%i", 0x7FA04020),
               ("capacity=%i", 400), ("height=%f", 9.25), "internet_access=wlan",
               ("level=%b", -1), ("maxspeed=%b", 5), ("operator=%s", "Øyferja AS"),
               "roof:shape=gabled", "smoking=no", ("step_count=%h", -3), "toilets=yes",
               "wheelchair=yes",
               name=named("Havnby ferjekai", en="Havnby Ferry Terminal", ja="ハウンビー港"),
               house_number="1", reference="HBY", label=at(2215, -262))
    for number, (x, y) in enumerate(((-1025, 835), (-335, 2850), (2960, 2770), (350, 1350))):
        yield area(15, rectangle((x, y), 12, 7, (1, 0)), "building=boathouse",
                   name=f"Naust {number + 1}" if number % 2 else None)


# Points


def places():
    yield spot(5, (2050, -800), "place=town", ("population=%i", 4127),
               name=named("Havnby", en="Harbour Town"), elevation=12)
    yield spot(8, (1000, 1650), "place=island", ("population=%i", 316),
               name=named("Storøya", en="Great Island"))
    yield spot(9, (-1420, 860), "place=island", ("population=%i", 58), name="Måkeholmen")
    yield spot(9, (-180, 3170), "place=island", ("population=%i", 23),
               name=named("Ytterøy", en="Outer Island", ru="Дальний остров"))
    yield spot(10, (3080, 2900), "place=island", name="鷗島")
    yield spot(12, (1420, 1080), "place=hamlet", name="Sør på øya")
    yield spot(12, (-1180, 760), "place=hamlet", name="Måkevik")
    yield spot(11, (3400, -1400), "natural=peak", name="Haugen", elevation=318)
    yield spot(11, (1350, 1560), "natural=peak", name="Storhaugen", elevation=143)
    yield spot(13, (-1500, 1000), "natural=peak", name="Måketoppen", elevation=63)
    yield spot(13, (-330, 3340), "natural=peak", elevation=64)


def seamarks():
    yield spot(9, (-560, 3380), "man_made=lighthouse", ("seamark:light:height=%b", 47),
               ("ele=%i", 29), ("seamark:light:period=%f", 12.5), ("depth=%h", 0),
               ("operator=%s", "Fyrvesenet"), "tourism=attraction", name="Ytterøy fyr",
               elevation=29)
    yield spot(12, (2040, -105), "man_made=beacon", ("seamark:light:height=%b", 6),
               ("seamark:light:period=%f", 3.0), name="Moloen")
    yield spot(13, (3255, 2740), "man_made=beacon", ("seamark:light:height=%b", -128),
               name="鷗島灯台", elevation=15)
    for number, place in enumerate(((1900, 300), (600, 420), (-2600, -180), (-3100, 520))):
        yield spot(13, place, "seamark:type=buoy_lateral", name=f"K{number + 1}")
    for number, place in enumerate(((1500, 560), (200, 700), (-700, 1600), (-900, 2500),
                                    (1600, 2600), (2500, 1700), (3700, 1900), (-2900, 1400),
                                    (3900, 3600))):
        yield spot(14 + number % 3, place, ("depth=%h", 37 + 61 * number), "seamark:type=sounding")
    yield spot(13, (1250, 2380), "seamark:type=wreck", name="Чайка", elevation=-64)
    yield spot(14, (-2450, -700), "seamark:type=rock", elevation=-1)


def services():
    for number, ramp in enumerate(ramps(), start=1):
        yield spot(13, ramp[0], "amenity=ferry_terminal", name=f"Rampe {number}")
    for number, place in enumerate(((1650, -625), (1960, -590), (2390, -515), (2060, -900),
                                    (1640, -985), (-1190, 712), (1480, 1165))):
        yield spot(16, place, "highway=bus_stop", ("operator=%s", "Øybuss"), name=STOPS[number])
    for zoom, place, tag, name, number in SERVICES:
        yield spot(zoom, place, tag, name=name, house_number=number)
    yield spot(17, (2118, -352), "tourism=information", "information=board", name=BOARD)
    yield spot(15, (2226, -268), "amenity=bench", "bench=yes", "bin=yes", ("capacity=%i", -2),
               "covered=yes", ("depth=%h", -32_768), ("ele=%i", 2_147_483_647), "fee=no",
               "internet_access=wlan", ("operator=%s", "Øyferja AS"),
               ("seamark:light:height=%b", 127), ("seamark:light:period=%f", 0.1), "shelter=yes",
               "smoking=no", "wheelchair=yes", name="Venterommet", house_number="1", elevation=3)
    yield spot(18, (3010, -500))
    yield spot(19, (-90, 3230), name="?")


def small_things():
    """Bollards and trees, for the highest levels."""
    for number in range(9):
        yield spot(18, (2012 + 11 * number, -333 + 8 * number), "man_made=bollard",
                   layer=number % 5 - 2)
    for number in range(8):
        yield spot(17 + number % 5, (2092 + 9 * number, -1095 - 7 * number), "natural=tree",
                   elevation=20 + number if number % 3 == 0 else None)


STOPS = ("Storgata vest", "Torget", "Storgata øst", "Kirka", "Skolen", "Måkevik", "Ferjeleiet")
SERVICES = (
    (15, (1990, -600), "amenity=pub", "Den Blå Måke", "23"),
    (15, (2120, -580), "shop=bakery", "Brød & Bølger", "28B"),
    (16, (2180, -362), "shop=ice_cream", "🍦 Is på kaia", None),
    (15, (2290, -370), "shop=fishing", "Krok og snøre", "14"),
    (15, (1830, -640), "shop=convenience", None, "17"),
    (14, (2430, -560), "tourism=hotel", "Hotell Havblikk", "2–4"),
    (16, (2240, -330), "amenity=toilets", None, None),
    (15, (1785, -1078), "amenity=school", "Havnby skole", None),
    (15, (1410, 1120), "shop=convenience", "Øybutikken", "3"),
    (16, (1385, 1095), "amenity=cafe", "Kafé Utsikten", None),
    (15, (-1210, 735), "shop=convenience", "Holmen handel", "5"),
    (16, (-130, 3410), "tourism=viewpoint", "Utkikken", None),
    (15, (3130, 3000), "amenity=cafe", "かもめ茶屋", "7"),
)
BOARD = ("Her begynner Kyststien: 14 km langs fjæra, over Elvebrua og gjennom Kongsskogen til "
         "Vestneset. Følg de blå merkene, lukk grindene etter deg og la fuglene være i fred.")


# All together


def points():
    return numbered(100_001, [*places(), *seamarks(), *services(), *small_things()])


def ways():
    return numbered(200_001, [*land(), *waters(), *grounds(), *main_roads(), *streets(), *boats(),
                              *great_buildings(), *houses(), *harbours()])


def numbered(first, features):
    for number, feature in enumerate(features, start=first):
        feature.number = number
    return features
