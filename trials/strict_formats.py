"""Strict readers of our own for what the program writes: GeoJSON by RFC 7946, TopoJSON 1.0, comma-separated text.

They ask more than the formats do: the members that the program writes and no others, rings that run as RFC 7946,
section 3.1.6 says, and sides of a geometry that meet at common ends alone. Numbers are exact. Nothing here is taken
from the program.
"""
import csv
import io
import json
from decimal import Decimal
from fractions import Fraction

# Positions are counted in units of 1/UNIT, which is finer than any grid and even, so that middles are whole.
UNIT = 2 * 10 ** 12

DEPTHS = {"Point": 0, "MultiPoint": 1, "LineString": 1, "MultiLineString": 2, "Polygon": 2, "MultiPolygon": 3}


class Fault(Exception):
    """What is wrong with a text, in words."""


def need(condition, words, *values):
    if not condition:
        raise Fault(words % values if values else words)


# ---- JSON

def distinct(members):
    names = [name for name, _ in members]
    need(len(set(names)) == len(names), "a name stands twice in an object: %s", names)
    return dict(members)


def no_constant(text):
    raise Fault("%s stands for a number" % text)


def parsed(content):
    """The value of a JSON text, with whole numbers as int and others as Decimal."""
    try:
        text = content.decode("utf-8")
        need(not text.startswith("\ufeff"), "a byte order mark")
        return json.loads(text, object_pairs_hook=distinct, parse_float=Decimal, parse_constant=no_constant)
    except (UnicodeDecodeError, ValueError, RecursionError) as fault:
        raise Fault("not JSON: %s" % fault)


def is_number(value):
    return isinstance(value, (int, Decimal)) and not isinstance(value, bool)


def members(value, what, needed, allowed=()):
    """The object itself, where it has the needed members, and no others but the allowed ones."""
    need(isinstance(value, dict), "%s is no object", what)
    missing = [name for name in needed if name not in value]
    need(not missing, "%s lacks %s", what, missing)
    others = [name for name in value if name not in needed and name not in allowed]
    need(not others, "%s has %s", what, others)
    return value


def listed(value, what, least=0):
    need(isinstance(value, list), "%s is no array", what)
    need(len(value) >= least, "%s has fewer than %d items", what, least)
    return value


# ---- the plane, exactly

def turn(a, b, p):
    """Above 0 where p is to the left of the way from a to b, 0 where it is in line with it."""
    return (b[0] - a[0]) * (p[1] - a[1]) - (b[1] - a[1]) * (p[0] - a[0])


def sides(ring):
    return list(zip(ring, ring[1:]))


def is_between(p, a, b):
    """Whether a point in line with a and b is between them or one of them."""
    return min(a[0], b[0]) <= p[0] <= max(a[0], b[0]) and min(a[1], b[1]) <= p[1] <= max(a[1], b[1])


def meet_elsewhere(s, t):
    """Whether two different sides have a point in common that isn't an end of both."""
    (a, b), (c, d) = s, t
    if max(a[1], b[1]) < min(c[1], d[1]) or max(c[1], d[1]) < min(a[1], b[1]):
        return False
    at_c, at_d, at_a, at_b = turn(a, b, c), turn(a, b, d), turn(c, d, a), turn(c, d, b)
    if at_c * at_d < 0 and at_a * at_b < 0:
        return True
    touched = [(p, s) for p, v in ((c, at_c), (d, at_d)) if v == 0 and is_between(p, a, b)]
    touched += [(p, t) for p, v in ((a, at_a), (b, at_b)) if v == 0 and is_between(p, c, d)]
    return any(p not in ends for p, ends in touched)


def check_apart(all_sides):
    """Each side stands once, and two sides meet at common ends alone."""
    ordered = sorted(tuple(sorted(side)) for side in all_sides)
    need(len(set(ordered)) == len(ordered), "a side stands twice")
    for i, s in enumerate(ordered):
        for t in ordered[i + 1:]:
            if t[0][0] > s[1][0]:
                break
            need(not meet_elsewhere(s, t), "two sides meet elsewhere than at common ends: %s and %s", s, t)


def where(p, ring):
    """1 for a point inside a ring, 0 for one on it, -1 for one outside."""
    is_inside = False
    for a, b in sides(ring):
        if turn(a, b, p) == 0 and is_between(p, a, b):
            return 0
        if (a[1] <= p[1]) != (b[1] <= p[1]):
            is_inside ^= (turn(a, b, p) > 0) == (b[1] > a[1])
    return 1 if is_inside else -1


def middle(side):
    return tuple((u + v) // 2 for u, v in zip(*side))


# ---- geometries

def units(value):
    whole = Fraction(value) * UNIT
    need(whole.denominator == 1 and whole.numerator % 2 == 0, "a number on no grid: %s", value)
    return whole.numerator


def check_position(value):
    listed(value, "a position", 2)
    need(len(value) == 2, "a position of more than two numbers")
    need(all(is_number(v) for v in value), "a position holds something else than numbers: %s", value)
    return (units(value[0]), units(value[1]))


def check_line(value):
    line = [check_position(p) for p in listed(value, "a line", 2)]
    need(all(a != b for a, b in sides(line)), "a position stands twice in a row")
    return line


def check_ring(value, is_exterior):
    ring = [check_position(p) for p in listed(value, "a ring", 4)]
    need(ring[0] == ring[-1], "a ring is not closed")
    need(len(set(ring)) == len(ring) - 1, "a ring passes a position twice")
    area = sum(a[0] * b[1] - b[0] * a[1] for a, b in sides(ring))
    need((area > 0) if is_exterior else (area < 0), "a ring runs the wrong way, or has no area")
    return ring


def check_polygon(value):
    rings = [check_ring(ring, place == 0) for place, ring in enumerate(listed(value, "a polygon", 1))]
    check_apart([side for ring in rings for side in sides(ring)])
    for place, hole in enumerate(rings[1:], 1):
        places = hole + [middle(side) for side in sides(hole)]
        need(all(where(p, rings[0]) >= 0 for p in places), "a hole outside its exterior")
        for other in rings[1:place]:
            ends = middle(sides(hole)[0]), middle(sides(other)[0])
            need(where(ends[0], other) < 0 and where(ends[1], hole) < 0, "a hole in a hole")
    return rings


def check_polygons(value):
    """Polygons that share no side and no inner point."""
    polygons = [check_polygon(polygon) for polygon in listed(value, "a MultiPolygon")]
    check_apart([side for rings in polygons for ring in rings for side in sides(ring)])
    for place, rings in enumerate(polygons):
        inner = middle(sides(rings[0])[0])
        for other in polygons[:place] + polygons[place + 1:]:
            held = where(inner, other[0]) > 0 and all(where(inner, hole) < 0 for hole in other[1:])
            need(not held, "a polygon in another of the same geometry")


def check_geometry(value, extra=()):
    """A geometry object or null."""
    if value is None:
        return
    members(value, "a geometry", ("type", "coordinates"), extra)
    kind, items = value["type"], value["coordinates"]
    need(kind in DEPTHS, "a geometry of the type %s", kind)
    if kind == "Point":
        check_position(items)
    elif kind == "MultiPoint":
        all(check_position(p) for p in listed(items, kind))
    elif kind == "LineString":
        check_line(items)
    elif kind == "MultiLineString":
        all(check_line(line) for line in listed(items, kind))
    else:
        check_polygons([items] if kind == "Polygon" else items)


def check_row(row):
    need(row is None or isinstance(row, dict), "properties are neither an object nor null")


# ---- the three formats

def geojson_features(content):
    """The features of a FeatureCollection as pairs of geometry and properties, all checked."""
    value = members(parsed(content), "the collection", ("type", "features"))
    need(value["type"] == "FeatureCollection", "the type is %s", value["type"])
    features = []
    for feature in listed(value["features"], "features"):
        members(feature, "a feature", ("type", "geometry", "properties"))
        need(feature["type"] == "Feature", "a feature's type is %s", feature["type"])
        check_geometry(feature["geometry"])
        check_row(feature["properties"])
        features.append((feature["geometry"], feature["properties"]))
    return features


def check_transform(value):
    members(value, "the transform", ("scale", "translate"))
    for pair in value.values():
        need(len(listed(pair, "a pair of the transform")) == 2, "a pair of the transform has not two items")
        need(all(is_number(v) for v in pair), "a pair of the transform holds something else than numbers")
    need(all(v != 0 for v in value["scale"]), "a scale of 0")
    return value["scale"], value["translate"]


def decoded_arc(arc, scale, shift):
    x = y = 0
    places = []
    for step in listed(arc, "an arc", 2):
        need(len(listed(step, "a step")) == 2 and all(type(v) is int for v in step), "a step is no two whole numbers")
        need(not places or step != [0, 0], "a step of no length")
        x, y = x + step[0], y + step[1]
        places.append([x * scale[0] + shift[0], y * scale[1] + shift[1]])
    return places


def joined(indices, arcs, used, depth):
    """Arc indices, nested so deep, as positions; the arcs that they name are noted."""
    if depth > 1:
        return [joined(i, arcs, used, depth - 1) for i in listed(indices, "arcs", 1)]
    path = []
    for index in listed(indices, "a list of arcs", 1):
        need(type(index) is int and -len(arcs) <= index < len(arcs), "an index that names no arc: %s", index)
        used.add(index if index >= 0 else ~index)
        arc = arcs[index] if index >= 0 else arcs[~index][::-1]
        need(not path or path[-1] == arc[0], "two arcs in a row don't meet")
        path += arc[1:] if path else arc
    return path


def topology_feature(value, arcs, used, scale, shift):
    """A geometry object of a topology as a pair of geometry and properties."""
    kind = members(value, "a geometry", ("type",), ("arcs", "coordinates", "properties"))["type"]
    row = value.get("properties")
    check_row(row)
    if kind is None:
        members(value, "an empty geometry", ("type",), ("properties",))
        return None, row
    need(kind in DEPTHS, "a geometry of the type %s", kind)
    if kind in ("Point", "MultiPoint"):
        members(value, "a point", ("type", "coordinates"), ("properties",))
        places = [value["coordinates"]] if kind == "Point" else listed(value["coordinates"], kind)
        for place in places:
            need(all(type(v) is int for v in check_whole(place)), "a quantized point is no two whole numbers")
        moved = [[x * scale[0] + shift[0], y * scale[1] + shift[1]] for x, y in places]
        geometry = {"type": kind, "coordinates": moved[0] if kind == "Point" else moved}
    else:
        members(value, "a geometry", ("type", "arcs"), ("properties",))
        geometry = {"type": kind, "coordinates": joined(value["arcs"], arcs, used, DEPTHS[kind])}
    check_geometry(geometry)
    return geometry, row


def check_whole(place):
    need(len(listed(place, "a point")) == 2, "a point is no two numbers")
    return place


def topology_objects(content):
    """For each object of a topology its features as pairs of geometry and properties, all checked."""
    value = members(parsed(content), "the topology", ("type", "transform", "objects", "arcs"))
    need(value["type"] == "Topology", "the type is %s", value["type"])
    scale, shift = check_transform(value["transform"])
    arcs = [decoded_arc(arc, scale, shift) for arc in listed(value["arcs"], "arcs")]
    need(isinstance(value["objects"], dict), "objects is no object")
    used, objects = set(), {}
    for name, item in value["objects"].items():
        members(item, "an object", ("type", "geometries"))
        need(item["type"] == "GeometryCollection", "an object's type is %s", item["type"])
        members_of = listed(item["geometries"], "geometries")
        objects[name] = [topology_feature(g, arcs, used, scale, shift) for g in members_of]
    need(len(used) == len(arcs), "an arc that nothing names")
    return objects


def table_rows(content):
    """The header and the rows of a comma-separated text; none of both for the empty text."""
    try:
        text = content.decode("utf-8")
        rows = list(csv.reader(io.StringIO(text, newline=""), strict=True))
    except (UnicodeDecodeError, csv.Error) as fault:
        raise Fault("not comma-separated text: %s" % fault)
    if not rows:
        return [], []
    need(text.endswith("\n"), "the last row is not ended")
    need(all(len(row) == len(rows[0]) for row in rows), "rows of different lengths")
    need(len(set(rows[0])) == len(rows[0]), "a column stands twice")
    return rows[0], rows[1:]
