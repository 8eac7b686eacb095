"""Ends with status 0 if two layers are about the same answer: same_answer.py OURS THEIRS WHAT..

WHAT is of: features (their number, within 1 in 100), area (the sum, within 1 in 1,000), values (how many there are in
the columns of OURS, within 1 in 100). Other programs take borders in other ways and cut at other places, so no bytes
are compared.
"""
import json
import sys


def ring_area(ring):
    return abs(sum(a[0] * b[1] - b[0] * a[1] for a, b in zip(ring, ring[1:]))) / 2


def area(geometry):
    if geometry is None:
        return 0
    if geometry["type"] == "GeometryCollection":
        return sum(map(area, geometry["geometries"]))
    polygons = {"Polygon": [geometry["coordinates"]], "MultiPolygon": geometry["coordinates"]}.get(geometry["type"], [])
    return sum(ring_area(rings[0]) - sum(map(ring_area, rings[1:])) for rings in polygons)


def features_of(path):
    with open(path, encoding="utf-8") as file:
        layer = json.load(file)
    return layer["features"] if layer["type"] == "FeatureCollection" else [
        {"properties": None, "geometry": geometry} for geometry in layer["geometries"]]


def values(features, columns):
    return sum((feature["properties"] or {}).get(column) is not None for feature in features for column in columns)


def is_near(a, b, share):
    return abs(a - b) <= share * max(a, b)


def main(ours, theirs, *what):
    a, b = features_of(ours), features_of(theirs)
    columns = (a[0]["properties"] or {}) if a else {}
    same = {
        "features": lambda: is_near(len(a), len(b), 0.01),
        "area": lambda: is_near(sum(area(f["geometry"]) for f in a), sum(area(f["geometry"]) for f in b), 0.001),
        "values": lambda: is_near(values(a, columns), values(b, columns), 0.01),
    }
    return 0 if all(same[name]() for name in what) else 1


sys.exit(main(*sys.argv[1:]))
