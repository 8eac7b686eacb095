"""Writes the files of bench/compare, the same in every run: whole_data.py FOLDER DIVISOR.

The layers are DIVISOR times smaller on each side.
"""
import csv
import json
import os
import random
import sys

from made_data import cell_rings, wiggle


def write_layer(path, features):
    with open(path, "w", encoding="ascii") as out:
        out.write('{"type":"FeatureCollection","features":[\n')
        out.write(",\n".join('{"type":"Feature","properties":%s,"geometry":%s}' % (json.dumps(row), json.dumps(geometry))
                             for row, geometry in features))
        out.write("\n]}\n")


def coverage(n, seed=11, shift=(0, 0)):
    draw = random.Random(seed)

    def corner(i, j):
        return (round(-125 + i + shift[0], 6), round(24 + j / 2 + shift[1], 6))

    across = {(i, j): wiggle(draw, corner(i, j), corner(i + 1, j), 5, 0.1, 6) for i in range(n) for j in range(n + 1)}
    upwards = {(i, j): wiggle(draw, corner(i, j), corner(i, j + 1), 5, 0.1, 6) for i in range(n + 1) for j in range(n)}
    for i in range(n):
        for j in range(n):
            down = [corner(i, j + 1)] + upwards[i, j][:0:-1]
            back = [corner(i + 1, j + 1)] + across[i, j + 1][:0:-1]
            ring = across[i, j] + upwards[i + 1, j] + back + down
            row = {"county": "C%05d" % (i * n + j), "state": "S%02d" % (i // 7 * 8 + j // 7), "pop": draw.randrange(100000)}
            yield row, {"type": "Polygon", "coordinates": [[list(p) for p in ring + ring[:1]]]}


def cells(n):
    for number, ring in enumerate(cell_rings(n)):
        yield {"n": number}, {"type": "Polygon", "coordinates": [ring]}


def write_sides(path, n):
    """The sides of the cells, "x y x y" a line."""
    with open(path, "w", encoding="ascii") as out:
        for ring in cell_rings(n):
            out.writelines("%d %d %d %d\n" % (a + b) for a, b in zip(ring, ring[1:]))


def points(count):
    draw = random.Random(12)
    for i in range(count):
        place = [round(draw.uniform(-125, -75), 6), round(draw.uniform(24, 49), 6)]
        yield {"id": "P%06d" % i, "value": draw.randrange(1000)}, {"type": "Point", "coordinates": place}


def write_table(path, count):
    draw = random.Random(13)
    ids = ["P%06d" % i for i in range(count)]
    draw.shuffle(ids)
    with open(path, "w", encoding="ascii", newline="") as out:
        table = csv.writer(out)
        table.writerow(["id", "label", "amount"])
        table.writerows((name, "label, %d" % draw.randrange(1000), draw.randrange(1000000)) for name in ids)


def main(folder, divisor):
    def path(name):
        return os.path.join(folder, name)

    count = 100000 // divisor ** 2
    write_layer(path("areas.json"), coverage(50 // divisor))
    write_layer(path("cells.json"), cells(100 // divisor))
    write_layer(path("many_cells.json"), cells(300 // divisor))
    write_sides(path("cells.txt"), 100 // divisor)
    write_layer(path("points.json"), points(count))
    write_table(path("table.csv"), count)
    write_layer(path("one.json"), coverage(28 // divisor))
    write_layer(path("two.json"), coverage(28 // divisor, 14, (0.37, 0.21)))
    star = [[-105, 26], [-80, 30], [-90, 47], [-100, 36], [-120, 45], [-105, 26]]
    write_layer(path("clip.json"), [({}, {"type": "Polygon", "coordinates": [star]})])


main(sys.argv[1], int(sys.argv[2]))
