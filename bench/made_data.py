"""Shapes that the benches are made of, the same in every run."""
import math
import random

COLUMNS, ROWS = 190, 100
CORNERS = 99
MOST_STARS = COLUMNS * ROWS


def cell_rings(n):
    """The closed rings of n by n quadrilaterals, each of which overlaps its neighbours."""
    state = 1

    def draw():
        nonlocal state
        state = (state * 1103515245 + 12345) % 4294967296
        return state // 65536 % 32768 % 41

    for i in range(n):
        for j in range(n):
            a, b, c, d, e, f = draw(), draw(), draw(), draw(), draw(), draw()
            x, y = 100 * i, 100 * j
            yield [(x, y), (x + 140 + a, y + b), (x + 140 + c, y + 140 + d), (x + e, y + 140 + f), (x, y)]


def wiggle(draw, a, b, depth, most=0.2, places=None):
    """A wiggly line from a to b, without b; whole numbers where no decimal places are named."""
    if depth == 0:
        return [a]
    lift = draw.uniform(-most, most)
    dx, dy = b[0] - a[0], b[1] - a[1]
    middle = (round(a[0] + dx / 2 - lift * dy, places), round(a[1] + dy / 2 + lift * dx, places))
    return wiggle(draw, a, middle, depth - 1, most, places) + wiggle(draw, middle, b, depth - 1, most, places)


def coverage_rings(draw, n, depth, size):
    """The closed rings of n by n areas with wiggly borders, which neighbours share; whole numbers."""
    def corner(i, j):
        return (i * size, j * size)

    across = {(i, j): wiggle(draw, corner(i, j), corner(i + 1, j), depth) for i in range(n) for j in range(n + 1)}
    upwards = {(i, j): wiggle(draw, corner(i, j), corner(i, j + 1), depth) for i in range(n + 1) for j in range(n)}
    for i in range(n):
        for j in range(n):
            back = [corner(i + 1, j + 1)] + across[i, j + 1][:0:-1]
            down = [corner(i, j + 1)] + upwards[i, j][:0:-1]
            ring = across[i, j] + upwards[i + 1, j] + back + down
            yield ring + ring[:1]


def star(draw, column, row):
    """A star around the middle of a cell, counterclockwise and closed, in degrees."""
    wide, high = 360 / COLUMNS, 180 / ROWS
    x, y = -180 + (column + 0.5) * wide, -90 + (row + 0.5) * high
    corners = []
    for i in range(CORNERS):
        angle, reach = 2 * math.pi * i / CORNERS, draw.uniform(0.2, 0.48)
        corners.append("[%.6f,%.6f]" % (x + wide * reach * math.cos(angle), y + high * reach * math.sin(angle)))
    return ",".join(corners + corners[:1])


def write_stars(path, count):
    """A file of stars, each in a cell of its own: no two borders meet."""
    draw = random.Random(20)
    with open(path, "w", encoding="utf-8") as out:
        out.write('{"type":"FeatureCollection","features":[\n')
        for i in range(min(count, MOST_STARS)):
            row = '"name":"parcel %d","owner":%d' % (i, draw.randint(0, 9999999))
            geometry = '{"type":"Polygon","coordinates":[[%s]]}' % star(draw, i % COLUMNS, i // COLUMNS)
            out.write('%s{"type":"Feature","geometry":%s,"properties":{%s}}'
                      % (",\n" if i > 0 else "", geometry, row))
        out.write("\n]}\n")
