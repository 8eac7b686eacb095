"""The plane by slow and plain means: fractions, all pairs, crossings counted one by one.

Points are pairs of whole numbers. Nothing here is taken from the program.
"""
import math
from fractions import Fraction

HALF = Fraction(1, 2)


def cross(s, t):
    """The meeting point of two segments that aren't parallel, or None."""
    (a, b), (c, d) = s, t
    dx, dy, ex, ey = b[0] - a[0], b[1] - a[1], d[0] - c[0], d[1] - c[1]
    turn = dx * ey - dy * ex
    if turn == 0:
        return None
    p = Fraction((c[0] - a[0]) * ey - (c[1] - a[1]) * ex, turn)
    q = Fraction((c[0] - a[0]) * dy - (c[1] - a[1]) * dx, turn)
    return (a[0] + p * dx, a[1] + p * dy) if 0 <= p <= 1 and 0 <= q <= 1 else None


def pixel(z):
    """The grid point whose pixel, closed on the left and below, holds the point."""
    return tuple(math.floor(v + HALF) for v in z)


def share_in(s, g):
    """The middle of the shares of the way of s that lie in the pixel of g, or None."""
    (a, b), stops = s, {Fraction(0), Fraction(1)}
    for k in (0, 1):
        if a[k] != b[k]:
            stops |= {(g[k] + side * HALF - a[k]) / Fraction(b[k] - a[k]) for side in (-1, 1)}
    stops = sorted(t for t in stops if 0 <= t <= 1)
    tries = stops + [(t + u) / 2 for t, u in zip(stops, stops[1:])]
    held = [t for t in tries if pixel((a[0] + t * (b[0] - a[0]), a[1] + t * (b[1] - a[1]))) == g]
    return sum(held) / len(held) if held else None


def steps(path):
    return [(p, q) for p, q in zip(path, path[1:]) if p != q]


def hot_points(paths, points):
    """Ends of segments, single points, and the pixels of crossings."""
    segments = [s for path in paths for s in steps(path)]
    hot = {p for path in paths for p in path} | set(points)
    for i, s in enumerate(segments):
        for t in segments[:i]:
            z = cross(s, t)
            if z is not None:
                hot.add(pixel(z))
    return hot


def snapped(path, hot):
    """The path with each segment turned through the hot pixels that it meets."""
    out = [path[0]]
    for s in steps(path):
        met = sorted((share_in(s, g), g) for g in hot if share_in(s, g) is not None)
        for _, g in met:
            if out[-1] != g:
                out.append(g)
    return out


def is_in(rings, z):
    """Whether a ray down from z, which is on no link, crosses the rings' links an odd number of times."""
    count = 0
    for ring in rings:
        for (a, b) in steps(ring):
            low, high = (a, b) if a <= b else (b, a)
            if low[0] <= z[0] < high[0]:
                y = low[1] + Fraction(high[1] - low[1], high[0] - low[0]) * (z[0] - low[0])
                count += y < z[1]
    return count % 2 == 1


def witnesses(paths):
    """Points off all links, at least one in each face but the outer one: between neighbours on upright lines."""
    links = {tuple(sorted(s)) for path in paths for s in steps(path)}
    columns = sorted({p[0] for link in links for p in link})
    for left, right in zip(columns, columns[1:]):
        x = Fraction(left + right, 2)
        cuts = sorted({a[1] + Fraction(b[1] - a[1], b[0] - a[0]) * (x - a[0])
                       for a, b in links if a[0] < x < b[0]})
        for low, high in zip(cuts, cuts[1:]):
            yield (x, (low + high) / 2)


def twice_area(ring):
    return sum(a[0] * b[1] - b[0] * a[1] for a, b in steps(ring))
