"""Regions of the plane by slow and plain means: functions from a point off all links to whether it is in the region.

A link is a pair of vertices, the lesser first. What hangs together is told by the cells between upright lines through
all vertices, which are joined where they touch. Nothing here is taken from the program.
"""
from fractions import Fraction

TINY = Fraction(1, 10 ** 9)


def any_of(regions):
    return lambda z: any(region(z) for region in regions)


def height(link, x):
    (a, b) = link
    return a[1] + Fraction(b[1] - a[1], b[0] - a[0]) * (x - a[0])


def sides(link):
    """Two points so near to the middle of a link that no other link lies between: above or left, then the other."""
    (a, b) = link
    middle = (Fraction(a[0] + b[0], 2), Fraction(a[1] + b[1], 2))
    right = (b[1] - a[1], a[0] - b[0])
    return [(middle[0] + s * TINY * right[0], middle[1] + s * TINY * right[1]) for s in (-1, 1)]


def lies_beside(links, region, p):
    """Whether a region has what lies round a vertex, or between some two of the links that end there."""
    ends = [link for link in links if p in link]
    return any(region(z) for link in ends for z in sides(link)) if ends else region(p)


class Cells:
    """The plane between upright lines through all vertices, cut by the links, and joined within a region."""

    def __init__(self, links, region):
        self.links, self.parent, self.columns = links, {}, {}
        self.xs = sorted({p[0] for link in links for p in link})
        for number, (left, right) in enumerate(zip(self.xs, self.xs[1:])):
            self.columns[number] = self.column(number, left, right, region)
        for number in range(len(self.xs) - 2):
            self.join_across(number)

    def column(self, number, left, right, region):
        """The cells of a column that are in the region, each with its lower and its upper link."""
        x = Fraction(left + right, 2)
        cut = sorted((height(link, x), link) for link in self.links if link[0][0] <= left and right <= link[1][0])
        cells = []
        for (low, below), (high, above) in zip(cut, cut[1:]):
            if region((x, (low + high) / 2)):
                cell = (number, below, above)
                self.parent[cell] = cell
                if cells and cells[-1][2] == below:
                    self.join(cells[-1], cell)
                cells.append(cell)
        return cells

    def join_across(self, number):
        """Two cells of neighbouring columns hang together where they have a stretch of their common line."""
        x = self.xs[number + 1]
        for a in self.columns[number]:
            for b in self.columns[number + 1]:
                if max(height(a[1], x), height(b[1], x)) < min(height(a[2], x), height(b[2], x)):
                    self.join(a, b)

    def root(self, cell):
        while self.parent[cell] != cell:
            cell = self.parent[cell]
        return cell

    def join(self, a, b):
        self.parent[self.root(a)] = self.root(b)

    def part_at(self, z):
        """The part in which a point of the region lies."""
        number = next(i for i in range(len(self.xs) - 1) if self.xs[i] <= z[0] < self.xs[i + 1])
        cells = self.columns[number]
        return self.root(next(c for c in cells if height(c[1], z[0]) < z[1] < height(c[2], z[0])))


def boundary(links, region):
    """The links with just one side in the region, directed with it on their left, and a point at that side."""
    for link in links:
        left, right = sides(link)
        if region(left) != region(right):
            yield (link, left) if region(left) else (link[::-1], right)


def across(directed, inner):
    """The point at the other side of a link of a boundary."""
    return next(z for z in sides(tuple(sorted(directed))) if z != inner)


def twice_region_area(links, region):
    return sum(a[0] * b[1] - b[0] * a[1] for (a, b), _ in boundary(links, region))


# ---- gaps

def gaps(links, regions):
    """What no region has, parted where it doesn't hang together, without what surrounds all."""
    if not links:
        return []
    framed, corner = with_frame(links)
    taken = any_of(regions)
    cells = Cells(framed, lambda z: not taken(z))
    outside = cells.part_at(corner)

    def gap(root):
        return lambda z: not taken(z) and cells.part_at(z) == root

    return [gap(root) for root in sorted({cells.root(c) for c in cells.parent} - {outside})]


def with_frame(links):
    """The links with a level line below and above all of them, and a point between these that is outside of all."""
    points = [p for link in links for p in link]
    left, right = min(p[0] for p in points) - 1, max(p[0] for p in points) + 1
    low, high = min(p[1] for p in points) - 1, max(p[1] for p in points) + 1
    frame = {((left, low), (right, low)), ((left, high), (right, high))}
    return set(links) | frame, (left + Fraction(1, 2), low + Fraction(1, 2))


def filled(links, held, won, order, most):
    """The regions `won`, each with the gaps of at most this area of which it is the first neighbour in the order.

    A gap is what none of the regions `held` has.
    """
    given = [[] for _ in won]
    for gap in gaps(links, held):
        if twice_region_area(links, gap) <= 2 * most:
            beside = [across(link, inner) for link, inner in boundary(links, gap)]
            given[next(i for i in order if any(won[i](z) for z in beside))].append(gap)
    return [any_of([region] + more) for region, more in zip(won, given)]


# ---- islands

def mainland(links, region, others, least_area, least_links=0):
    """The region without its parts that no other borders and that are small in area or in links."""
    cells, parts = Cells(links, region), {}
    for link, inner in boundary(links, region):
        parts.setdefault(cells.part_at(inner), []).append((link, inner))
    kept = {root for root, around in parts.items()
            if is_bordered(around, any_of(others)) or not is_small(around, least_area, least_links)}
    return lambda z: region(z) and cells.part_at(z) in kept


def is_bordered(around, others):
    return any(others(inner) or others(across(link, inner)) for link, inner in around)


def is_small(around, least_area, least_links):
    area = sum(a[0] * b[1] - b[0] * a[1] for (a, b), _ in around)
    return area < 2 * least_area or len(around) < least_links
