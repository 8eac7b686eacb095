"""Random chains of commands over random small drawings, the same for the same number.

Each chain is one that the program should carry out: a command is taken only for kinds of layers and columns that it
has. Drawings are made as in trials/check: rings that overlap, touch and cross themselves on a small grid.
"""
import json
import random
from typing import Dict, List, NamedTuple

EXPRESSIONS = {
    "whole": ("%s >= 2", "%s === 1 || %s > 2", "%s * 2 != 4", "!(%s < 1)"),
    "number": ("%s !== null && %s > 1", "%s === null", "%s === null ? true : %s * 2 < 5"),
    "key": ("%s == 'a'", "%s != 'b'", "%s < 'c'"),
    "text": ("%s !== null", "%s === 'x, y'", "%s !== null ? %s != '' : false"),
}
MAYBE_NULL = {"n": "number", "g": "text", "v": "number", "w": "text"}    # the columns of a layer, in rows that may lack them
SCALES = {"1": 1, "0.1": 0.1, "0.001": 0.37, "0.000001": 1 / 7}


class Chain(NamedTuple):
    """The files that a run reads, its words, and the names that it writes."""
    files: Dict[str, str]
    words: List[str]
    outputs: List[str]


class State:
    """What the words so far lead to: the kind of the target, and its columns with their types."""

    def __init__(self, draw, kind, columns):
        self.draw, self.kind, self.columns = draw, kind, dict(columns)

    def some(self, kinds):
        return [name for name, kind in self.columns.items() if kind in kinds]

    def pick(self, kinds=("whole", "number", "key", "text")):
        names = self.some(kinds)
        return self.draw.choice(names) if names else None


# ---- files

def layer_text(draw, geometries):
    features = []
    for number, geometry in enumerate(geometries):
        row = {"n": number, "g": draw.choice("abc"), "v": draw.choice((None, 0.5, 1, 2.25, -3)),
               "w": draw.choice((None, "", "x, y", "a \"b\"", "two\nlines", "\u00e4\u4e2d"))}
        shape = None if number > 0 and draw.random() < 0.05 else geometry
        features.append({"type": "Feature", "geometry": shape, "properties": row})
    return json.dumps({"type": "FeatureCollection", "features": features})


def ring(draw, point):
    corners = [point() for _ in range(draw.randrange(3, 8))]
    return corners + corners[:1]


def drawing(draw, kind, size, scale):
    """One to five geometries of a kind, with corners on a small grid."""
    def point():
        return [round(draw.randrange(size) * scale, 6), round(draw.randrange(size) * scale, 6)]

    def line():
        return [point() for _ in range(draw.randrange(2, 6))]

    def polygon():
        return [ring(draw, point) for _ in range(draw.choice((1, 1, 2, 3)))]

    single, make = {"polygon": ("Polygon", polygon), "line": ("LineString", line), "point": ("Point", point)}[kind]
    geometries = []
    for _ in range(draw.randrange(1, 6)):
        if draw.random() < 0.3:
            items = [make() for _ in range(draw.randrange(1, 4))]
            geometries.append({"type": "Multi" + single, "coordinates": items})
        else:
            geometries.append({"type": single, "coordinates": make()})
    return geometries


def table_text(draw):
    keys = draw.sample("abc", draw.randrange(1, 4))
    amounts = ["3"] + [draw.choice(("", "1.5", "7")) for _ in keys[1:]]
    return "g,amount,note\n" + "".join('%s,%s,"n %s, %d"\n' % (k, amounts[i], k, i) for i, k in enumerate(keys))


# ---- commands, each as words that change the state

def source(state, size, scale):
    if state.draw.random() < 0.6:
        return ["b.json"]
    left, right = sorted(state.draw.sample(range(size + 1), 2))
    low, high = sorted(state.draw.sample(range(size + 1), 2))
    return ["bbox=" + ",".join(repr(round(v * scale, 6)) for v in (left, low, right, high))]


def clip(state, size, scale):
    return [state.draw.choice(("-clip", "-erase"))] + source(state, size, scale)


def dissolve(state, size, scale):
    names = list(state.columns)
    state.draw.shuffle(names)
    groups = names[:state.draw.randrange(3)]
    left = names[len(groups):]
    sums = [name for name in left if state.columns[name] in ("whole", "number")][:state.draw.randrange(3)]
    copies = [name for name in left if name not in sums][:state.draw.randrange(2)]
    words = ["-dissolve"] + ([",".join(groups)] if groups else [])
    words += ["copy-fields=" + ",".join(copies)] if copies else []
    words += ["sum-fields=" + ",".join(sums)] if sums else []
    words += ["group-points"] if state.kind == "point" else []
    state.columns = {name: state.columns[name] for name in groups + copies + sums}
    return words


def clean(state, size, scale):
    words = ["-clean"]
    if state.draw.random() < 0.7:
        words.append("overlap-rule=" + state.draw.choice(("min-id", "max-id", "min-area", "max-area")))
    if state.draw.random() < 0.3:
        words.append("gap-fill-area=" + state.draw.choice(("0", "0.5", "1e1", "100")))
    return words + (["allow-empty"] if state.draw.random() < 0.3 else [])


def islands(state, size, scale):
    words = ["-filter-islands", state.draw.choice(("min-area=1", "min-area=0.25", "min-vertices=4", "min-vertices=6"))]
    return words + (["remove-empty"] if state.draw.random() < 0.5 else [])


def mosaic(state, size, scale):
    state.columns = {"ids": "text"}
    return ["-mosaic"]


def inner_lines(state, size, scale):
    state.kind, state.columns = "line", {}
    return ["-innerlines"]


def lines(state, size, scale):
    names = [name for name in state.columns if state.draw.random() < 0.4]
    state.kind, state.columns = "line", {"TYPE": "text", "RANK": "whole"}
    return ["-lines"] + ([",".join(names)] if names else [])


def explode(state, size, scale):
    return ["-explode"]


def join(state, size, scale):
    key = state.pick(("key",))
    if key is None:
        return None
    prefix = "p%d_" % len(state.columns)
    state.columns.update({prefix + "amount": "number", prefix + "note": "text"})
    return ["-join", "t.csv", "keys=%s,g" % key, "prefix=" + prefix]


def join_by_place(state, size, scale):
    prefix, count = "q%d_" % len(state.columns), "k%d" % state.draw.randrange(1000)
    if count in state.columns or count + "s" in state.columns:
        return None
    state.columns.update({prefix + name: kind for name, kind in MAYBE_NULL.items()})
    state.columns.update({count: "whole", count + "s": "number"})
    source = "b.json" if state.kind == "point" else "p.json"
    return ["-join", source, "prefix=" + prefix, "calc=%s = count(), %ss=sum(v)" % (count, count)]


def keep_rows(state, size, scale):
    name = state.pick()
    if name is None or state.draw.random() < 0.2:
        return ["-filter", state.draw.choice(("this.id < 3", "this.id != 0", "true"))]
    pattern = state.draw.choice(EXPRESSIONS[state.columns[name]])
    words = ["-filter", pattern.replace("%s", column(name))]
    return words + (["invert"] if state.draw.random() < 0.2 else []) \
        + (["remove-empty"] if state.kind != "table" and state.draw.random() < 0.2 else [])


def column(name):
    return 'this.properties["%s"]' % name


def calculate(state, size, scale):
    old, new = state.pick(("whole", "number")), "d%d" % state.draw.randrange(1000)
    if old is None or new in state.columns:
        return ["-each", "e = this.id; e = e * 2"] if state.columns.setdefault("e", "whole") == "whole" else None
    state.columns[new] = "number"
    return ["-each", "%s = %s === null ? null : %s * 2.5" % (new, column(old), column(old))]


def order_or_thin(state, size, scale):
    name = state.pick()
    if name is None:
        return None
    if state.draw.random() < 0.5:
        return ["-sort", column(name)] + state.draw.choice(([], ["ascending"], ["descending"]))
    return ["-uniq", column(name), "max-count=%d" % state.draw.randrange(1, 3)] \
        + (["invert"] if state.draw.random() < 0.3 else [])


def keep_columns(state, size, scale):
    names = [name for name in state.columns if state.draw.random() < 0.7]
    state.draw.shuffle(names)
    state.columns = {name: state.columns[name] for name in names}
    return ["-filter-fields"] + ([",".join(names)] if names else [])


def rename(state, size, scale):
    old = state.pick()
    new = "r%d" % state.draw.randrange(1000)
    if old is None or new in state.columns:
        return None
    state.columns = {(new if name == old else name): kind for name, kind in state.columns.items()}
    return ["-rename-fields", "%s=%s" % (new, old)]


def split_and_merge(state, size, scale):
    name = state.pick(("key",))
    return ["-split"] + ([name] if name else []) + ["-merge-layers"]


ANY_KIND = (keep_rows, keep_columns, calculate, order_or_thin, rename, join, dissolve, split_and_merge)
BY_KIND = {
    "polygon": (clip, clip, clip, clean, clean, islands, mosaic, inner_lines, lines, explode, dissolve, join_by_place)
               + ANY_KIND,
    "line": (clip, clip, explode) + ANY_KIND,
    "point": (clip, clip, explode, join_by_place) + ANY_KIND,
    "table": ANY_KIND,
}


def random_chain(number):
    draw = random.Random(7946 + number)
    kind = draw.choice(("polygon",) * 6 + ("line", "line", "point", "table"))
    size = draw.choice((4, 7, 12))
    precision, scale = draw.choice(tuple(SCALES.items()))
    names = ["t.csv"] if kind == "table" else ["a.json", "c.json"] if draw.random() < 0.2 else ["a.json"]
    files = {"b.json": layer_text(draw, drawing(draw, "polygon", size, scale)),
             "p.json": layer_text(draw, drawing(draw, "point", size, scale)), "t.csv": table_text(draw)}
    if kind == "table":
        columns = {"g": "key", "amount": "number", "note": "text"}
    else:
        files.update({name: layer_text(draw, drawing(draw, kind, size, scale)) for name in names})
        columns = {"n": "whole", "g": "key", "v": "number", "w": "text"}
    words = names + ["precision=" + precision]
    if len(names) > 1 and kind == "polygon" and draw.random() < 0.5:
        words.append("-union")
        columns = {name + more: of for more in ("", "_2") for name, of in MAYBE_NULL.items()}
    elif len(names) > 1:
        words.append("-merge-layers")
    state = State(draw, kind, columns)
    for _ in range(draw.randrange(1, 5)):
        words += draw.choice(BY_KIND[state.kind])(state, size, scale) or []
    outputs = ["out.geojson", "out.topojson", "out.csv"]
    if draw.random() < 0.1:
        return Chain(files, words + ["-split", "-o", "out.topojson", "target=*"], ["out.topojson"])
    return Chain(files, words + [word for name in outputs for word in ("-o", name)], outputs)
