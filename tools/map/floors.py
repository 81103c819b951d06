"""How things that stand on each other are placed: the crates of a room in rows, the rooms of the house in bands of columns."""
from itertools import combinations

from rooms import heights_of, turned


def rows_of(below, most):
    """Rows bottom up of at most so many crates each, in their order: each stands only on crates of rows beneath its own."""
    above, left, placed, rows = heights_of(turned(below)), list(below), set(), []
    while left:
        ready = sorted((name for name in left if placed.issuperset(below[name])), key=lambda name: -above[name])[:most]
        rows.append([name for name in left if name in ready])
        placed.update(ready)
        left = [name for name in left if name not in ready]
    return rows


def spans_of(below):
    """The levels of each room: from just above what it stands on to just beneath what stands on it."""
    heights, above = heights_of(below), turned(below)
    return {room: range(low, min([heights[one] for one in above[room]], default=low + 1)) for room, low in heights.items()}


def bands_of(below, most):
    """Bands bottom up, each of columns left to right, each of rooms bottom up. A band of more columns than so many, or with
    a room that stands on one of another column, is parted into levels."""
    bands = []
    for band in spanned(below):
        column_of = {room: index for index, column in enumerate(band) for room in column}
        across = any(column_of.get(one, column_of[room]) != column_of[room] for room in column_of for one in below[room])
        bands += leveled(column_of, below, most) if across or len(band) > most else [band]
    return bands


def spanned(below):
    """As few levels in a band as rooms let be that are higher than one; as few columns as the band's levels let be."""
    spans, bands = spans_of(below), []
    for room in sorted(spans, key=lambda one: (spans[one][0], one)):
        if not bands or spans[room][0] > max(spans[one][-1] for column in bands[-1] for one in column):
            bands.append([])
        free = [column for column in bands[-1] if spans[column[-1]][-1] < spans[room][0]]
        best = next((column for column in free if column[-1] in below[room]), free[0] if free else None)
        if best is None:
            bands[-1].append([room])
        else:
            best.append(room)
    return bands


def leveled(rooms, below, most):
    """The rooms, each in a column of its own, in a band for each level or in several."""
    heights, bands = heights_of(below), []
    for height in sorted({heights[room] for room in rooms}):
        level = sorted(room for room in rooms if heights[room] == height)
        parts = -(-len(level) // most)
        bands += [[[room] for room in level[part * len(level) // parts:(part + 1) * len(level) // parts]] for part in range(parts)]
    return bands


def parted(many, columns):
    """Every way to part so many cards between so many columns, the most even first."""
    ways = [[end - start for start, end in zip((0, *ends), (*ends, many))] for ends in combinations(range(1, many), columns - 1)]
    return sorted(ways, key=lambda way: max(way) - min(way))
