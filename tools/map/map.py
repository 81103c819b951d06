"""map.py [--check]: draws docs/map.svg from crates.txt and the first line of each crate's page.

Rooms stand bottom up, each on those that its heading names and its arrows point to. A crate's box has the crate, what its
page begins with, and the crates of its room that it stands on: all of them in rows beneath its own. What follows from others
is left out: of rooms, and of crates. A crate that depends on one of a later room is a mistake, and so is a word that is wider
than its box. --check draws nothing: exit 1 where docs/map.svg is not current, where the table of rooms in docs/ARCHITECTURE.md
has not the rooms and crates of crates.txt, or where one of PAGES names what is not there.
"""
import os
import re
import sys

sys.dont_write_bytecode = True      # leave no folder beside the sources
TOP = os.path.normpath(os.path.join(os.path.dirname(os.path.abspath(__file__)), "..", ".."))

from floors import bands_of, parted, rows_of
from letters import balanced, wide, wrapped
from names import Names, missing_names, wrong_rooms
from rooms import House, read_rooms
from shapes import COLOURS, FAINT, MORE, PAPER, QUIET, STYLE, WIDTH, box, svg_of, text

PICTURE = os.path.join(TOP, "docs", "map.svg")
PAGES = [os.path.join(TOP, page) for page in ("docs/ARCHITECTURE.md", "docs/PROMISES.md", "docs/AGREEMENT.md", "docs/DECISIONS.md",
                                              "README.md", "CONTRIBUTING.md")]
MARGIN, PAD = 12, 12                # around the picture, around what a room has
ABREAST, GAP, STOREY = 4, 10, 10    # cards beside each other, on a whole page; between cards, between rows
ASIDE, APART = 12, 34               # between columns of rooms, between a room and the next
WIDEST, EDGE = 460, 9               # a card at most; beside its words
NAME, WORDS, HEADS = 14, 12.5, 13   # the size of names, of words, of what stands behind a room's name
LINE, LINES = 15, 4                 # height of a line of words, lines of them at most
TITLE = "The crates in their rooms"
LEGEND = ["A room stands on those that its arrows point to. In a box: a crate, what it is for, and behind \"on\" the",
          "crates of its room that it stands on, all in rows beneath it. What follows from others is left out."]


def listed(names):
    return " and ".join([", ".join(names[:-1]), names[-1]] if len(names) > 1 else names)


def fitting(lines, size, room, bold=False):
    """The lines, none of them wider than the room."""
    for one in lines:
        if wide(one, size, bold) > room:
            raise ValueError(f"'{one}' is wider than its box: {wide(one, size, bold):.0f} pixels in {room:.0f}")
    return lines


def told(head, room):
    """As much of a head as there is room for: a whole sentence, its part before a colon, or else before a comma."""
    first = head.split(". ")[0].rstrip(".")
    stops = [len(first)] + [match.start() for stop in ("[:;] ", ", ") for match in list(re.finditer(stop, first))[::-1]]
    for end in stops:
        lines = balanced(first[:end] + ("" if first[end:end + 1] in ("", ":", ";", "?") else " ..."), WORDS, room)
        if len(lines) <= LINES:
            return fitting(lines, WORDS, room)
    raise ValueError(f"'{first}' is longer than {LINES} lines")


class Card:
    """A crate's box, so wide."""

    def __init__(self, crate, needs, width):
        self.name, self.width = crate.name, width
        fitting([crate.name], NAME, width - 2 * EDGE, True)
        self.words = told(crate.head, width - 2 * EDGE)
        self.needs = fitting(balanced(f"on {', '.join(needs)}", WORDS, width - 2 * EDGE), WORDS, width - 2 * EDGE) if needs else []
        self.height = 28 + LINE * (len(self.words) + len(self.needs))

    def svg(self, x, y, height, ink):
        yield box(x, y, self.width, height, PAPER, ink, 8)
        middle, y = x + self.width / 2, y + 19.5 + (height - self.height) / 2
        yield text(middle, y, self.name, "strong", "middle")
        for colour, lines in (QUIET, self.words), (ink, self.needs):
            for one in lines:
                y += LINE
                yield text(middle, y, one, "small", "middle", colour)


class RoomPicture:
    """One room: its cards in rows, at most so many beside each other."""

    def __init__(self, house, index, width, most):
        self.room, self.width = house.rooms[index], width
        self.area, self.ink = (COLOURS + MORE)[index % len(COLOURS + MORE)]
        below = house.below_inside(index)
        crates = {crate.name: crate for crate in self.room.crates}
        inner = width - 2 * PAD
        self.rows = [[Card(crates[name], below[name], min(WIDEST, (inner - GAP * (len(names) - 1)) / len(names))) for name in names]
                     for names in rows_of(below, most)]
        self.tall = [max(card.height for card in row) for row in self.rows]
        stands = [house.rooms[one].name for one in sorted(house.rooms_below[index])]
        self.behind = "; ".join(([f"on {listed(stands)}"] if stands else []) + ([self.room.remark] if self.room.remark else []))
        fitting([self.room.name], NAME, inner, True)
        self.beside = wide(self.room.name, NAME, True) + 10 + wide(self.behind, HEADS) <= inner
        self.beneath = [] if self.beside else fitting(wrapped(self.behind, HEADS, inner), HEADS, inner)
        self.heading = PAD + NAME + LINE * len(self.beneath) + PAD - 4
        self.height = self.heading + sum(self.tall) + STOREY * (len(self.rows) - 1) + PAD
        self.more = 0               # what it is higher than that

    def put(self, x, bottom):
        self.x, self.y, self.bottom = x, bottom - self.height - self.more, bottom

    def svg(self):
        yield box(self.x, self.y, self.width, self.bottom - self.y, self.area, "none", 12)
        left, y = self.x + PAD, self.y + PAD + NAME - 3
        yield text(left, y, self.room.name, "strong", fill=self.ink)
        if self.beside and self.behind:
            yield text(left + wide(self.room.name, NAME, True) + 10, y, self.behind, "quiet")
        for index, one in enumerate(self.beneath):
            yield text(left, y + LINE * (index + 1), one, "quiet")
        air = self.more / len(self.rows)
        y = self.bottom - PAD - air / 2
        for row, tall in zip(self.rows, self.tall):
            x = self.x + (self.width - sum(card.width for card in row) - GAP * (len(row) - 1)) / 2
            for card in row:
                yield from card.svg(x, y - tall, tall, self.ink)
                x += card.width + GAP
            y -= tall + STOREY + air

    def cuts(self, x, above, beneath):
        """Whether a line down from above to beneath meets the room."""
        return self.x - 8 < x < self.x + self.width + 8 and self.y < beneath and above < self.bottom


class Picture:
    def __init__(self, house):
        self.house, self.rooms = house, {}
        bands = [self.laid(band) for band in bands_of(house.rooms_below, ABREAST - 1)]
        self.top = 60 + 18 * len(LEGEND)
        self.height = self.top + sum(height_of(columns) for columns in bands) + APART * (len(bands) - 1) + MARGIN
        bottom = self.height - MARGIN
        for columns in bands:
            self.put(columns, bottom)
            bottom -= height_of(columns) + APART

    def laid(self, band):
        """The columns of a band, parted so that it is lowest."""
        ways = []
        for way in parted(max(ABREAST, len(band)), len(band)):
            unit = (WIDTH - 2 * MARGIN - ASIDE * (len(band) - 1)) / sum(way)
            try:
                ways.append([{index: RoomPicture(self.house, index, unit * cards, cards) for index in column} for column, cards in zip(band, way)])
            except ValueError as error:
                wrong = error
        if not ways:
            raise wrong
        return min(ways, key=height_of)

    def put(self, columns, bottom):
        x, height = MARGIN, height_of(columns)
        for column in columns:
            more, rows = height - height_of([column]), sum(len(one.rows) for one in column.values())
            foot = bottom
            for one in column.values():
                one.more = more * len(one.rows) / rows
                one.put(x, foot)
                foot = one.y - APART
            self.rooms.update(column)
            x += next(iter(column.values())).width + ASIDE

    def heading(self):
        yield text(MARGIN + PAD, 36, TITLE, "title")
        for index, one in enumerate(fitting(LEGEND, HEADS, WIDTH - 2 * (MARGIN + PAD))):
            yield text(MARGIN + PAD, 62 + 18 * index, one, "quiet")

    def arrows(self):
        """Between rooms. One that would meet another room is left out: the heading names what a room stands on."""
        for upper, lowers in sorted(self.house.rooms_below.items()):
            for lower in lowers:
                high, low = self.rooms[upper], self.rooms[lower]
                left, right = max(high.x, low.x), min(high.x + high.width, low.x + low.width)
                x, start, end = (left + right) / 2, high.bottom + 4, low.y - 4
                if left < right and not any(one.cuts(x, start, end) for one in self.rooms.values()):
                    yield (f'<path d="M{x:g} {start:g}L{x:g} {end - 14:g}" stroke="{FAINT}" stroke-width="7"/>'
                           f'<path d="M{x - 11:g} {end - 15:g}L{x + 11:g} {end - 15:g}L{x:g} {end:g}Z" fill="{FAINT}"/>')

    def svg(self):
        parts = [*self.heading(), *self.arrows()]
        for index in sorted(self.rooms):
            parts += self.rooms[index].svg()
        return svg_of(WIDTH, self.height, TITLE, tell(self.house), STYLE, parts)


def height_of(columns):
    """Of a band: that of its highest column."""
    return max(sum(one.height for one in column.values()) + APART * (len(column) - 1) for column in columns)


def tell(house):
    """The picture's description, a line for each room."""
    lines = [f"{len(house.rooms)} rooms with {len(house.place)} crates, from the ground up. What follows from others is left out."]
    for index, room in enumerate(house.rooms):
        below, stands = house.below_inside(index), [house.rooms[one].name for one in sorted(house.rooms_below[index])]
        crates = [crate.name + (f" on {listed(below[crate.name])}" if below[crate.name] else "") for crate in room.crates]
        lines.append(f"{room.name}{f' ({room.remark})' if room.remark else ''} stands on {listed(stands) if stands else 'no other'}. "
                     f"Its crates: {'; '.join(crates)}.")
    return "\n".join(lines)


def check(house, picture):
    """What is not as it should be."""
    try:
        with open(PICTURE, encoding="utf-8") as file:
            shown = file.read()
    except FileNotFoundError:
        shown = None
    if shown != picture:
        yield "docs/map.svg is not current: python3 tools/map/map.py draws it"
    yield from wrong_rooms(TOP, PAGES[0], house.rooms)
    names = Names(TOP, house.place)
    for page in PAGES:
        yield from missing_names(TOP, page, names)


def main():
    if sys.argv[1:] not in ([], ["--check"]):
        sys.exit(__doc__)
    try:
        house = House(read_rooms(TOP))
        picture = Picture(house).svg()
    except ValueError as error:
        sys.exit(f"map.py: {error}")
    if not sys.argv[1:]:
        with open(PICTURE, "w", encoding="utf-8") as file:
            file.write(picture)
        return 0
    wrong = list(check(house, picture))
    for one in wrong:
        print(f"map.py: {one}")
    return 1 if wrong else 0


if __name__ == "__main__":
    sys.exit(main())
