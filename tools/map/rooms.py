"""The rooms of crates.txt: a room is a paragraph whose first line, a comment, names it; then a line for each crate."""
import os
import re
from collections import namedtuple

Crate = namedtuple("Crate", "name needs head")      # head: its first comment
Room = namedtuple("Room", "name remark crates")     # remark: what stands behind a colon in its name


def head_of(top, name):
    """What the first line of a crate's page says."""
    for file in ("lib.rt", "main.rt"):
        path = os.path.join(top, "crates", name, "src", file)
        if os.path.exists(path):
            with open(path, encoding="utf-8") as source:
                first = source.readline().strip()
            if first.startswith("//"):
                return first.lstrip("/! ")
    raise ValueError(f"crates/{name}/src has no lib.rt or main.rt that starts with a comment")


def crate_of(top, line):
    name, _, needs = line.partition("#")[0].partition(":")
    name = name.split()[0]      # what stands behind it says how it is built
    return Crate(name, needs.split(), head_of(top, name))


def room_of(top, lines):
    """The room of a paragraph, none where it lists no crate."""
    crates = [crate_of(top, line) for line in lines if not line.startswith("#")]
    if not crates:
        return None
    if not lines[0].startswith("#"):
        raise ValueError(f"crates.txt: {crates[0].name} is in no room: the first line of a paragraph names one")
    name, _, remark = lines[0].lstrip("# ").partition(":")
    return Room(name.strip(), remark.strip(), crates)


def read_rooms(top):
    with open(os.path.join(top, "crates.txt"), encoding="utf-8") as file:
        paragraphs = re.split(r"\n\s*\n", file.read())
    rooms = [room_of(top, [line.strip() for line in paragraph.splitlines() if line.strip()])
             for paragraph in paragraphs if paragraph.strip()]
    return [room for room in rooms if room]


def reached(needs):
    """All that each one stands on, by any number of steps."""
    below = {name: set(direct) for name, direct in needs.items()}
    changed = True
    while changed:
        changed = False
        for name in below:
            more = set().union(*(below[one] for one in below[name])) - below[name]
            below[name] |= more
            changed = changed or bool(more)
    return below


def reduced(needs):
    """The needs without those that follow from others."""
    below = reached(needs)
    for name in needs:
        if name in below[name]:
            raise ValueError(f"crates.txt: {name} depends on itself")
    return {name: [one for one in direct if not any(one in below[other] for other in direct)]
            for name, direct in needs.items()}


class House:
    """Rooms, and what follows from the crates' needs: which room stands on which, and which crate of a room on which."""

    def __init__(self, rooms):
        self.rooms = rooms
        self.place = {crate.name: index for index, room in enumerate(rooms) for crate in room.crates}
        self.needs = {crate.name: [one for one in crate.needs if one in self.place]     # others are the toolchain's
                      for room in rooms for crate in room.crates}
        self.refuse_upward()
        self.below = reduced(self.needs)
        self.rooms_below = reduced(self.rooms_used())

    def refuse_upward(self):
        for name, needs in self.needs.items():
            for one in needs:
                if self.place[one] > self.place[name]:
                    raise ValueError(f"crates.txt: {name} ({self.room_name(name)}) depends on {one}, "
                                     f"which is in a later room ({self.room_name(one)}): arrows run downward only")

    def room_name(self, crate):
        return self.rooms[self.place[crate]].name

    def rooms_used(self):
        used = {index: [] for index in range(len(self.rooms))}
        for name, needs in self.needs.items():
            for one in needs:
                here, there = self.place[name], self.place[one]
                if here != there and there not in used[here]:
                    used[here].append(there)
        return used

    def below_inside(self, index):
        """For each crate of a room, those of the same room that it stands on."""
        return {crate.name: [one for one in self.below[crate.name] if self.place[one] == index]
                for crate in self.rooms[index].crates}


def heights_of(below):
    """How many others stand beneath each one, on the longest way down."""
    heights = {}

    def height(name):
        if name not in heights:
            heights[name] = max((height(one) + 1 for one in below[name]), default=0)
        return heights[name]

    return {name: height(name) for name in below}


def turned(below):
    """What stands on each one."""
    return {name: [one for one in below if name in below[one]] for name in below}
