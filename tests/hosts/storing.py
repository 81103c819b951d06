"""storing.py [ARCHIVE [SEEDS]]: what hosts store and sign, against docs/TABLES.md ("The stored form") and docs/HOSTS.md ("What is
signed, to the byte"), written from these pages with Python's hashlib: nothing here is of the engine.

ARCHIVE is the engine's static library (crates/host/out/libhost.a if not given), SEEDS how many times everything is tried, 300 if
not given. Each time it makes words of a state and a table, of any content, and tries
  - store, on enough bytes and on too few, with a table of the right length, a longer and a shorter one;
  - load of what was stored, of other members, runs and formats, of bytes that were cut, lengthened, changed in one bit, and of
    two stores mixed by sectors of 512 bytes, as a disk leaves them where the power fails;
  - the bytes that are signed, of proposals and certificates of any words.
Every number and every byte and word afterwards is compared. It exits 1 at the first difference, else it says how many were the same.
"""
import ctypes
import hashlib
import random
import struct
import subprocess
import sys
import tempfile
from pathlib import Path

TOP = Path(__file__).resolve().parents[2]
STATE, PROPOSAL, CERTIFICATE = 39, 16, 17
OWN, CEILING, FORMAT, SECTOR = 0, 2, 3, 512


def bytes_of(words):
    return struct.pack(f"<{len(words)}I", *words)


# ---- the stored form, from docs/TABLES.md

def used_words(ceiling):
    return 272 * (ceiling + 1)


def stored_bytes(ceiling):
    return 16 + 4 * STATE + 4 * used_words(ceiling) + 32


def state_reads(state):
    """A state's words can be read: thirty-nine, a flag of 0 or 1, and a body where it says that there is a proposal."""
    if len(state) < STATE or state[21] > 1:
        return False
    return state[21] == 0 or body_reads(state[23:37])


def body_reads(body):
    if body[0] >= 65536:
        return False
    for k in range(min(body[1], 4)):
        kind, _, amount = body[2 + 3 * k:5 + 3 * k]
        if not (kind == 0 or kind <= 2 and amount == 0):
            return False
    return True


def store(state, table, run, room):
    """The number that refuses, and the bytes."""
    if not state_reads(state) or len(table) < used_words(state[CEILING]):
        return 101, b""
    if room < stored_bytes(state[CEILING]):
        return 102, b""
    covered = b"FLS1" + struct.pack("<IQ", FORMAT, run) + bytes_of(state[:STATE]) + bytes_of(table[:used_words(state[CEILING])])
    return 0, covered + hashlib.sha256(covered).digest()


def load(stored, own, run, state_room, table_room):
    """The number that refuses, the state's words and the table's."""
    if len(stored) < stored_bytes(0):
        return 105, [], []
    if stored[:4] != b"FLS1":
        return 103, [], []
    if struct.unpack("<I", stored[4:8])[0] != FORMAT:
        return 104, [], []
    words = list(struct.unpack(f"<{STATE}I", stored[16:16 + 4 * STATE]))
    if len(stored) != stored_bytes(words[CEILING]) or hashlib.sha256(stored[:-32]).digest() != stored[-32:]:
        return 105, [], []
    if words[OWN] != own:
        return 106, [], []
    if struct.unpack("<Q", stored[8:16])[0] != run:
        return 107, [], []
    if not state_reads(words):
        return 101, [], []
    if state_room < STATE or table_room < used_words(words[CEILING]):
        return 102, [], []
    return 0, words, list(struct.unpack(f"<{used_words(words[CEILING])}I", stored[16 + 4 * STATE:-32]))


# ---- what is signed, from docs/HOSTS.md

def signed(mark, state, run, words, room, endorsers):
    needed = 100 + 4 * endorsers
    if len(state) < STATE or len(words) < PROPOSAL + endorsers or not body_reads(words[2:16]):
        return 101, b""
    if endorsers and words[PROPOSAL] >= 65536:
        return 101, b""
    if room < needed:
        return 102, b""
    used = 4 + 3 * min(words[3], 4)
    proposal = words[:used] + [0] * (PROPOSAL - used)
    run_bytes = hashlib.sha256(bytes_of(state[1:20] + [state[37]]) + struct.pack("<Q", run)).digest()
    return 0, mark + run_bytes + bytes_of(proposal + words[PROPOSAL:PROPOSAL + endorsers])


# ---- the archive

def library(archive):
    out = Path(tempfile.mkdtemp(prefix="forgelilac-storing-")) / "library.so"
    subprocess.run(["gcc", "-shared", "-o", out, "-Wl,--whole-archive", archive, "-Wl,--no-whole-archive"], check=True)
    loaded = ctypes.CDLL(str(out))
    loaded.forgelilac_stored_bytes.restype = ctypes.c_uint64
    return loaded


def lent(words):
    return (ctypes.c_uint32 * len(words))(*words), ctypes.c_size_t(len(words))


def lent_bytes(content):
    return (ctypes.c_uint8 * len(content)).from_buffer_copy(content), ctypes.c_size_t(len(content))


class Tries:
    def __init__(self, archive, seed):
        self.archive, self.random, self.same = archive, random.Random(seed), 0

    def equal(self, what, found, expected):
        if found != expected:
            sys.exit(f"storing: {what}: {found if isinstance(found, int) else 'other content'}, "
                     f"expected {expected if isinstance(expected, int) else 'that of the page'}")
        self.same += 1

    def word(self):
        return self.random.choice([0, 1, 2, 3, 4, 5, 16, 65535, 65536, 2**32 - 1, self.random.getrandbits(32)])

    def body(self):
        body = [self.random.choice([0, 7, 65535, self.word()]), self.random.choice([0, 1, 2, 4, 5, self.word()])]
        for _ in range(4):
            kind = self.random.choice([0, 0, 1, 2, 2, 3])
            body += [kind, self.word(), self.word() if kind == 0 or self.random.random() < 0.05 else 0]
        return body

    def member(self, ceiling):
        state = [self.word() for _ in range(STATE)]
        state[CEILING], state[21], state[23:37] = ceiling, self.random.choice([0, 0, 1, 1, 2]), self.body()
        table = [self.random.getrandbits(32) for _ in range(used_words(ceiling))]
        return state, table

    def stored(self, state, table, run, room):
        before = bytes([self.random.getrandbits(8)]) * room
        out, count = lent_bytes(before)
        number, expected = store(state, table, run, room)
        found = self.archive.forgelilac_store(*lent(state), *lent(table), ctypes.c_uint64(run), out, count)
        self.equal("store, number", found, number)
        self.equal("store, bytes", bytes(out), expected + before[len(expected):])
        return expected

    def loaded(self, stored, own, run, state_room, table_room):
        before = [self.random.getrandbits(32)] * state_room, [self.random.getrandbits(32)] * table_room
        state, table = lent(before[0]), lent(before[1])
        number, state_words, table_words = load(stored, own, run, state_room, table_room)
        found = self.archive.forgelilac_load(*lent_bytes(stored), own, ctypes.c_uint64(run), *state, *table)
        self.equal("load, number", found, number)
        self.equal("load, state", list(state[0]), state_words + before[0][len(state_words):])
        self.equal("load, table", list(table[0]), table_words + before[1][len(table_words):])
        return number

    def signs(self, state, run):
        proposal = [self.word(), self.word()] + self.body()
        kinds = [("proposal", b"FLP1", 0), ("endorsement", b"FLE1", 0), ("certificate", b"FLC1", 1)]
        for name, mark, endorsers in kinds:
            words = proposal + [self.random.choice([0, 6, 65535, 65536])] * endorsers
            words = words[:self.random.choice([len(words)] * 5 + [len(words) - 1])] + [9] * self.random.choice([0, 3])
            room = 100 + 4 * endorsers + self.random.choice([0, 0, 0, 5, -1])
            before = b"\xaa" * room
            out, count = lent_bytes(before)
            number, expected = signed(mark, state, run, words, room, endorsers)
            call = getattr(self.archive, f"forgelilac_{name}_bytes")
            self.equal(f"{name}, number", call(*lent(state), ctypes.c_uint64(run), *lent(words), out, count), number)
            self.equal(f"{name}, bytes", bytes(out), expected + before[len(expected):])

    def once(self):
        ceiling, run = self.random.choice([0, 1, 3, 4, 8, 64]), self.random.getrandbits(64)
        state, table = self.member(ceiling)
        needed = stored_bytes(ceiling)
        self.equal("stored bytes", self.archive.forgelilac_stored_bytes(ceiling), needed)
        self.stored(state, table[:-1], run, needed)
        self.stored(state[:-1], table, run, needed)
        self.stored(state, table, run, needed - 1)
        self.stored(state + [1], table + [7, 8], run, needed + 9)
        self.signs(state, run)
        self.signs(state[:38], run)
        stored = self.stored(state, table, run, needed)
        if not stored:
            return
        own, rooms = state[OWN], (STATE, len(table))
        self.equal("loaded", self.loaded(stored, own, run, STATE + 2, len(table) + 3), 0)
        self.loaded(stored, own ^ 1, run, *rooms)
        self.loaded(stored, own, run ^ 1 << self.random.randrange(64), *rooms)
        self.loaded(stored, own, run, STATE - 1, len(table))
        self.loaded(stored, own, run, STATE, len(table) - 1)
        self.loaded(stored[:self.random.randrange(len(stored))], own, run, *rooms)
        self.loaded(stored + b"\0", own, run, *rooms)
        for _ in range(20):
            damaged = bytearray(stored)
            damaged[self.random.choice([self.random.randrange(200), self.random.randrange(len(stored))])] ^= 1 << self.random.randrange(8)
            self.loaded(bytes(damaged), own, run, *rooms)
        # Other marks, formats and unreadable words with a digest of theirs: no store makes them.
        for at, value in ((0, 0x314C4C46), (4, 2), (4, 4), (16 + 4 * 21, 2), (16 + 4 * CEILING, ceiling + 1)):
            made = bytearray(stored[:-32])
            made[at:at + 4] = struct.pack("<I", value)
            self.loaded(bytes(made) + hashlib.sha256(made).digest(), own, run, *rooms)
        # The power fails while another store is written over this one: sectors of both.
        later = [word if self.random.random() < 0.9 else self.random.getrandbits(32) for word in table]
        new = self.stored(state, later, run, needed)
        sectors = range(0, needed, SECTOR)
        for _ in range(20):
            cut, order = self.random.randrange(len(sectors) + 1), self.random.random() < 0.5
            chosen = set(sectors[:cut]) if order else {at for at in sectors if self.random.random() < 0.5}
            mixed = b"".join((new if at in chosen else stored)[at:at + SECTOR] for at in sectors)
            number = self.loaded(mixed, own, run, *rooms)
            self.equal("mixed", number, 0 if mixed in (stored, new) else 105)


def main():
    archive = sys.argv[1] if len(sys.argv) > 1 else TOP / "crates/host/out/libhost.a"
    if not Path(archive).is_file():
        sys.exit(f"storing: no archive {archive}: run 'cd crates/host && rt lib'")
    tries = Tries(library(archive), 1)
    for _ in range(int(sys.argv[2]) if len(sys.argv) > 2 else 300):
        tries.once()
    print(f"storing: {tries.same} numbers, bytes and words as the pages say")


main()
