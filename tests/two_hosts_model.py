#!/usr/bin/env python3
"""What the program two_hosts has to print, by a model of a card that knows no cipher: a sealed frame is a record of its number,
the pair and the bytes. It follows docs/LAW.md and shares no text with the code. Writes to standard output; crates/two_hosts/stdout is that."""

FRAME = 128
OLD, NEW = tuple(range(32)), tuple(range(32, 64))
BLANK = bytes(FRAME)


class Refused(Exception):
    pass


def refuse(*numbers):
    raise Refused("refused {} {} {}".format(*numbers))


class Store:
    """Frame 0 is a label or blank; the others hold what was sealed, or blank bytes."""

    def __init__(self, frames, worn=()):
        self.frames = [BLANK] * frames
        self.worn = set(worn)

    def grown(self):
        """The same frames and one more, none of them worn."""
        longer = Store(len(self.frames) + 1)
        longer.frames[: len(self.frames)] = self.frames
        return longer


class Card:
    def __init__(self, store):
        self.store = store
        self.pair = self.second = None
        self.label = None

    def size(self):
        return len(self.store.frames)

    def state(self):
        if self.label is None:
            return 0
        return 1 if self.label["next"] is None else 2

    def belongs(self, *states):
        if self.state() not in states:
            refuse(1, 1, 0)

    def keys_at(self, n):
        return self.second if self.state() == 2 and n <= self.label["moved"] else self.pair

    def write_label(self, **fields):
        self.label = dict(self.label or {}, **fields)
        self.store.frames[0] = dict(self.label)

    def make(self, pair):
        self.belongs(0)
        if len(pair) not in (32, 48, 64):
            refuse(2, 1, 0)
        if self.size() < 2:
            refuse(4, 1, 1)
        if 0 in self.store.worn:
            refuse(5, 2, 0)
        sound = [n for n in range(1, self.size()) if n not in self.store.worn]
        for n in sound:
            self.store.frames[n] = (n, pair, BLANK)
        self.pair = pair
        self.write_label(size=len(pair), frames=self.size(), check=pair, next=None, moved=0)
        return f"made {len(sound)}"

    def mount(self, pair, second):
        self.belongs(0)
        if self.size() < 2:
            refuse(4, 1, 1)
        if 0 in self.store.worn:
            refuse(5, 2, 0)
        label = self.store.frames[0]
        if not isinstance(label, dict):
            refuse(6, 1, 0)
        if label["frames"] != self.size():
            refuse(7, 1, 0)
        if len(pair) != label["size"] or len(second) != (0 if label["next"] is None else len(pair)):
            refuse(2, 1, 0)
        if pair != label["check"] or (label["next"] or ()) != second:
            refuse(8, 1, 0)
        self.label, self.pair, self.second = dict(label), pair, second
        return f"mounted {self.state()}"

    def eject(self):
        self.belongs(1, 2)
        self.label = self.pair = self.second = None
        return "ejected"

    def reach(self, n, size):
        self.belongs(1, 2)
        if size != FRAME:
            refuse(3, 1, n)
        if n == 0:
            refuse(4, 1, 0)
        if n >= self.size():
            refuse(4, 2, n)
        if n in self.store.worn:
            refuse(5, 2, n)

    def read(self, n, size=FRAME):
        self.reach(n, size)
        number, pair, content = self.store.frames[n]
        assert (number, pair) == (n, self.keys_at(n)), "a frame that stands under another pair or number"
        return "read " + content.hex()

    def write(self, n, content):
        self.reach(n, len(content))
        self.store.frames[n] = (n, self.keys_at(n), content)
        return "written"

    def start(self, pair):
        self.belongs(1)
        if len(pair) != self.label["size"]:
            refuse(2, 1, 0)
        self.second = pair
        self.write_label(next=pair, moved=0)
        return f"started {self.size() - 1}"

    def step(self):
        self.belongs(2)
        n = self.label["moved"] + 1
        passed = n in self.store.worn
        if not passed:
            number, pair, content = self.store.frames[n]
            assert (number, pair) == (n, self.pair)
            self.store.frames[n] = (n, self.second, content)
        over = n == self.size() - 1
        if over:
            self.pair, self.second = self.second, None
            self.write_label(check=self.pair, next=None, moved=0)
        else:
            self.write_label(moved=n)
        yes = lambda it: "yes" if it else "no"
        return f"stepped {n} passed={yes(passed)} over={yes(over)}"

    def status(self):
        if self.state() == 0:
            return "status 0 0 0"
        return f"status {self.state()} {self.size()} {self.label['moved']}"


def save(byte):
    return bytes([byte]) * FRAME


AT_HOME = [
    ("status",), ("eject",), ("mount", OLD, ()), ("make", (0,) * 31), ("make", OLD), ("write", 2, save(2)), ("write", 9, save(9)),
    ("write", 3, save(3)), ("read", 0), ("read", 16), ("read", 5, 127), ("step",), ("start", NEW), *[("step",)] * 7, ("eject",),
]
READS = [("read", n) for n in (2, 7, 8, 9, 15)]
ABROAD = [
    ("mount", OLD, ()), ("mount", NEW, OLD), ("mount", OLD, NEW), ("status",), ("write", 7, save(7)), ("write", 8, save(8)),
    *READS, *[("step",)] * 8, *READS, ("status",), ("eject",),
]


def played(card, calls):
    for name, *given in calls:
        try:
            yield getattr(card, name)(*given)
        except Refused as why:
            yield str(why)


def main():
    store = Store(16, worn=(3, 12))
    lines = [*played(Card(store), AT_HOME), *played(Card(store), ABROAD), *played(Card(store.grown()), [("mount", NEW, ())])]
    for n, line in enumerate(lines, 1):
        print(n, line)
    print(f"calls={len(lines)} alike={len(lines)}")


main()
