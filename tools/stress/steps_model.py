"""A small plain model of `clearmap steps`: sets of cells, lists of blocks, and the text of each
line's answer."""
import re

NUMBER = re.compile(r"[0-9]{1,10}")
COMMANDS = ("PAINT", "CLEAR", "PUBLISH", "REVERT", "COLLECT", "CHECKPOINT")


class Refused(Exception):
    """A command is refused, with the text that says so."""


class NotEnabled(Exception):
    """An event isn't enabled."""


def number(word):
    return int(word) if NUMBER.fullmatch(word) and int(word) < 2 ** 32 else None


class World:
    """A blank map with its words, its keeper and its readers."""

    def __init__(self, width, height, blocks, versions, sessions, log):
        self.width, self.height = width, height
        self.across = (width + 63) // 64
        self.tiles = self.across * ((height + 63) // 64)
        self.blocks, self.versions, self.limit = blocks, versions, log
        self.place, self.checkpointed, self.hand = 0, 0, None
        self.slots, self.slot_of = [0] + [None] * (versions - 1), {0: 0}
        self.draft, self.published = set(), [set()]
        self.own, self.free, self.retired = {}, list(range(self.tiles, blocks)), []
        self.came = [0] * self.tiles
        self.directories = [list(range(self.tiles))]
        self.now = (0, 0)
        self.pins = [0] * sessions
        self.maps = {(0, k): k for k in range(self.tiles)}
        self.rows = {}
        self.seen = [0] * sessions
        self.announced, self.holds = [None] * sessions, [None] * sessions

    @property
    def newest(self):
        return len(self.published) - 1

    def check_log(self):
        """The entries after the last checkpoint count against the log's limit."""
        if self.place - self.checkpointed >= self.limit:
            raise Refused("ERR 4 LogFull")

    def position(self, cell):
        return cell[1] // 64 * self.across + cell[0] // 64

    def row_word(self, cells, k, i):
        x0, y = 64 * (k % self.across), 64 * (k // self.across) + i
        return sum(1 << j for j in range(64) if (x0 + j, y) in cells)

    # ---- orders

    def order(self, words):
        command, arguments = words[0], words[1:]
        if command in ("PAINT", "CLEAR"):
            rect = [number(word) for word in arguments]
            if len(rect) != 4 or None in rect:
                raise Refused("ERR 12 BadArguments")
            x0, y0, x1, y1 = rect
            if not (x0 < x1 <= 4096 and y0 < y1 <= 4096):
                raise Refused("ERR 12 BadArguments")
            draw = ("draw", x0, y0, x1, y1, command == "PAINT")
        elif arguments:
            raise Refused("ERR 12 BadArguments")
        if self.hand is not None:
            raise NotEnabled
        if command in ("PAINT", "CLEAR"):
            return self.order_draw(draw)
        if command == "CHECKPOINT":
            return self.take_up([("checkpoint",)])
        self.check_log()
        if command == "PUBLISH":
            if None not in self.slots:
                raise Refused("ERR 3 VersionsFull")
            return self.take_up([("tile", k, i) for k in sorted(self.own) for i in range(64)] +
                                [("map", k) for k in range(self.tiles)] + [("publish",)])
        if command == "COLLECT":
            return self.take_up([("scan", r) for r in range(len(self.pins))] + [("collect",)])
        return self.take_up([("revert",)])

    def order_draw(self, draw):
        _, x0, y0, x1, y1, black = draw
        if x1 > self.width or y1 > self.height:
            raise Refused("ERR 1 OutOfRange")
        self.check_log()
        area = {(x, y) for x in range(x0, x1) for y in range(y0, y1)}
        changed = area - self.draft if black else area & self.draft
        needed = {self.position(cell) for cell in changed} - set(self.own)
        if len(needed) > len(self.free):
            raise Refused(f"ERR 2 BlocksFull {len(needed)} {len(self.free)}")
        return self.take_up([("draw", changed, needed, black)])

    def take_up(self, steps):
        self.hand, self.scanned = steps, []
        return f"ORDERED {len(steps)}"

    # ---- steps of the keeper

    def keep(self, count):
        if self.hand is None or not 1 <= count <= len(self.hand):
            raise NotEnabled
        for _ in range(count):
            answer = self.keep_once(*self.hand.pop(0))
        return answer

    def keep_once(self, kind, *what):
        if kind == "tile":
            k, i = what
            self.rows[self.own[k], i] = self.row_word(self.draft, k, i)
            return "WRITE"
        if kind == "map":
            k = what[0]
            self.maps[self.slots.index(None), k] = self.own.get(k, self.directories[-1][k])
            return "WRITE"
        if kind == "scan":
            self.scanned.append(self.pins[what[0]])
            return f"SCAN {what[0]} {self.pins[what[0]]}"
        self.hand = None
        self.place += 1
        numbers = getattr(self, "commit_" + kind)(*what)
        self.now = (self.place, self.newest)
        return " ".join(["OK", str(self.place)] + [str(n) for n in numbers])

    def commit_draw(self, changed, needed, black):
        self.draft = self.draft | changed if black else self.draft - changed
        for k in sorted(needed):
            self.own[k] = self.free.pop(0)
        return [len(changed)]

    def commit_publish(self):
        before = self.directories[-1]
        self.retired += [(before[k], self.came[k], self.newest) for k in sorted(self.own)]
        self.directories.append([self.own.get(k, before[k]) for k in range(self.tiles)])
        self.published.append(set(self.draft))
        for k in self.own:
            self.came[k] = self.newest
        self.slot_of[self.newest] = self.slots.index(None)
        self.slots[self.slot_of[self.newest]] = self.newest
        self.own = {}
        return [self.newest]

    def commit_revert(self):
        for k in sorted(self.own):
            self.free.insert(0, self.own[k])
        self.own, self.draft = {}, set(self.published[-1])
        return []

    def commit_checkpoint(self):
        self.checkpointed = self.place
        return []

    def commit_collect(self):
        self.slots = [version if self.stays(version) else None for version in self.slots]
        kept = [version for version in self.slots if version is not None]
        used = [any(first <= version <= last for version in kept) for _, first, last in self.retired]
        gone = [entry[0] for entry, is_used in zip(self.retired, used) if not is_used]
        self.retired = [entry for entry, is_used in zip(self.retired, used) if is_used]
        for block in gone:
            self.free.insert(0, block)
        return [min(kept), len(gone)]

    def stays(self, version):
        """The newest is kept, and what a word of the scan asks for: an odd one its version and
        those after it, an even one exactly its version."""
        if version is None:
            return False
        asked = any(word // 2 <= version if word % 2 else word // 2 - 1 == version for word in self.scanned if word)
        return version == self.newest or asked

    # ---- steps of the readers

    def reader(self, kind, r, *what):
        if r >= len(self.pins):
            raise NotEnabled
        if kind == "A":
            if self.announced[r] is not None:
                raise NotEnabled
            self.announced[r] = self.seen[r]
            self.pins[r] = 2 * self.seen[r] + 1
            return f"PIN {self.seen[r]}"
        if kind == "E":
            if self.holds[r] is None or self.pins[r] % 2 == 0:
                raise NotEnabled
            self.pins[r] = 2 * self.holds[r] + 2
            return f"EXACT {self.holds[r]}"
        if kind == "L":
            self.seen[r] = self.now[1]
            if self.announced[r] is not None and self.holds[r] is None:
                self.holds[r] = self.now[1]
            return f"NOW {self.now[0]} {self.now[1]}"
        if kind == "V":
            if self.announced[r] is None:
                raise NotEnabled
            self.pins[r], self.announced[r], self.holds[r] = 0, None, None
            return "LEFT"
        return self.look(kind, self.holds[r], *what)

    def look(self, kind, held, *what):
        if held is None:
            raise NotEnabled
        if kind == "M" and what[0] < self.tiles:
            return f"BLOCK {self.maps[self.slot_of[held], what[0]]}"
        if kind == "T" and what[0] in self.directories[held] and what[1] < 64:
            return f"WORD {self.rows.get(what, 0):016x}"
        raise NotEnabled

    # ---- lines

    def answer(self, line):
        try:
            return self.answer_words(line.split(" "))
        except NotEnabled:
            return "NOT ENABLED"
        except Refused as refusal:
            return str(refusal)

    def answer_words(self, words):
        if words[0] == "C" and len(words) > 1 and words[1] in COMMANDS:
            return self.order(words[1:])
        numbers = [number(word) for word in words[1:]]
        if None in numbers or {"A": 1, "L": 1, "E": 1, "V": 1, "M": 2, "T": 3, "K": 1}.get(words[0]) != len(numbers):
            return "BAD LINE"
        if words[0] == "K":
            return self.keep(numbers[0])
        return self.reader(words[0], *numbers)
