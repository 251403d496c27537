#!/usr/bin/env python3
"""A model of the bench program, written apart from the Rattle code: reads a bench script on standard input and prints what
the bench must print. Its macs are a hash of its own, since what the bench prints does not depend on them."""
import hashlib
import re
import sys

LIMIT = (1 << 48) - 1
NONE = (1 << 64) - 1
MEMORY_LINES = 584


class Refused(Exception):
    def __init__(self, cause, place=0):
        self.cause, self.place = cause, place


def layer(cause):
    return 1 if cause == 10 else 2 if cause in (8, 9, 11) else 3


def mac(at, words, counter):
    text = ",".join(map(str, [at, *words, counter])).encode()
    return int.from_bytes(hashlib.blake2b(text, digest_size=8).digest(), "little") % (1 << 54)


def sealed(at, words, counter):
    return (*words, mac(at, words, counter) * 1024 + counter % 1024)


def right(at, line, counter):
    return line[8] == mac(at, line[:8], counter) * 1024 + counter % 1024


def lines_for(levels):
    return sum(8 ** k for k in range(1, levels + 1))


class Board:
    def __init__(self, fuse):
        self.lines = [(0,) * 9 for _ in range(MEMORY_LINES)]
        self.register = None  # not formatted
        self.fuse = fuse

    def spend(self, place):
        if self.fuse == 0:
            raise Refused(10, place)
        if self.fuse is not None:
            self.fuse -= 1

    def write_line(self, at, line):
        self.spend(at)
        self.lines[at] = line

    def write_register(self, register, place):
        self.spend(place)
        self.register = register


class Controller:
    def __init__(self, board, suite):
        self.board, self.suite = board, suite
        self.latched = None
        self.slots = {}
        self.commits = 0

    # layout
    def shape(self, levels):
        self.levels, self.data, self.root = levels, 8 ** levels, lines_for(levels)

    def parent(self, at):
        return self.data + at // 8

    # calls
    def format(self, levels):
        if not 1 <= levels <= 4:
            return 2
        if lines_for(levels) > MEMORY_LINES:
            return 3
        if self.board.register is not None:
            return 5
        try:
            for at in range(lines_for(levels)):
                self.board.write_line(at, sealed(at, (0,) * 8, 0))
            self.board.write_register({"levels": levels, "roots": [0] * 8, "sum": 0, "journal": None, "dirty": frozenset()}, 0)
        except Refused as r:
            return r.cause
        return 0

    def bring_up(self, slots):
        self.slots = {}
        self.latched = None
        try:
            if not 1 <= slots <= 64:
                raise Refused(2)
            register = self.board.register
            if register is None:
                raise Refused(4)
            self.capacity = slots
            self.shape(register["levels"])
            if len(register["dirty"]) > slots:
                raise Refused(7)
            if register["journal"] is not None:
                at, line = register["journal"]
                self.board.write_line(at, line)
            for node in sorted(register["dirty"], reverse=True):
                self.restore(node)
            if sum(sum(s["counters"]) for s in self.slots.values()) != register["sum"]:
                raise Refused(9)
        except Refused as r:
            self.latched = r
            raise

    def counter(self, at):
        parent = self.parent(at)
        if parent == self.root:
            return self.board.register["roots"][at % 8]
        if parent in self.slots:
            return self.slots[parent]["counters"][at % 8]
        return self.node(parent, self.counter(parent))[at % 8]

    def node(self, at, counter):
        line = self.board.lines[at]
        if not right(at, line, counter) or max(line[:8]) > LIMIT:
            raise Refused(8, at)
        return line[:8]

    def restore(self, node):
        stored = self.node(node, self.counter(node))
        counters, pending = [], 0
        for i in range(8):
            at = 8 * (node - self.data) + i
            line = self.board.lines[at]
            restored = stored[i]
            while restored % 1024 != line[8] % 1024:
                restored += 1
            if restored > LIMIT or not right(at, line, restored) or (at >= self.data and max(line[:8]) > LIMIT):
                raise Refused(8, at)
            counters.append(restored)
            pending += restored - stored[i]
        self.slots[node] = {"counters": counters, "pending": pending}

    def commit(self, at, words, leaving=None):
        counter = self.counter(at)
        if counter >= LIMIT:
            raise Refused(11, at)
        counter += 1
        line = sealed(at, words, counter)
        register = dict(self.board.register, roots=list(self.board.register["roots"]))
        slots = {n: {"counters": list(s["counters"]), "pending": s["pending"]} for n, s in self.slots.items() if n != leaving}
        parent = self.parent(at)
        if parent == self.root:
            register["roots"][at % 8] = counter
        else:
            slot = slots.setdefault(parent, {"counters": list(self.board.lines[parent][:8]), "pending": 0})
            slot["counters"][at % 8] = counter
            slot["pending"] += 1
        register.update(journal=(at, line), dirty=frozenset(slots), sum=sum(sum(s["counters"]) for s in slots.values()))
        self.board.write_register(register, at)
        self.commits += 1
        self.board.write_line(at, line)
        self.slots = slots

    def overdue(self, node):
        return node in self.slots and self.slots[node]["pending"] >= 1023

    def evict(self, node):
        parent = self.parent(node)
        if parent != self.root and self.overdue(parent):
            self.evict(parent)
        self.commit(node, tuple(self.slots[node]["counters"]), leaving=node)

    def evict_until(self, most):
        while len(self.slots) > most:
            self.evict(min(self.slots))

    def read(self, at):
        if at >= self.data:
            raise Refused(1, at)
        counter = self.counter(at)
        if not right(at, self.board.lines[at], counter):
            raise Refused(8, at)
        return self.board.lines[at][0]

    def write(self, at, word):
        if at >= self.data:
            raise Refused(1, at)
        leaf = self.parent(at)
        if leaf != self.root:
            if self.overdue(leaf):
                self.evict(leaf)
            if leaf not in self.slots:
                self.evict_until(self.capacity - 1)
        self.commit(at, (word,) + (0,) * 7)

    def call(self, function, *arguments):
        self.commits = 0
        if self.latched:
            raise self.latched
        try:
            return function(*arguments) or 0
        except Refused as r:
            if r.cause == 10:
                self.latched = r
            raise


class Unreadable(Exception):
    pass


def number(text):
    if not re.fullmatch(rb"[0-9]+", text) or int(text) >= 1 << 64:
        raise Unreadable
    return int(text)


def fuse_of(text):
    return None if text == b"none" else number(text)


def after(line, prefix):
    if line is None or not line.startswith(prefix):
        raise Unreadable
    return line[len(prefix):]


def suite_of(text):
    if number(text) not in (1, 2):
        raise Unreadable
    return number(text)


def key_of(text):
    if not re.fullmatch(rb"[0-9a-fA-F]{64}", text):
        raise Unreadable
    return text


def step_of(line):
    fields = after(line, b"step=").split(b" ")
    letter, rest = fields[0], fields[1:]
    counts = {b"r": 1, b"w": 2, b"s": 0, b"d": 0, b"p": 1, b"k": 1, b"m": 1}
    if letter not in counts or len(rest) != counts[letter]:
        raise Unreadable
    return letter.decode(), [fuse_of(x) if letter == b"p" else number(x) for x in rest]


def run(data):
    lines = data.split(b"\n")
    if lines and lines[-1] == b"":
        lines.pop()
    out = []
    at = 0
    try:
        head = {}
        for name, read in (("levels", number), ("slots", number), ("suite", suite_of), ("key", key_of), ("fuse", fuse_of)):
            at += 1
            head[name] = read(after(lines[at - 1] if at <= len(lines) else None, name.encode() + b"="))
        board = Board(head["fuse"])
        chip = Controller(board, head["suite"])
        levels = head["levels"]
        made = chip.format(levels)
        out.append("made=%d lines=%d" % (made, lines_for(levels) if 1 <= levels <= 4 else 0))
        out.append("step result layer at value commits ahead total")
        try:
            chip.bring_up(head["slots"])
        except Refused:
            pass
        copy = None
        for line in lines[5:]:
            at += 1
            letter, rest = step_of(line)
            value = commits = 0
            fault = None
            try:
                if letter == "r":
                    value = chip.call(chip.read, *rest)
                elif letter == "w":
                    chip.call(chip.write, *rest)
                elif letter == "s":
                    chip.call(chip.evict_until, 0)
                elif letter in "dp":
                    if letter == "p":
                        board.fuse = rest[0]
                    chip.bring_up(head["slots"])
                elif letter == "k":
                    if rest[0] < MEMORY_LINES:
                        copy = board.lines[rest[0]]
                elif copy is not None and rest[0] < MEMORY_LINES:
                    board.lines[rest[0]] = copy
            except Refused as r:
                fault = r
            if letter in "ws":
                commits = chip.commits
            register = board.register or {"dirty": (), "sum": 0}
            row = [at - 5, fault.cause if fault else 0, layer(fault.cause) if fault else 0, fault.place if fault else 0, value, commits, len(register["dirty"]), register["sum"]]
            out.append(" ".join(map(str, row)))
    except Unreadable:
        out.append("bad=%d" % at)
    return "".join(x + "\n" for x in out)


if __name__ == "__main__":
    sys.stdout.write(run(sys.stdin.buffer.read()))
