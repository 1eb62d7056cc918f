#!/usr/bin/env python3
"""Writes src/world.rt: the lines that `demo` prints for a few seeds and counts.

The demo world, its plan, the plan's lock and the component that it is linked into are made here by the formats alone: draws,
releases and contents by docs/FORMATS.md, and bytes by the Component Model's Binary.md with the order of items that the
encoder keeps. `world.py SEED COUNT` prints the lines of one world."""
import hashlib, os, sys

HEADER = bytes.fromhex("0061736d0d000100")
CLOCK = b"demo:env/clock@1.0.0"
# a function without parameters that gives a `u64`
FUNCTION = bytes.fromhex("40000077")
FUNC, TYPE, COMPONENT, INSTANCE = 1, 3, 4, 5


def sha(data):
    return hashlib.sha256(data).digest()


def number(value):
    low, rest = value & 127, value >> 7
    return bytes([low | 128]) + number(rest) if rest else bytes([low])


def named(name):
    return number(len(name)) + name


def section(kind, *items):
    data = number(len(items)) + b"".join(items)
    return bytes([kind]) + number(len(data)) + data


def nested(component):
    return b"\x04" + number(len(component)) + component


def imported(name, sort, index):
    return section(10, b"\0" + named(name) + bytes([sort]) + number(index))


def exporting(name):
    """The type of instances that export such a function under this name."""
    return b"\x42" + number(2) + b"\x01" + FUNCTION + b"\x04\0" + named(name) + bytes([FUNC]) + number(0)


def get_of(instance):
    """The function `get` of an instance, the first function of all, exported under that name."""
    alias = section(6, bytes([FUNC, 0]) + number(instance) + named(b"get"))
    return alias + section(11, b"\0" + named(b"get") + bytes([FUNC]) + number(0) + b"\0")


class Draws:
    def __init__(self, seed):
        self.state = seed

    def below(self, bound):
        self.state = (self.state * 6364136223846793005 + 1442695040888963407) % 2**64
        return self.state // 2**33 % bound


def package(index):
    return b"demo:p%d" % index


def need(index):
    return b"unlocked-dep=<" + package(index) + b"@{>=1.0.0}>"


class World:
    """Of each package what it needs, how many releases it has, whether the last is yanked, and the number of the one that is
    chosen."""

    def __init__(self, seed, count):
        draws = Draws(seed)
        self.needs = [[] for _ in range(count)]
        for index in range(1, count):
            first = draws.below(index)
            self.needs[first].append(index)
            if draws.below(2) == 0:
                second = draws.below(index)
                if second != first:
                    self.needs[second].append(index)
        self.releases, self.yanks_last = [], []
        for _ in range(count):
            releases = 1 + draws.below(3)
            self.releases.append(releases)
            self.yanks_last.append(releases > 1 and draws.below(4) == 0)
        self.chosen = [releases - 1 - yanks for releases, yanks in zip(self.releases, self.yanks_last)]

    def imports(self, index):
        """The names that a package's contents import, and the function that each is asked for."""
        return [(CLOCK, b"now")] + [(need(other), b"get") for other in self.needs[index]]

    def version(self, index):
        return b"1.%d.0" % self.chosen[index]

    def content(self, index):
        return self.content_of(index, self.version(index))

    def content_of(self, index, version):
        out = HEADER
        for place, (name, function) in enumerate(self.imports(index)):
            out += section(7, exporting(function)) + imported(name, INSTANCE, place)
        alias = section(6, bytes([FUNC, 0]) + number(0) + named(b"now"))
        out += alias + section(11, b"\0" + named(b"get") + bytes([FUNC]) + number(0) + b"\0")
        custom = named(b"version") + version
        return out + b"\0" + number(len(custom)) + custom

    def component_type(self, index):
        decls = []
        for place, (name, function) in enumerate(self.imports(index)):
            decls += [b"\x01" + exporting(function), b"\x03\0" + named(name) + bytes([INSTANCE]) + number(place)]
        decls += [b"\x01" + FUNCTION, b"\x04\0" + named(b"get") + bytes([FUNC]) + number(len(self.imports(index)))]
        return b"\x41" + number(len(decls)) + b"".join(decls)

    def locked(self, index):
        digest = sha(self.content(index)).hex().encode()
        return b"locked-dep=<" + package(index) + b"@" + self.version(index) + b">,integrity=<sha256-" + digest + b">"

    def entries(self):
        """The packages, each behind those that it needs."""
        order = []

        def visit(index):
            if index not in order:
                for other in self.needs[index]:
                    visit(other)
                order.append(index)

        sys.setrecursionlimit(10_000)
        visit(0)
        return order

    def linked(self, is_lock):
        order = self.entries()
        out = HEADER
        for place, index in enumerate(order):
            out += section(7, self.component_type(index))
            out += imported(self.locked(index), COMPONENT, place) if is_lock else nested(self.content(index))
        out += section(7, exporting(b"now")) + imported(CLOCK, INSTANCE, len(order))
        made = []
        for place, index in enumerate(order):
            sources = [(need(other), 1 + order.index(other)) for other in self.needs[index]] + [(CLOCK, 0)]
            arguments = [named(name) + bytes([INSTANCE]) + number(source) for name, source in sources]
            made.append(b"\0" + number(place) + number(len(arguments)) + b"".join(arguments))
        return out + section(5, *made) + get_of(len(order))


def lines(seed, count):
    world = World(seed, count)
    made = [("lock", world.linked(True)), ("bundle", world.linked(False))]
    front = f"entries {len(world.entries())} left 1\n"
    return front + "".join(f"{word} {len(data)} {sha(data).hex()}\n" for word, data in made)


# the worlds whose lines are tested: their seeds and counts
WORLDS = [(1, 5), (0, 1), (18446744073709551615, 2), (7, 3), (2, 40)]


def row(seed, count):
    """A row of the table, with a line of the source for each line that is printed."""
    parts = [line.replace("\n", "\\n") for line in lines(seed, count).splitlines(True)]
    text = "\\\n         ".join(parts)
    return f'    (\n        "{seed}",\n        "{count}",\n        "{text}",\n    ),\n'


def main():
    text = "//! What `demo` prints: `world.py` wrote this file.\n\n"
    text += "/// Seeds and counts, with the lines that are printed for them.\n"
    text += "pub const PRINTED: &[(&str, &str, &str)] = &[\n" + "".join(row(*world) for world in WORLDS) + "];\n"
    with open(os.path.join(os.path.dirname(os.path.abspath(__file__)), "src", "world.rt"), "w") as out:
        out.write(text)


if __name__ == "__main__":
    if len(sys.argv) == 3:
        sys.stdout.write(lines(int(sys.argv[1]), int(sys.argv[2])))
    else:
        main()
