#!/usr/bin/env python3
"""Writes src/world.rt: what a small registry replies while a component is assembled, the signatures that its verifier
accepts, the component that comes out, and the lines that are printed.

The registry's log has three records: the first of its operator's log, and two of the log of the package demo:app, each with
a release. The registry is made by the formats alone, with test_update/world.py, and the components and locks by the
Component Model's Binary.md."""
import os, sys

sys.path.insert(0, os.path.join(os.path.dirname(os.path.abspath(__file__)), "..", "test_update"))
import world
from world import b64, field, sha, text

HEADER = bytes.fromhex("0061736d0d000100")


def size(number):
    low, rest = number & 127, number >> 7
    return bytes([low | 128]) + size(rest) if rest else bytes([low])


def named(name):
    return size(len(name)) + name


def section(number, *items):
    data = size(len(items)) + b"".join(items)
    return bytes([number]) + size(len(data)) + data


def nested(component):
    return b"\x04" + size(len(component)) + component


def imported(name, description):
    return section(10, b"\0" + named(name) + description)


def made(component, *arguments):
    return b"\0" + bytes([component, len(arguments)]) + b"".join(arguments)


def instances(*items):
    return section(5, *items)


# the type `t` of this instance, exported as `t`, where this many types are there already
def again(of, types):
    return section(6, bytes([3, 0, of]) + named(b"t")) + section(11, b"\0" + named(b"t") + bytes([3, types, 0]))


# the tuple of two `u32`, and `t` as this type; a function to a string
TUPLE = bytes.fromhex("6f027979")
FUNCTION = bytes.fromhex("40000073")


def called_t(number):
    return bytes.fromhex("04000174") + bytes([3, 0, number])


# the instance type of what exports the tuple as `t`, and the name of what has it
GIVEN = b"\x42\x02\x01" + TUPLE + called_t(0)
OLDER = b"unlocked-dep=<demo:app@{<1.1.0}>"

# a component of nothing; one that exports a type `t`; one that imports a function `f`; and one that imports an instance of an
# older release, and exports the type `t` of that
NOTHING = HEADER
TYPES = HEADER + section(7, TUPLE) + section(11, b"\0" + named(b"t") + bytes([3, 0, 0]))
OPEN = HEADER + section(7, FUNCTION) + imported(b"f", b"\x01\0")
WIRED = HEADER + section(7, GIVEN) + imported(OLDER, b"\x05\0") + again(0, 1)

# their types
NOTHING_TYPE = b"\x41\0"
TYPES_TYPE = b"\x41\x02\x01" + TUPLE + called_t(0)
OPEN_TYPE = b"\x41\x02\x01" + FUNCTION + b"\x03\0" + named(b"f") + b"\x01\0"
WIRED_TYPE = b"\x41\x04\x01" + GIVEN + b"\x03\0" + named(OLDER) + b"\x05\0" + b"\x01" + TUPLE + called_t(1)


def locked(version, content):
    return b"locked-dep=<demo:app@" + version + b">,integrity=<sha256-" + sha(content).hex().encode() + b">"


# the parts of a lock or of a component: in the lock the content of a release is an import of its type, under its name, and in
# the component it stands in the place of that import
class Release:
    def __init__(self, version, content):
        self.name, self.content = locked(version, content), content


def written(parts, is_lock):
    return HEADER + b"".join(
        (imported(part[0].name, bytes([4, part[1]])) if is_lock else nested(part[0].content)) if isinstance(part, tuple) else part
        for part in parts
    )


# what each plan is linked into, and its lock; the number beside a release is that of its type
F = named(b"f") + b"\x01\0"
OF_OLDER = named(OLDER) + b"\x05\0"
NOTHING_PARTS = [section(7, NOTHING_TYPE), (Release(b"1.0.0", NOTHING), 0), instances(made(0))]
GREATEST_PARTS = [section(7, NOTHING_TYPE), (Release(b"1.10.0", NOTHING), 0), instances(made(0))]
TYPES_PARTS = [section(7, TYPES_TYPE), (Release(b"1.1.0", TYPES), 0), instances(made(0)), again(0, 1)]
OPEN_PARTS = [
    section(7, OPEN_TYPE), (Release(b"1.1.0", OPEN), 0), section(7, FUNCTION), imported(b"f", b"\x01\x01"), instances(made(0, F))
]
WIRED_PARTS = [
    section(7, TYPES_TYPE), (Release(b"1.0.0", TYPES), 0), section(7, WIRED_TYPE), (Release(b"1.1.0", WIRED), 1),
    instances(made(0), made(1, OF_OLDER)), again(1, 2),
]


def entry_line(version, content, key):
    return f"entry demo:app {version} {text(sha(content))} {key}\\n"


def made_lines(parts):
    both = [("lock", written(parts, True)), ("bundle", written(parts, False))]
    return "".join(f"{word} {len(b)} {sha(b).hex()}\\n" for word, b in both)


def release(version, content):
    return field(4, field(1, version.encode()) + field(2, text(sha(content)).encode()))


NAME = b"demo:app"
LOG_ID = sha(b"WARG-PACKAGE-ID-V0:" + NAME)


def yanked(version):
    return field(5, field(1, version.encode()))


def registry(*contents):
    """A registry whose package has the releases 1.0.0 and 1.1.0 of these contents."""
    registry_of([release("1.0.0", contents[0])], [release("1.1.0", contents[1])])


def registry_of(earlier, later):
    """A registry whose package has two records: that of its key with these entries, and one with those."""
    operator = world.record(None, world.INIT, field(4, field(1, b"a")))
    first = world.record(None, world.PACKAGE_INIT, *earlier)
    second = world.record(first, *later)
    world.RECORDS = [(world.OPERATOR_LOG, operator), (LOG_ID, first), (LOG_ID, second)]
    world.ENTRIES = [world.entry(log, data) for log, data in world.RECORDS]
    world.accept(b"WARG-OPERATOR-RECORD-SIGNATURE-V0:" + operator)
    world.accept(b"WARG-PACKAGE-RECORD-SIGNATURE-V0:" + first)
    world.accept(b"WARG-PACKAGE-RECORD-SIGNATURE-V0:" + second)


def update():
    """The bodies of the replies to an update of the package."""
    keys = world.leaves(world.RECORDS)
    nodes = {(0, 1): world.node(0, 1), (0, 2): world.node(0, 2), (1, 0): world.node(1, 0)}
    paths = world.map_bundle([world.path(keys, sha(world.OPERATOR_LOG)), world.path(keys, sha(LOG_ID))])
    return [
        world.body(world.checkpoint(world.contents(3))),
        world.body(world.page(False, [world.published(0)], {LOG_ID: [world.published(1), world.published(2)]})),
        world.body(world.included(world.log_bundle(nodes, [], [(3, 0), (3, 2)]), paths)),
        world.body(world.included(world.log_bundle(nodes, [], [(3, 0)]), paths)),
    ]


def sources(content):
    listed = [{"type": "httpGet", "url": "https://content.test/c"}]
    return world.body({"contentSources": {text(sha(content)): listed}})


def updates(name, what):
    told = update()
    parts = [
        world.lines(f"{name}_CHECKPOINT", f"{what}: the checkpoint.", told[0]),
        world.lines(f"{name}_PAGE", f"{what}: the page of all records.", told[1]),
        world.lines(f"{name}_INCLUSION", f"{what}: the inclusion of both last records.", told[2]),
    ]
    return parts, told


def replies(name, what, contents):
    registry(*contents)
    parts, told = updates(name, what)
    parts += [
        world.lines(f"{name}_SOURCES", f"{what}: where the content of 1.1.0 is.", sources(contents[1])),
        world.lines(f"{name}_CONTENT", f"{what}: the content of 1.1.0.", b64(contents[1])),
    ]
    return parts, told


def main():
    parts = ["//! What a small registry replies while a component is assembled: `world.py` wrote this file.\n"]
    honest, told = replies("TYPES", "A package that exports a type", [NOTHING, TYPES])
    parts += honest
    parts.append(world.lines("TYPES_NO_PROOF", "The inclusion without the second proof in the log.", told[3]))
    parts.append(world.lines("NOTHING_SOURCES", "Where the content of 1.0.0 is.", sources(NOTHING)))
    parts.append(world.lines("NOTHING_CONTENT", "The content of 1.0.0.", b64(NOTHING)))
    parts += replies("OPEN", "A package that imports a function", [NOTHING, OPEN])[0]
    parts += replies("WIRED", "A package that imports its older release", [TYPES, WIRED])[0]
    parts.append(world.lines("OLDER_SOURCES", "Where the content of 1.0.0 is that exports a type.", sources(TYPES)))
    parts += replies("UNFIT", "The same, where the older release exports nothing", [NOTHING, WIRED])[0][:3]
    registry_of(
        [release(version, NOTHING) for version in ("1.2.0", "1.10.0", "2.0.0-rc.1", "1.11.0")], [yanked("1.11.0")]
    )
    parts += updates("YANKED", "A package with four releases, of which the greatest but a pre-release is yanked")[0]
    parts += replies("TEXT", "A package whose content is a text", [NOTHING, b"no component"])[0]
    parts.append(world.checked_lines())
    named_root = "named root"
    plans = [
        ("TYPES", entry_line("1.1.0", TYPES, named_root), TYPES_PARTS),
        ("NOTHING", entry_line("1.0.0", NOTHING, named_root), NOTHING_PARTS),
        ("GREATEST", entry_line("1.10.0", NOTHING, named_root), GREATEST_PARTS),
        ("OPEN", entry_line("1.1.0", OPEN, named_root) + "left f\\n", OPEN_PARTS),
        (
            "WIRED",
            entry_line("1.0.0", TYPES, "parsed demo:app@{<1.1.0}") + entry_line("1.1.0", WIRED, named_root),
            WIRED_PARTS,
        ),
    ]
    for name, front, linked in plans:
        told = front + made_lines(linked)
        parts.append(world.constant(f"{name}_PRINTED", "What is printed for a plan.", told))
        if name != "GREATEST":
            parts.append(world.constant(f"{name}_LINKED", "What a plan is linked into, in hex.", written(linked, False).hex()))
        if name == "TYPES":
            parts.append(world.constant(f"{name}_LOCK", "The lock of a plan, in hex.", written(linked, True).hex()))
    with open(os.path.join(os.path.dirname(os.path.abspath(__file__)), "src", "world.rt"), "w") as out:
        out.write("\n".join(parts))


if __name__ == "__main__":
    main()
