# Writes src/world.rt: small components, and what is composed of them, by the Component Model's Binary.md and by the order in
# which a graph is written. Usage: python3 world.py
import os


def size(number):
    low, rest = number & 127, number >> 7
    return bytes([low | 128]) + size(rest) if rest else bytes([low])


def named(name):
    return size(len(name)) + name


def section(number, *items):
    data = size(len(items)) + b"".join(items)
    return bytes([number]) + size(len(data)) + data


def component(*parts):
    return b"\0asm\r\0\1\0" + b"".join(parts)


def nested(inner):
    return b"\x04" + size(len(inner)) + inner


FUNC, INSTANCE = 1, 5
# a function of nothing, and an instance of such a function as `f`
CALL = b"\x40\0\1\0"
GIVER = b"\x42\2\1" + CALL + b"\4\0" + named(b"f") + b"\1\0"


def imports(*items):
    return section(10, *(b"\0" + named(name) + bytes([sort, type]) for name, sort, type in items))


def made(of, *arguments):
    return b"\0" + bytes([of, len(arguments)]) + b"".join(named(name) + bytes([sort, index]) for name, sort, index in arguments)


def instances(*items):
    return section(5, *items)


def alias(sort, instance, name):
    return section(6, bytes([sort, 0, instance]) + named(name))


def exports(*items):
    return section(11, *(b"\0" + named(name) + bytes([sort, index, 0]) for name, sort, index in items))


# The components.
EMPTY = component()
# imports an instance of `f` under the first name, and exports it under the second
def passes(taken, given):
    return component(section(7, GIVER), imports((taken, INSTANCE, 0)), exports((given, INSTANCE, 0)))


TAKES = passes(b"b", b"b")
TAKES_ROOT = component(section(7, GIVER), imports((b"root", INSTANCE, 0)))
GIVES = component(section(7, CALL), imports((b"g", FUNC, 0)), exports((b"f", FUNC, 0)))
FUNCTION = component(section(7, CALL), imports((b"x", FUNC, 0)))
TAKES_TWO = component(section(7, GIVER), imports((b"b", INSTANCE, 0), (b"c", INSTANCE, 0)), exports((b"b", INSTANCE, 0)))
# imports an instance of `f` under a name, and exports its function
def calls(taken):
    return component(section(7, GIVER), imports((taken, INSTANCE, 0)), alias(FUNC, 0, b"f"), exports((b"f", FUNC, 0)))


CALLS_D, CALLS_E = calls(b"d"), calls(b"e")
GIVES_X = passes(b"h", b"x")
GIVES_BOTH = component(
    section(7, CALL, GIVER), imports((b"g", FUNC, 0), (b"h", INSTANCE, 1)), exports((b"f", FUNC, 0), (b"x", INSTANCE, 0))
)
TAKES_E = passes(b"e", b"b")


# `b` of an instance is exported, where this many instances are there already
def shown(instance, there):
    return alias(INSTANCE, instance, b"b") + exports((b"b", INSTANCE, there))


IMPORTS_G = section(7, CALL) + imports((b"g", FUNC, 0))
G = (b"g", FUNC, 0)


def b(index):
    return (b"b", INSTANCE, index)


# What is composed.
COMPOSED = [
    (
        "OF_ONE",
        "The root, whose `b` is an instance of [`GIVES`]. `g` is left.",
        component(IMPORTS_G, nested(TAKES), nested(GIVES), instances(made(1, G), made(0, b(0))), shown(1, 2)),
    ),
    (
        "OF_DEFINITION",
        "The root, whose `b` is the export of a definition. The import of the definition is left.",
        component(
            section(7, GIVER), imports((b"b", INSTANCE, 0)), nested(TAKES), nested(TAKES), instances(made(1, b(0))),
            alias(INSTANCE, 1, b"b"), instances(made(0, b(2))), shown(3, 4),
        ),
    ),
    (
        "OF_EXPORT",
        "The root, whose `b` is the export of an instance that is given another one.",
        component(
            IMPORTS_G, nested(TAKES), nested(TAKES), nested(GIVES), instances(made(2, G), made(1, b(0))),
            alias(INSTANCE, 1, b"b"), instances(made(0, b(2))), shown(3, 4),
        ),
    ),
    (
        "OF_FOUR",
        "The root, whose imports are served before those of what they are given: so `c` is added before `d`.",
        component(
            IMPORTS_G, nested(TAKES_TWO), nested(CALLS_D), nested(CALLS_E), nested(GIVES), nested(GIVES),
            instances(
                made(3, G), made(1, (b"d", INSTANCE, 0)), made(4, G), made(2, (b"e", INSTANCE, 2)),
                made(0, b(1), (b"c", INSTANCE, 3)),
            ),
            shown(4, 5),
        ),
    ),
    (
        "OF_WHOLE",
        "The root, whose `b` is an instance that fits as a whole, though an export of it fits, too.",
        component(
            IMPORTS_G, section(7, GIVER), imports((b"h", INSTANCE, 1)), nested(TAKES), nested(GIVES_BOTH),
            instances(made(1, G, (b"h", INSTANCE, 0)), made(0, b(1))), shown(2, 3),
        ),
    ),
    (
        "OF_FITTING",
        "The root, whose `b` is the export of an instance that does not fit as a whole.",
        component(
            section(7, GIVER), imports((b"h", INSTANCE, 0)), nested(TAKES), nested(GIVES_X),
            instances(made(1, (b"h", INSTANCE, 0))), alias(INSTANCE, 1, b"x"), instances(made(0, b(2))), shown(3, 4),
        ),
    ),
]

COMPONENTS = [
    ("EMPTY", "A component without items.", EMPTY),
    ("TAKES", "One that imports an instance of a function `f` as `b`, and exports it as `b`.", TAKES),
    ("TAKES_E", "One that imports such an instance as `e`, and exports it as `b`.", TAKES_E),
    ("TAKES_ROOT", "One that imports such an instance as `root`.", TAKES_ROOT),
    ("TAKES_TWO", "One that imports such instances as `b` and `c`, and exports the first as `b`.", TAKES_TWO),
    ("GIVES", "One that imports a function `g`, and exports it as `f`.", GIVES),
    ("GIVES_X", "One that imports an instance of a function `f` as `h`, and exports it as `x`.", GIVES_X),
    ("GIVES_BOTH", "One that does both.", GIVES_BOTH),
    ("CALLS_D", "One that imports an instance of a function `f` as `d`, and exports the function.", CALLS_D),
    ("CALLS_E", "One that imports an instance of a function `f` as `e`, and exports the function.", CALLS_E),
    ("FUNCTION", "One that imports a function `x`.", FUNCTION),
]


def constant(name, what, data):
    line = f'pub const {name}: &str = "{data.hex()}";'
    if len(line) > 100:
        line = f'pub const {name}: &str =\n    "{data.hex()}";'
    return f"/// {what}\n{line}\n"


def main():
    parts = ["//! Small components, and what is composed of them, in hex: `world.py` wrote this file.\n"]
    parts += [constant(*row) for row in COMPONENTS + COMPOSED]
    with open(os.path.join(os.path.dirname(os.path.abspath(__file__)), "src", "world.rt"), "w") as out:
        out.write("\n".join(parts))


if __name__ == "__main__":
    main()
