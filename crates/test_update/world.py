#!/usr/bin/env python3
"""Writes src/world.rt: what a small registry replies in updates, and the signatures that its verifier accepts.

The registry's log has three records: the first of its operator's log, and two of the log of the package a:b. Records, trees
and proofs are made here by the formats alone (RFC 6962 for the log), and not by the program under test."""
import base64, hashlib, json, os

KEY = "k:AA=="
SIGNATURE = "s:AA=="


def sha(data):
    return hashlib.sha256(data).digest()


def text(digest):
    return "sha256:" + digest.hex()


def field(number, data):
    """A field of bytes of a message."""
    size, spelled = len(data), b""
    while True:
        size, low = size >> 7, size & 127
        spelled += bytes([low | (128 if size else 0)])
        if not size:
            return bytes([number << 3 | 2]) + spelled + data


def record(prev, *entries):
    """A record one second after the start of 1970."""
    front = field(1, text(sha(prev)).encode()) if prev else b""
    return front + field(3, b"\x08\x01") + b"".join(field(4, e) for e in entries)


INIT = field(1, field(1, KEY.encode()) + field(2, b"sha256"))
PACKAGE_INIT = field(1, field(1, KEY.encode()) + field(2, b"sha256"))


def release(version):
    return field(4, field(1, version.encode()) + field(2, text(sha(version.encode())).encode()))


OPERATOR = record(None, INIT, field(4, field(1, b"a")))
FIRST = record(None, PACKAGE_INIT, release("1.0.0"))
SECOND = record(FIRST, release("1.1.0"))

OPERATOR_LOG = sha(b"WARG-OPERATOR-LOG-ID-V0")
PACKAGE_LOG = sha(b"WARG-PACKAGE-ID-V0:a:b")
OTHER_LOG = sha(b"WARG-PACKAGE-ID-V0:a:c")
RECORDS = [(OPERATOR_LOG, OPERATOR), (PACKAGE_LOG, FIRST), (PACKAGE_LOG, SECOND)]


# the log's tree
def entry(log, contents):
    return b"WARG-LOG-LEAF-V0:" + text(log).encode() + b":" + text(sha(contents)).encode()


def root(entries):
    if len(entries) == 1:
        return sha(b"\x00" + entries[0])
    split = 1
    while split * 2 < len(entries):
        split *= 2
    return sha(b"\x01" + root(entries[:split]) + root(entries[split:]))


ENTRIES = [entry(log, contents) for log, contents in RECORDS]


# the map's tree: depth 256, an empty leaf 32 zero bytes
EMPTY = [bytes(32)]
for _ in range(256):
    EMPTY.append(sha(b"\x01" + EMPTY[-1] + EMPTY[-1]))


def leaves(records):
    last = {log: contents for log, contents in records}
    return {sha(log): sha(b"\x00" + b"WARG-MAP-LEAF-V0:" + text(sha(c)).encode()) for log, c in last.items()}


def bit(key, depth):
    return key[depth // 8] >> (7 - depth % 8) & 1


def subtree(keys, depth):
    if not keys:
        return EMPTY[256 - depth]
    if depth == 256:
        return next(iter(keys.values()))
    sides = [{k: v for k, v in keys.items() if bit(k, depth) == b} for b in (0, 1)]
    return sha(b"\x01" + subtree(sides[0], depth + 1) + subtree(sides[1], depth + 1))


def path(keys, key):
    bits, given, near = bytearray(32), b"", keys
    for depth in range(256):
        other = {k: v for k, v in near.items() if bit(k, depth) != bit(key, depth)}
        near = {k: v for k, v in near.items() if bit(k, depth) == bit(key, depth)}
        if other:
            bits[depth // 8] |= 128 >> depth % 8
            given += subtree(other, depth + 1)
    return bytes(bits) + given


# bundles
def log_bundle(nodes, consistencies, inclusions):
    out = b"\x00" + len(nodes).to_bytes(4, "big")
    for (level, place), digest in sorted(nodes.items()):
        out += bytes([level]) + place.to_bytes(8, "big") + digest
    for pairs in (consistencies, inclusions):
        out += len(pairs).to_bytes(4, "big") + b"".join(a.to_bytes(8, "big") + b.to_bytes(8, "big") for a, b in pairs)
    return out


def node(level, place):
    return root(ENTRIES[place << level:(place + 1) << level])


def map_bundle(paths):
    return b"\x00" + len(paths).to_bytes(4, "big") + b"".join(paths)


# replies
def b64(data):
    return base64.b64encode(data).decode()


def body(value):
    return b64(json.dumps(value, separators=(",", ":"), sort_keys=True).encode())


CHECKED = []


def accept(message):
    CHECKED.append({"key": KEY, "text": sha(message).hex(), "signature": SIGNATURE})


def contents(length, log_root=None, timestamp=7):
    return {
        "logLength": length,
        "logRoot": text(log_root or root(ENTRIES[:length])),
        "mapRoot": text(subtree(leaves(RECORDS[:length]), 0)),
        "timestamp": timestamp,
    }


def checkpoint(told, signed=True, key=KEY):
    lines = ["WARG-CHECKPOINT-SIGNATURE-V0", told["logLength"], told["logRoot"], told["mapRoot"], told["timestamp"]]
    if signed:
        accept("".join(f"{line}\n" for line in lines).encode())
    return {"contents": told, "keyId": text(sha(key.encode())), "signature": SIGNATURE}


def published(place, data=None):
    return {
        "contentBytes": b64(data if data is not None else RECORDS[place][1]),
        "keyId": text(sha(KEY.encode())),
        "signature": SIGNATURE,
        "registryIndex": place,
        "fetchToken": f"t{place}",
    }


def page(more, operator, packages):
    return {"more": more, "operator": operator, "packages": {text(log): records for log, records in packages.items()}}


accept(b"WARG-OPERATOR-RECORD-SIGNATURE-V0:" + OPERATOR)
accept(b"WARG-PACKAGE-RECORD-SIGNATURE-V0:" + FIRST)
accept(b"WARG-PACKAGE-RECORD-SIGNATURE-V0:" + SECOND)

KEYS = leaves(RECORDS)
NODES = {(0, 1): node(0, 1), (0, 2): node(0, 2), (1, 0): node(1, 0)}
LOG = log_bundle(NODES, [], [(3, 0), (3, 2)])
MAP = map_bundle([path(KEYS, sha(OPERATOR_LOG)), path(KEYS, sha(PACKAGE_LOG))])
# of an old length of 1: the old root is the first entry's, and the new one stands over it, (0, 1) and (0, 2)
CONTINUES = log_bundle({(0, 0): node(0, 0), (0, 1): node(0, 1), (0, 2): node(0, 2)}, [(1, 3)], [])
FORKED = log_bundle({(0, 0): sha(b"x"), (0, 1): node(0, 1), (0, 2): node(0, 2)}, [(1, 3)], [])
WHOLE = [published(1), published(2)]


def included(log, map_paths=MAP):
    return {"log": b64(log), "map": b64(map_paths)}


REPLIES = [
    ("CHECKPOINT", "The checkpoint of three records.", checkpoint(contents(3))),
    ("OTHER_ROOT", "The same with another root of the log.", checkpoint(contents(3, log_root=sha(b"x")))),
    ("UNSIGNED", "The same at another time, with a signature that the verifier does not accept.", checkpoint(contents(3, timestamp=8), signed=False)),
    ("OTHER_KEY", "The same with the id of a key that the operator's log does not have.", checkpoint(contents(3), key="k:BA==")),
    ("PAGE", "The one page of all records.", page(False, [published(0)], {PACKAGE_LOG: WHOLE})),
    ("FRONT", "A page of the first two records, behind which more is to come.", page(True, [published(0)], {PACKAGE_LOG: WHOLE[:1]})),
    ("REST", "The last page behind it, with the second record once more.", page(False, [], {PACKAGE_LOG: WHOLE})),
    ("NO_PACKAGE", "A last page without the package's records.", page(False, [published(0)], {})),
    ("NO_OPERATOR", "A last page without the operator's records.", page(False, [], {PACKAGE_LOG: WHOLE})),
    ("OTHER_LOG", "A page with records of a log that was not asked for.", page(False, [published(0)], {PACKAGE_LOG: WHOLE, OTHER_LOG: WHOLE})),
    ("DAMAGED", "A page with bytes that are no record.", page(False, [published(0)], {PACKAGE_LOG: [published(1, b"x")]})),
    ("UNLAWFUL", "A page that leaves the package's first record out.", page(False, [published(0)], {PACKAGE_LOG: WHOLE[1:]})),
    ("INCLUSION", "The inclusion of both last records.", {"log": b64(LOG), "map": b64(MAP)}),
    ("NO_PROOF", "The same without the second proof in the log.", included(log_bundle(NODES, [], [(3, 0)]))),
    ("SWAPPED", "The same with the proofs in the log in the other order.", included(log_bundle(NODES, [], [(3, 2), (3, 0)]))),
    ("SHORTER", "The same with proofs in a log of two records.", included(log_bundle(NODES, [], [(2, 0), (2, 1)]))),
    ("LACKING", "The same without a hash that is needed.", included(log_bundle({(0, 1): node(0, 1), (0, 2): node(0, 2)}, [], [(3, 0), (3, 2)]))),
    ("OTHER_HASH", "The same with another hash.", included(log_bundle(NODES | {(1, 0): sha(b"x")}, [], [(3, 0), (3, 2)]))),
    ("CUT", "The same, cut by the last byte of the log's bundle.", included(LOG[:-1])),
    ("HALF", "The same without the second path in the map.", {"log": b64(LOG), "map": b64(map_bundle([path(KEYS, sha(OPERATOR_LOG))]))}),
    ("CONTINUES", "The consistency of one record with three.", {"proof": b64(CONTINUES)}),
    ("FORKED", "A proof that begins with another record.", {"proof": b64(FORKED)}),
    ("FROM_OTHER", "The consistency of two records with three.", {"proof": b64(log_bundle({(0, 0): node(0, 0), (0, 1): node(0, 1), (0, 2): node(0, 2)}, [(2, 3)], []))}),
    ("TWICE", "The consistency of one record with three, twice.", {"proof": b64(log_bundle({(0, 0): node(0, 0), (0, 1): node(0, 1), (0, 2): node(0, 2)}, [(1, 3), (1, 3)], []))}),
    ("EMPTY", "A page that names the package's log without a record, behind which more is to come.", page(True, [published(0)], {PACKAGE_LOG: []})),
    ("MISSING", "That the package's log is not found.", {"type": "logNotFound", "id": text(PACKAGE_LOG)}),
    ("MISSING_OPERATOR", "That the operator's log is not found.", {"type": "logNotFound", "id": text(OPERATOR_LOG)}),
]


def lines(name, what, value):
    cut = [value[i:i + 100] for i in range(0, len(value), 100)]
    return f"/// {what}\npub const {name}: &str = \"\\\n    " + "\\\n    ".join(cut) + "\";\n"


def checked_lines():
    rows = ",".join(json.dumps(c, separators=(",", ":"), sort_keys=True) for c in CHECKED)
    return f"/// The signatures that are accepted.\npub const CHECKED: &str =\n    r#\"[{rows}]\"#;\n"


def constant(name, what, value):
    line = f"pub const {name}: &str = \"{value}\";"
    if len(line) > 100:
        line = f"pub const {name}: &str =\n    \"{value}\";"
    return f"/// {what}\n{line}\n"


def main():
    told = contents(1)
    parts = ["//! What a small registry replies in updates: `world.py` wrote this file.\n"]
    parts += [lines(name, what, body(value)) for name, what, value in REPLIES]
    parts.append(checked_lines())
    parts.append(constant("FIRST_ROOT", "The root of the log of one record.", told['logRoot']))
    parts.append(constant("FIRST_MAP", "The root of the map of one record.", told['mapRoot']))
    parts.append(constant("ROOT", "The root of the log of three records.", contents(3)['logRoot']))
    parts.append(constant("MAP", "The root of the map of three records.", contents(3)['mapRoot']))
    parts.append(constant("KEY_ID", "The id of the key that signs.", text(sha(KEY.encode()))))
    with open(os.path.join(os.path.dirname(os.path.abspath(__file__)), "src", "world.rt"), "w") as out:
        out.write("\n".join(parts))


if __name__ == "__main__":
    main()
