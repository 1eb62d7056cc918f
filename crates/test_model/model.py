#!/usr/bin/env python3
"""Prints what src/model.rt expects: the roots of a registry of seven records, by the formats alone (RFC 6962 for the log)."""
import hashlib

KEY = "k:AA=="


def sha(data):
    return hashlib.sha256(data).digest()


def text(digest):
    return "sha256:" + digest.hex()


def field(number, data):
    """A field of bytes of a message, shorter than 16,384 bytes."""
    size = bytes([len(data)]) if len(data) < 128 else bytes([len(data) & 127 | 128, len(data) >> 7])
    return bytes([number << 3 | 2]) + size + data


INIT = field(1, field(1, KEY.encode()) + field(2, b"sha256"))


def release(version):
    return field(4, field(1, version.encode()) + field(2, text(sha(version.encode())).encode()))


def yank(version):
    return field(5, field(1, version.encode()))


OPERATOR = sha(b"WARG-OPERATOR-LOG-ID-V0")
FIRST = sha(b"WARG-PACKAGE-ID-V0:a:b")
SECOND = sha(b"WARG-PACKAGE-ID-V0:a:c")
LOGGED = [
    (OPERATOR, INIT),
    (FIRST, INIT),
    (FIRST, release("1.0.0")),
    (SECOND, INIT),
    (SECOND, release("1.0.0")),
    (FIRST, release("1.1.0")),
    (FIRST, yank("1.0.0")),
]


def records():
    """Each record in the second of its place, behind the one before it in its log."""
    last, out = {}, []
    for place, (log, entry) in enumerate(LOGGED):
        front = field(1, text(sha(last[log])).encode()) if log in last else b""
        time = field(3, bytes([8, place]) if place else b"")
        last[log] = front + time + field(4, entry)
        out.append((log, last[log]))
    return out


RECORDS = records()


def root(entries):
    if len(entries) == 1:
        return sha(b"\x00" + entries[0])
    split = 1
    while split * 2 < len(entries):
        split *= 2
    return sha(b"\x01" + root(entries[:split]) + root(entries[split:]))


# the map's tree: depth 256, an empty leaf 32 zero bytes
EMPTY = [bytes(32)]
for _ in range(256):
    EMPTY.append(sha(b"\x01" + EMPTY[-1] + EMPTY[-1]))


def subtree(keys, depth):
    if not keys:
        return EMPTY[256 - depth]
    if depth == 256:
        return next(iter(keys.values()))
    sides = [{k: v for k, v in keys.items() if k[depth // 8] >> (7 - depth % 8) & 1 == b} for b in (0, 1)]
    return sha(b"\x01" + subtree(sides[0], depth + 1) + subtree(sides[1], depth + 1))


for length in (1, 7):
    below = RECORDS[:length]
    entries = [b"WARG-LOG-LEAF-V0:" + text(log).encode() + b":" + text(sha(c)).encode() for log, c in below]
    last = {sha(log): sha(b"\x00" + b"WARG-MAP-LEAF-V0:" + text(sha(c)).encode()) for log, c in below}
    print(length, text(root(entries)), text(subtree(last, 0)))
for place in (0, 4, 6):
    print(place, text(RECORDS[place][0]), text(sha(RECORDS[place][1])))
