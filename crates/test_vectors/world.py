#!/usr/bin/env python3
"""Writes src/world.rt: what the registries of the tests say, by the formats alone.

Records, trees and proofs are made here with ../test_update/world.py, and not by the program under test."""
import base64, importlib.util, os

here = os.path.dirname(os.path.abspath(__file__))


def module(name, path):
    found = importlib.util.spec_from_file_location(name, os.path.join(here, path))
    loaded = importlib.util.module_from_spec(found)
    found.loader.exec_module(loaded)
    return loaded


proofs = module("proofs", "../test_update/world.py")
field, sha, text = proofs.field, proofs.sha, proofs.text

KINDS = {True: b"WARG-OPERATOR-RECORD-SIGNATURE-V0:", False: b"WARG-PACKAGE-RECORD-SIGNATURE-V0:"}


def spelled(number):
    low, rest = number & 127, number >> 7
    return bytes([low | 128]) + spelled(rest) if rest else bytes([low])


def log_id(package):
    return sha(b"WARG-PACKAGE-ID-V0:" + package)


def key_of(number):
    """The key of the registry with this number, and each of its signatures."""
    return "demo:" + base64.b64encode(number.to_bytes(8, "big")).decode()


class Registry:
    """One growing list of records, each with the id of its log."""

    def __init__(self, number):
        self.key, self.records, self.checked = key_of(number), [], []
        self.add(proofs.OPERATOR_LOG, self.init())

    def init(self):
        return field(1, field(1, self.key.encode()) + field(2, b"sha256"))

    def release(self, package, version, content):
        """A release, behind an Init where the package is new."""
        log = log_id(package)
        if all(known != log for known, _ in self.records):
            self.add(log, self.init())
        self.add(log, field(4, field(1, version) + field(2, text(sha(content)).encode())))

    def yank(self, package, version):
        self.add(log_id(package), field(5, field(1, version)))

    def add(self, log, entry):
        """The record at the next place, of that second."""
        place = len(self.records)
        behind = [data for known, data in self.records if known == log]
        time = b"\x08" + spelled(place) if place else b""
        data = (field(1, text(sha(behind[-1])).encode()) if behind else b"") + field(3, time) + field(4, entry)
        self.records.append((log, data))
        self.accept(KINDS[log == proofs.OPERATOR_LOG] + data)

    def accept(self, message):
        self.checked.append({"key": self.key, "text": sha(message).hex(), "signature": self.key})

    def signed(self, value):
        return value | {"keyId": text(sha(self.key.encode())), "signature": self.key}

    def checkpoint(self):
        length = len(self.records)
        root = proofs.root([proofs.entry(*record) for record in self.records])
        of_map = proofs.subtree(proofs.leaves(self.records), 0)
        lines = ["WARG-CHECKPOINT-SIGNATURE-V0", length, text(root), text(of_map), length]
        self.accept("".join(f"{line}\n" for line in lines).encode())
        told = {"logLength": length, "logRoot": text(root), "mapRoot": text(of_map), "timestamp": length}
        return self.signed({"contents": told})

    def published(self, log):
        """The places of a log's records, and these as a page has them."""
        places = [place for place, (known, _) in enumerate(self.records) if known == log]
        rows = [
            self.signed({"contentBytes": proofs.b64(self.records[place][1]), "registryIndex": place, "fetchToken": str(place)})
            for place in places
        ]
        return places, rows

    def node(self, low, high):
        return proofs.root([proofs.entry(*record) for record in self.records[low:high]])

    def needed(self, place, low, high, nodes):
        """The nodes beside the way from a place up to the records from low to high."""
        if high - low == 1:
            return
        split = low + (1 << (high - low - 1).bit_length() - 1)
        near, far = ((low, split), (split, high)) if place < split else ((split, high), (low, split))
        self.needed(place, *near, nodes)
        at, end = far
        while at < end:
            level = (end - at).bit_length() - 1
            nodes[level, at >> level] = self.node(at, at + (1 << level))
            at += 1 << level

    def inclusion(self, places):
        """The proofs that the records at these places are in the log, and the last of their logs in the map."""
        length, nodes, keys = len(self.records), {}, proofs.leaves(self.records)
        for place in places:
            self.needed(place, 0, length, nodes)
        log = proofs.log_bundle(nodes, [], [(length, place) for place in places])
        paths = [proofs.path(keys, sha(self.records[place][0])) for place in places]
        return proofs.included(log, proofs.map_bundle(paths))


def checkpoint_words(registry):
    told = registry.checkpoint()["contents"]
    return f"{told['logLength']} {told['logRoot']} {told['mapRoot']} {told['timestamp']} {registry.key}"


def main():
    home, other = Registry(0), Registry(1)
    for version in (b"1.0.0", b"1.1.0"):
        home.release(b"a:b", version, version)
    parts = ["//! What the registries of the tests say: `world.py` wrote this file.\n"]
    parts.append(proofs.constant("CHECKPOINT", "The first checkpoint of the home registry.", checkpoint_words(home)))
    parts.append(proofs.constant("ROOT", "The root of its log then.", home.checkpoint()["contents"]["logRoot"]))
    parts.append(proofs.constant("RECORD", "The id of the record of the release 1.1.0.", text(sha(home.records[3][1]))))
    home.yank(b"a:b", b"1.0.0")
    other.release(b"a:c", b"2.0.0", b"2.0.0")
    parts.append(proofs.constant("LATER", "The second one.", checkpoint_words(home)))
    parts.append(proofs.constant("LATER_ROOT", "The root of the log then.", home.checkpoint()["contents"]["logRoot"]))
    parts.append(proofs.constant("OTHER", "The first checkpoint of the other registry.", checkpoint_words(other)))
    with open(os.path.join(here, "src", "world.rt"), "w") as out:
        out.write("\n".join(parts))


if __name__ == "__main__":
    main()
