#!/usr/bin/env python3
"""Writes replies.json and checked.json: what the registry of a demo world replies while plan.yaml is assembled, and the
signatures that are good.

usage: world.py [SEED COUNT FOLDER [RELEASES]]

With RELEASES each package has so many, and none is yanked. Without words the world is that of `demo 1 5`, and the files are written here. The world is drawn by docs/FORMATS.md, with
crates/test_demo/world.py, and its registry is made by the formats alone, with crates/test_vectors/world.py."""
import importlib.util, json, os, sys

here = os.path.dirname(os.path.abspath(__file__))


def module(name, path):
    found = importlib.util.spec_from_file_location(name, os.path.join(here, "../../crates", path))
    loaded = importlib.util.module_from_spec(found)
    found.loader.exec_module(loaded)
    return loaded


demo = module("demo", "test_demo/world.py")
vectors = module("vectors", "test_vectors/world.py")
proofs, sha, text = vectors.proofs, vectors.sha, vectors.text


def version(minor):
    return b"1.%d.0" % minor


def registry_of(world):
    """The home registry with the releases and yanks of all packages."""
    registry = vectors.Registry(0)
    for index in range(len(world.needs)):
        package = demo.package(index)
        for minor in range(world.releases[index]):
            registry.release(package, version(minor), world.content_of(index, version(minor)))
        if world.yanks_last[index]:
            registry.yank(package, version(world.releases[index] - 1))
    return registry


def reply(body):
    return {"status": 200, "headers": [["content-type", "application/json"]], "body": body}


def session(world, registry):
    """The replies to a client that has kept nothing: for each package that the plan comes to, the update of its log, and
    where the content of its release is, and the content, where no release before had the same."""
    replies, met, held = [], [], set()
    checkpoint = registry.checkpoint()
    operator, first = registry.published(proofs.OPERATOR_LOG)

    def meet(index):
        if index in met:
            return
        met.append(index)
        log = vectors.log_id(demo.package(index))
        places, rows = registry.published(log)
        content = world.content(index)
        url = "https://home.test/content/sha256/" + sha(content).hex()
        replies.extend(
            reply(body)
            for body in (
                proofs.body(checkpoint),
                proofs.body(proofs.page(False, [] if met[:-1] else first, {log: rows})),
                proofs.body(registry.inclusion([operator[-1], places[-1]])),
            )
        )
        if content not in held:
            held.add(content)
            sources = {text(sha(content)): [{"type": "httpGet", "url": url}]}
            replies.extend(reply(body) for body in (proofs.body({"contentSources": sources}), proofs.b64(content)))
        for other in world.needs[index]:
            meet(other)

    meet(0)
    return replies


def write(path, value):
    with open(path, "w") as file:
        json.dump(value, file, indent=1)
        file.write("\n")


def main():
    seed, count, folder, *releases = sys.argv[1:] or ("1", "5", here)
    world = demo.World(int(seed), int(count))
    for number in releases:
        world.releases = [int(number)] * len(world.releases)
        world.yanks_last = [False] * len(world.releases)
        world.chosen = [int(number) - 1] * len(world.releases)
    registry = registry_of(world)
    write(os.path.join(folder, "replies.json"), session(world, registry))
    write(os.path.join(folder, "checked.json"), registry.checked)


if __name__ == "__main__":
    main()
