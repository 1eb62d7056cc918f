#!/usr/bin/env python3
"""Writes replies.json and checked.json: what a small registry replies while app.yaml is assembled, and the signatures that
are good.

usage: registry.py [CONTENT FOLDER]

The package demo:app has two releases there: 1.0.0, whose content is empty.wasm, and 1.1.0, whose content is the file CONTENT,
or types.wasm without words. The files are written to FOLDER, or here. The registry is made by the formats alone, as those of
the tests are: crates/test_assemble/world.py."""
import importlib.util, json, os, sys

here = os.path.dirname(os.path.abspath(__file__))


def read(path):
    with open(path, "rb") as file:
        return file.read()


def write(path, value):
    with open(path, "w") as file:
        json.dump(value, file, indent=1)
        file.write("\n")


def reply(body):
    return {"status": 200, "headers": [["content-type", "application/json"]], "body": body}


def module(path):
    found = importlib.util.spec_from_file_location("registry", os.path.join(here, path))
    loaded = importlib.util.module_from_spec(found)
    found.loader.exec_module(loaded)
    return loaded


def main():
    registry = module("../crates/test_assemble/world.py")
    content, folder = sys.argv[1:] or (os.path.join(here, "types.wasm"), here)
    contents = [read(os.path.join(here, "empty.wasm")), read(content)]
    registry.registry(*contents)
    checkpoint, page, inclusion, _ = registry.update()
    bodies = [checkpoint, page, inclusion, registry.sources(contents[1]), registry.b64(contents[1])]
    write(os.path.join(folder, "replies.json"), [reply(body) for body in bodies])
    write(os.path.join(folder, "checked.json"), registry.world.CHECKED)


if __name__ == "__main__":
    main()
