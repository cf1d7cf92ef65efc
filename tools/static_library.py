"""The static library, built from its crates as they lie proved and built in this folder.

    tools/static_library.py   builds target/staticlib/libzibrotka.a right after `rt ci`

`rt lib` proves and builds each crate below anew, since it cannot know what `rt ci` did; right after `rt ci` nothing is left to prove but
the crate of the exports. The bytes are the same. web/wasm builds the library once more in the same way, to get at its LLVM module.
"""
import os
import re
import shutil
import subprocess
import sys

ROOT = os.path.dirname(os.path.dirname(os.path.realpath(__file__)))
ARCHIVE = f"{ROOT}/target/staticlib/libzibrotka.a"


class Unbuilt(Exception):
    """Why the library could not be built, for the person who asked for it."""


def kit_folder():
    """The folder of the Rattle toolchain, from its command on the path."""
    command = shutil.which("rt")
    if command is None:
        raise Unbuilt("the command rt of the Rattle toolchain is not on the path")
    return os.path.dirname(os.path.dirname(os.path.realpath(command)))


def run(what, *words, folder=ROOT):
    """Runs a command and returns what it printed on standard output; what failed is told with all that it said."""
    ran = subprocess.run(words, cwd=folder, stdin=subprocess.DEVNULL, stdout=subprocess.PIPE, stderr=subprocess.PIPE)
    if ran.returncode:
        sys.stdout.write((ran.stdout + ran.stderr).decode(errors="replace"))
        raise Unbuilt(f"{what} failed with exit status {ran.returncode}")
    return ran.stdout


def crates_below():
    """The crates that zibrotka stands on, each with the folder of its built library."""
    with open(f"{ROOT}/crates.txt", encoding="utf-8") as file:
        found = re.search(r"^zibrotka staticlib: (.*)$", file.read(), re.M)
    if found is None:
        raise Unbuilt("crates.txt has no line for the static library zibrotka")
    folders = {name: f"{ROOT}/crates/{name}/out/rlib" for name in found[1].split()}
    missing = [name for name, folder in folders.items() if not os.path.isdir(f"{folder}/{name}.rlib")]
    if missing:
        raise Unbuilt(f"these crates are not built in this folder: {' '.join(missing)}")
    return folders


def build(kit, toolchain, archive):
    """Has rattle prove the crate zibrotka and build the archive of it and the crates below, by a toolchain that may record what it does."""
    below = crates_below()
    words = ["--crate-name", "zibrotka", "src/lib.rt", "--extern", f"std={kit}/rlibs/std.rlib", "-L", f"dependency={kit}/rlibs"]
    for name, at in below.items():
        words += ["--extern", f"{name}={at}/{name}.rlib"]
    for at in below.values():
        words += ["-L", f"dependency={at}"]
    words += ["--antt-project", f"{kit}/rattle/logic/antt-project.json", "--logic-built", f"{kit}/logic_built", "--jobs", "2"]
    words += ["--links", "zibrotka=", "--crate-type", "staticlib", "--backend", "llvm", "--toolchain", toolchain, "-o", archive]
    run("rattle build", f"{kit}/bin/rattle", "build", *words, folder=f"{ROOT}/crates/zibrotka")


def main():
    try:
        kit = kit_folder()
        os.makedirs(os.path.dirname(ARCHIVE), exist_ok=True)
        build(kit, f"{kit}/toolchain", f"{ARCHIVE}.new")
        os.replace(f"{ARCHIVE}.new", ARCHIVE)
    except Unbuilt as why:
        print(f"library: {why}")
        return 1
    return 0


if __name__ == "__main__":
    sys.exit(main())
