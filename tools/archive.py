#!/usr/bin/env python3
"""tools/archive.py: builds the library for C, target/staticlib/libengine.a, over the libraries that `rt ci` has proved and left in this checkout.

`rt lib` takes none of these, since rt ci builds them for itself, and would prove each of them once more; tools/build.sh engine does that where rt ci hasn't run.
Crate engine_c itself is checked here as rt lib checks it.
"""
import os
import shutil
import sys
import tempfile

ROOT = os.path.dirname(os.path.dirname(os.path.abspath(__file__)))


def main():
    rt = shutil.which("rt")
    if not rt:
        print("tools/archive.py: rt, the Rattle kit's command, is not on the path", file=sys.stderr)
        return 2
    sys.path.insert(0, os.path.dirname(os.path.realpath(rt)))
    import rtlib

    os.chdir(f"{ROOT}/crates/engine_c")
    os.makedirs("out", exist_ok=True)
    crate = rtlib.Crate(os.getcwd(), ROOT, {})
    lacking = [it.name for it in crate.below() if not os.path.isdir(it.rlib)]
    if lacking:
        print(f"tools/archive.py: rt ci has left no library of {lacking[0]} here", file=sys.stderr)
        return 1
    words = crate.words(["--jobs", "2"], keeps=False)
    words += ["--toolchain", f"{rtlib.KIT}/toolchain", "--backend", "llvm", "-o", "out/libengine_c.a"]
    with tempfile.TemporaryFile("w+") as crate.out:
        status = crate.call(rtlib.RATTLE, "build", *words)
        if status:
            crate.out.seek(0)
            sys.stderr.write(crate.out.read())
            return status
    os.makedirs(f"{ROOT}/target/staticlib", exist_ok=True)
    shutil.copyfile("out/libengine_c.a", f"{ROOT}/target/staticlib/libengine.a")
    print("target/staticlib/libengine.a")
    return 0


sys.exit(main())
