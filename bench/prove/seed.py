#!/usr/bin/env python3
"""Links what `rt ci` keeps on this machine into a checkout, so that `rt check` doesn't build it again.

    bench/prove/seed.py [CHECKOUT]

`rt check` takes libraries that other checks built, and none that `rt ci` proved. For each crate of the checkout (this one) of which
`rt ci` keeps the proof, over the same libraries, its library is linked into `out/rlib` with the stamp of its text. No verdict rests
on it: the gate looks at its own. It reads the kit's `rt` as a module, so a new kit may want another form.
"""
import importlib.util
import json
import os
import shutil
import sys
from importlib.machinery import SourceFileLoader

TOOLS = "/opt/rattle/bin"


def kit():
    sys.path.insert(0, TOOLS)
    loader = SourceFileLoader("rt", f"{TOOLS}/rt")
    module = importlib.util.module_from_spec(importlib.util.spec_from_loader("rt", loader))
    sys.modules["rt"] = module
    loader.exec_module(module)
    return module


def link(rt, crate, at):
    """Links the kept files of a crate's library, unless they are there."""
    out = f"{crate.folder}/out"
    if rt.rtlib.text_of(f"{out}/rlib/stamp") == crate.stamp():
        return False
    shutil.rmtree(f"{out}/rlib", ignore_errors=True)
    with open(f"{at}/made.json", encoding="utf-8") as it:
        files = json.load(it)["files"]
    for number, (path, _) in enumerate(files):
        os.makedirs(os.path.dirname(f"{out}/{path}"), exist_ok=True)
        rt.link_or_copy(f"{at}/{number}", f"{out}/{path}")
    with open(f"{out}/rlib/stamp", "w", encoding="utf-8") as it:
        it.write(crate.stamp())
    return True


def main():
    top = os.path.dirname(os.path.dirname(os.path.dirname(os.path.abspath(__file__))))
    root = os.path.abspath(sys.argv[1]) if len(sys.argv) > 1 else top
    os.chdir(root)
    rt = kit()
    rt.Crate.cuts_libraries = True
    rt.Crate.allowed = rt.handles_of(root)
    crates = rt.crates_of(root)
    kept, done, linked = rt.Kept(crates), set(), []
    for crate in crates:
        if crate.is_program or crate.is_static or any(it.name not in done for it in crate.below()):
            continue
        at = kept.place(crate, False, kept.key(crate))
        if not os.path.isdir(at):
            continue
        if link(rt, crate, at):
            linked.append(crate.name)
        kept.is_built(crate)
        done.add(crate.name)
    print(f"{len(linked)} linked, {len(done) - len(linked)} there: {' '.join(linked)}")


if __name__ == "__main__":
    main()
