#!/usr/bin/env python3
"""Packs the page, its styles, its modules, the library and the sampler into one HTML file that opens from disk; and
those that other programs can use into one module:
pack.py LIBRARY.wasm SAMPLER.wasm PAGE.html MODULE.mjs

The file fetches nothing: its policy, which the browser enforces, lets it run its own scripts and workers made of them,
and make no connection. The modules of the page become one script, those of its worker another, which the page starts
from its own text. Before them stands fallback.js, which any browser can read.
"""
import base64
import hashlib
import json
import pathlib
import subprocess
import sys
import tempfile
import zlib

HERE = pathlib.Path(__file__).parent
FONT = pathlib.Path("/usr/share/fonts/truetype/dejavu/DejaVuSansMono.ttf")
DATA = HERE.parent / "library" / "python" / "ecc200" / "data"
IDENTIFIERS, HEADINGS = DATA / "gs1_identifiers.txt", DATA / "headings.txt"
LOOKS = '<link rel="stylesheet" href="style.css">'
SCRIPT = '<script type="module" src="page.mjs"></script>'
FALLBACK = '<script src="fallback.js"></script>'
CHARSET = '<meta charset="utf-8">'
# What the module for other programs has around its modules.
HEAD = """// Data Matrix ECC 200 for programs in JavaScript, with the proved library and the sampler inside.
// Its types are in ecc200.d.mts; docs/JAVASCRIPT.md of Mitsubadoor tells how it is used.
"""
ENTRY = """import { Ecc200 } from "./ecc200.mjs";
import { readIdentifiers } from "./gs1.mjs";
export { FNC1 } from "./common.mjs";
export { Refused, joined, luminanceOf } from "./ecc200.mjs";
const bytesIn = (text) => Uint8Array.from(atob(text), (c) => c.charCodeAt(0));
readIdentifiers(IDENTIFIERS);
const opened = await Ecc200.load(bytesIn("LIBRARY"), bytesIn("SAMPLER"));
const given = (name) => opened[name].bind(opened);
export const read = given("read"), write = given("write"), readGrid = given("readGrid"), normal = given("normal");
export const sizes = given("sizes");
"""


def sources():
    """The modules by their names."""
    return {file.name: file.read_text(encoding="utf-8") for file in sorted(HERE.glob("*.mjs"))}


def bundled(modules, entry, form):
    """One script of a text and of all the modules that it needs, by esbuild."""
    with tempfile.TemporaryDirectory() as folder:
        for name, text in modules.items():
            pathlib.Path(folder, name).write_text(text, encoding="utf-8")
        words = ["esbuild", "--bundle", f"--format={form}", "--charset=utf8", "--target=es2022", "--log-level=warning"]
        done = subprocess.run(words, input=entry, cwd=folder, stdout=subprocess.PIPE, text=True, encoding="utf-8")
    if done.returncode:
        sys.exit(done.returncode)
    assert "</script" not in done.stdout
    return f"\n{done.stdout}"


def hash_of(script):
    """How the policy names a script that may run."""
    return f"'sha256-{base64.b64encode(hashlib.sha256(script.encode()).digest()).decode()}'"


def page_of(script, plain):
    """The page around its script, with these texts by their names."""
    page, looks, fallback = ((HERE / name).read_text(encoding="utf-8")
                             for name in ("index.html", "style.css", "fallback.js"))
    assert all(page.count(line) == 1 for line in (LOOKS, SCRIPT, FALLBACK, CHARSET))
    policy = (f"default-src 'none'; script-src {hash_of(fallback)} {hash_of(script)} 'wasm-unsafe-eval'; "
              "worker-src blob: 'self'; manifest-src 'self'; style-src 'unsafe-inline'; img-src data: blob:; "
              "media-src blob:; base-uri 'none'; "
              "form-action 'none'")
    page = page.replace(CHARSET, f'{CHARSET}\n<meta http-equiv="Content-Security-Policy" content="{policy}">')
    page = page.replace(LOOKS, f"<style>\n{looks}</style>").replace(FALLBACK, f"<script>{fallback}</script>")
    parts = [f'<script type="text/plain" id="{name}">{text}</script>' for name, text in plain.items()]
    return page.replace(SCRIPT, "\n".join([*parts, f'<script type="module">{script}</script>']))


def packed(library, sampler, modules):
    binary = {"library": library, "sampler": sampler, "font": zlib.compress(FONT.read_bytes(), 9)}
    plain = {name: base64.b64encode(body).decode() for name, body in binary.items()}
    plain |= {"worker": bundled(modules, 'import "./worker.mjs";', "iife"),
              "identifiers": IDENTIFIERS.read_text(encoding="utf-8"), "headings": HEADINGS.read_text(encoding="utf-8")}
    return page_of(bundled(modules, 'import "./page.mjs";', "esm"), plain)


def packed_module(library, sampler, modules):
    """The module for other programs: one file, which fetches nothing either."""
    entry = ENTRY.replace("IDENTIFIERS", json.dumps(IDENTIFIERS.read_text(encoding="utf-8")))
    for name, body in (("LIBRARY", library), ("SAMPLER", sampler)):
        entry = entry.replace(name, base64.b64encode(body).decode())
    return f"{HEAD}{bundled(modules, entry, 'esm')}"


if __name__ == "__main__":
    proved, finder, page, module = map(pathlib.Path, sys.argv[1:])
    parts_of_both = proved.read_bytes(), finder.read_bytes(), sources()
    page.write_text(packed(*parts_of_both), encoding="utf-8")
    module.write_text(packed_module(*parts_of_both), encoding="utf-8")
