#!/usr/bin/env python3
"""Checks that each path and each name in the documents exists, that each crate has its page, and that the map of crates in
docs/ARCHITECTURE.md is that of crates.txt. Quiet where all is well."""
import glob
import os
import re
import sys

top = os.path.dirname(os.path.dirname(os.path.abspath(__file__)))
os.chdir(top)
failed = []


def sources():
    for pattern in ("crates/*/src/**/*.rt", "crates/*/specs/**/*.antt", "crates/*/proofs/**/*.antt", "bench/*", ".ci/*"):
        for path in glob.glob(pattern, recursive=True):
            if os.path.isfile(path):
                with open(path, encoding="utf-8", errors="replace") as file:
                    yield file.read()


crates = {}
with open("crates.txt", encoding="utf-8") as file:
    for line in file:
        line = line.split("#")[0].strip()
        if line:
            name, needs = line.split(":")
            crates[name.split()[0]] = needs.split()

words = set(re.findall(r"[A-Za-z_][\w-]*", "\n".join(sources()) + " ".join(f"{n} {' '.join(d)}" for n, d in crates.items())))
words |= {name.split(".")[0] for name in os.listdir("docs")}
# Words of the toolchain, the shell and the formats, and letters that stand for something.
words |= set("rt std ci cmake gcc cat cargo rtpdump NAME STREAMCODE_BUILD plen".split())
path_like = re.compile(r"^[\w.{}*-]+(/[\w.{}*-]+)+/?$")

for page in ["README.md", *glob.glob("docs/*.md"), *glob.glob("crates/*/README.md"), *glob.glob("bench/*.md")]:
    text = re.sub(r"^(?: {4}.*|```[\s\S]*?```)$", "", open(page, encoding="utf-8").read(), flags=re.M)
    for token in re.findall(r"`([^`]+)`", text):
        if "/out/" in token:
            continue
        if path_like.match(token):
            places = [token, "crates/" + token, os.path.join(os.path.dirname(page), token), "crates/sc_rtpdump/" + token]
            shape = [re.sub(r"NAME|\*", "*", place) for place in places]
            if not any(glob.glob(place) for place in shape):
                failed.append(f"{page}: no file {token}")
        elif re.match(r"^[A-Za-z_][\w:.-]*$", token):
            for part in re.split(r"::|\.", token):
                if part and part not in words:
                    failed.append(f"{page}: nothing is called {part}")

for name in crates:
    if not os.path.exists(f"crates/{name}/README.md"):
        failed.append(f"crates/{name} has no README.md")
rows = {}
for line in open("docs/ARCHITECTURE.md", encoding="utf-8"):
    cells = [cell.strip() for cell in line.split("|")]
    if len(cells) > 3 and cells[1].strip("`") in crates:
        rows[cells[1].strip("`")] = re.findall(r"`([\w]+)`", cells[2])
for name, needs in crates.items():
    if rows.get(name) != needs:
        failed.append(f"docs/ARCHITECTURE.md: {name} stands on {needs}, and not on {rows.get(name)}")

for line in failed:
    print(line, file=sys.stderr)
sys.exit(1 if failed else 0)
