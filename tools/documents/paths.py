"""Each path and each call `crate::name` that a document names is there."""
import glob
import os
import re

from documents.repository import PARTS, TOP, crates, documents, found, lines_of, words_in


def matches(path):
    """Returns whether a path of the repository is there: NAME stands for any name, and out/ is made by rt."""
    path = path.rstrip("/")
    if "/out" in f"/{path}":
        path = path[: f"/{path}".index("/out")].rstrip("/")
    parts = path.split("/")
    if any(re.search(r"[*]|NAME|^F$", it) for it in parts):
        pattern = "/".join("*" if it == "F" else it.replace("NAME", "*") for it in parts)
        return bool(glob.glob(f"{TOP}/{pattern}"))
    return os.path.exists(f"{TOP}/{path}")


def look_at_paths():
    said, tops = crates(), {it for it in os.listdir(TOP) if os.path.isdir(f"{TOP}/{it}") and it not in (".git", "out")}
    count = 0
    for path in documents():
        shown = False
        for number, line in lines_of(path):
            # (what a console shows may be of another repository)
            shown = line == "```console" or shown and line != "```"
            line = "" if shown else re.sub(r"https?://\S+", "", line)
            for word in re.findall(r"(?<![\w./<>=:$\"{-])\.?[A-Za-z_][\w.*-]*(?:/[\w.*@-]+)+/?", line):
                word = word.rstrip(".,:;")
                first = word.split("/")[0]
                # (bench/ is the folder of scripts, and a file of the crate of that name is named from crates/ on)
                if first in said and first not in tops:
                    word = f"crates/{word}"
                elif first not in tops and (first in PARTS or not re.search(r"/$|\.[a-z]+$", word)):
                    # (a quotient, or a path in a crate's folder, which is looked at below)
                    continue
                count += 1
                if not matches(word):
                    found.bad(f"{path}:{number}", f"there is no {word}")
            # (the map has first sentences of files, which name what stands beside them)
            bare = [] if path == "docs/MAP.md" else re.findall(r"(?<![\w/.])([\w-]+\.(?:md|txt|service|sh|py|cc|svg)|[a-z]+\.1)\b", line)
            for word in bare:
                places = ["", "docs/", f"{os.path.dirname(path)}/", "examples/", "bench/"]
                count += 1
                if not any(os.path.exists(f"{TOP}/{it}{word}") for it in places):
                    found.bad(f"{path}:{number}", f"there is no {word}")
            named = [it for it in re.findall(r"`(?:crates/)?(\w+)`", line) if it in said]
            for word in re.findall(r"(?<![\w/])((?:src|specs|proofs|must-fail)/[\w/.-]+\.\w+)", line):
                count += 1
                if not any(matches(f"crates/{it}/{word}") for it in named or said):
                    found.bad(f"{path}:{number}", f"there is no {word} in {' or '.join(named) or 'any crate'}")
            for crate, name in re.findall(r"\b([a-z][a-z0-9_]*)::((?:\w+::)*\w+|\*)", line):
                if crate not in said or name == "*":
                    continue
                count += 1
                for part in name.split("::"):
                    if part not in words_in(crate):
                        found.bad(f"{path}:{number}", f"the crate {crate} has no {part}")
    found.note(f"{count} paths and names in {len(documents())} documents")
