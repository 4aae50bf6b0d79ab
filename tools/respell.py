#!/usr/bin/env python3
"""Respells the repository's own definitions, lemmas, fields and ghost fields: words in snake case, types in camel case.

usage: python3 tools/respell.py [--list]     once, at the top of the repository

A name counts as the repository's own where a file of specs/ or proofs/ declares it, or a ghost item of src/. What the
prover generates keeps its name: an answer or an invariant by its goal, and whatever an answer reads from `c`. Text of
src/ changes in ghost items and clauses alone, a comment or a page in its code spans alone. Names that would fall
together stop the script before it writes anything.
"""

import glob
import os
import re
import sys

TOKEN = re.compile(r"[^\s(){}.:;,@\"«»`]+")
DECLARED = re.compile(r"^(\s*)(?:pub |abbrev |record |data |unfoldable )*([^\s(){}.:;,@\"«»=]+)\s*(?:[({][^=]*?[)}]\s*)*:(?:\s|$)")
GOAL = re.compile(r":\s*goal\.(\S+)")
GHOST = re.compile(r"ghost\s+([A-Za-z_]\w*)\s*[:=]\s*\{")
ITEM = re.compile(r"\b(?:ensures|requires)\b[^{;]*\{|\bghost\s+(?:\w+\s*)?[:=]\s*\{|\bghost\s+use\b")
STRING = r'"(?:[^"\\\n]|\\.)*"'
COMMENT = re.compile(STRING + r"|--[^\n]*|//[^\n]*")
SPAN = re.compile(r"`[^`\n]+`")

# Lemmas that would get the name of the function that they speak of.
LEMMAS = {
    "digits_in": "digits_in_lem",
    "no-error": "no_error_lem",
    "plain-number": "plain_number_lem",
    "span-of": "span_of_lem",
    "tells-range": "tells_range_lem",
    "value-lines": "value_lines_lem",
    "zero-first": "zero_first_lem",
}

# Fields of one record, or a lemma of one crate, beside the same name of another: nothing is read amiss.
BESIDE = {"in-range", "inputGood", "overVoltage"}


def spelled(name):
    """The name in today's spelling."""
    if name in LEMMAS:
        return LEMMAS[name]
    if not re.search(r"[A-Za-z0-9]-[A-Za-z0-9]|[a-z0-9][A-Z]", name):
        return name
    if name[0].isupper():
        if "-" not in name:
            return name
        return "".join(part[:1].upper() + part[1:] for part in name.split("-"))
    words = re.sub(r"([a-z0-9])([A-Z])", r"\1_\2", name)
    return words.replace("-", "_").lower()


def files(*kinds):
    found = []
    for kind in kinds:
        found += glob.glob(kind, recursive=True)
    return sorted(path for path in found if "/out/" not in path)


def read(path):
    with open(path, encoding="utf-8") as file:
        return file.read()


def own_names():
    """Each own name, with whether it is a field, which stands behind a dot too."""
    made, own = set(), {}
    proofs = files("crates/*/specs/**/*.antt", "crates/*/proofs/**/*.antt")
    for path in proofs:
        made.update(GOAL.findall(read(path)))
    for path in proofs:
        for line in read(path).splitlines():
            found = DECLARED.match(line)
            if found and found.group(2) not in made and spelled(found.group(2)) != found.group(2):
                own[found.group(2)] = own.get(found.group(2), False) or found.group(1) != ""
    for path in files("crates/*/src/**/*.rt"):
        for name in GHOST.findall(read(path)):
            if spelled(name) != name:
                own[name] = True
    return own


def turned(text, own):
    """The text with each own name respelled."""

    def word(match):
        name = match.group(0)
        behind = text[match.start() - 1 : match.start()] == "."
        if name not in own or (behind and not own[name]):
            return name
        if text[: match.start()].endswith("goal."):
            return name
        return spelled(name)

    return TOKEN.sub(word, text)


def spans(text, own):
    """A comment or a page is turned in its code spans, and a string is not."""
    return text if text.startswith('"') else SPAN.sub(lambda match: turned(match.group(0), own), text)


def beside_comments(text, own):
    """Code is turned whole, and a comment in its code spans."""
    done, at = [], 0
    for comment in COMMENT.finditer(text):
        done += [turned(text[at : comment.start()], own), spans(comment.group(0), own)]
        at = comment.end()
    return "".join(done + [turned(text[at:], own)])


def closing(text, at):
    depth = 1
    while depth:
        depth += {"{": 1, "}": -1}.get(text[at], 0)
        at += 1
    return at


def in_rust(text, own):
    """Ghost items and clauses are turned, and code spans of comments."""
    done, at = [], 0
    for item in ITEM.finditer(text):
        if item.start() < at:
            continue
        use = item.group(0).endswith("use")
        end = text.index(";", item.end()) if use else closing(text, item.end())
        done += [COMMENT.sub(lambda c: spans(c.group(0), own), text[at : item.start()]), turned(text[item.start() : end], own)]
        at = end
    return "".join(done + [COMMENT.sub(lambda c: spans(c.group(0), own), text[at:])])


def in_edit(text, own):
    return "".join(turned(line, own) if line.startswith(("old:", "new:")) else line for line in text.splitlines(True))


def all_texts():
    for path in files("crates/*/specs/**/*.antt", "crates/*/proofs/**/*.antt"):
        yield path, beside_comments
    for path in files("crates/*/src/**/*.rt"):
        yield path, in_rust
    for path in files("crates/*/must-fail/*.edit"):
        yield path, in_edit
    for path in files("README.md", "docs/*.md"):
        yield path, spans


def main():
    own = own_names()
    words = set()
    for path in files("crates/*/specs/**/*.antt", "crates/*/proofs/**/*.antt"):
        words.update(TOKEN.findall(COMMENT.sub("", read(path))))
    new = {}
    for name in sorted(own):
        other = new.setdefault(spelled(name), name)
        if name not in BESIDE and (other != name or (spelled(name) in words and spelled(name) not in LEMMAS)):
            print(f"falls together: {name} with {other if other != name else spelled(name)}", file=sys.stderr)
            new["!"] = name
    if "--list" in sys.argv:
        for name in sorted(own):
            print(f"{name}\t{spelled(name)}{'' if own[name] else chr(9) + 'word'}")
        return
    if "!" in new:
        sys.exit(1)
    for path, turn in list(all_texts()):
        before = read(path)
        after = turn(before, own)
        if after != before:
            with open(path, "w", encoding="utf-8") as file:
                file.write(after)
            print(os.path.normpath(path))


main()
