#!/usr/bin/env python3
"""Spells the repository's own definitions, lemmas and fields as the kit does: words in snake case, types in camel case.

usage: python3 tools/names.py     once, at the top of the repository, right after the kit's port.py

Names of functions, files, exported symbols and strings stay. A lemma that would get the name of a definition ends in _lem.
Prints the names that fall together in a file, which want a word of their own in OTHER below.
"""

import collections
import os
import re
import sys

# Names with a spelling of their own, since the plain one is taken where they are used.
OTHER = {
    "FirstEnd": "first_end",
    "isSame": "is_same_answer",
    "body_bytes": "body_bytes_lem",
    "bit-or": "bit_or_lem",
}

# The same, in one file alone.
OTHER_IN = {
    "crates/records/proofs/Facts.antt": {"in-range": "in_range_lem"},
    "crates/invariants/specs/RecordLaws.antt": {"in-range": "in_range_lem"},
}

# What port.py has turned in the code, since a library had the same spelling: the pages and the edits follow.
TURNED_BEFORE = """
    add-start all-end all-known all-more and-same array-apart at-once beside-none body-bytes bodyOf both-true bytes-cut
    bytes-fit bytes-take bytesOf countOf counting-more cut-short cutAt decimal-digit digits-more either-first either-second
    end-before ends-last first-byte first-ends firstWord follows-itself follows-same goes-on good-more grows-none has-room
    high-digit in-is in-left in-order in-right in-use index-stays is-name is-said is-same isLine isOf isOrder kept-here
    kindOf leading-end length-cut lengthOf line-before low-digit moved-all moved-more new-meets new-walks next-of nextOf
    no-call no-kind no-length no-room no-words not-itself not-opened number-append number-fits number-lt number-put numberOf
    of-size of-words only-here only-yes open-is orderOf outOf own-put pair-fits passed-on past-end place-of placeOf put-all
    put-keeps putBack read-back readBody readLog reads-all run-holds said-of same-cond same-end same-index same-more
    same-stop same-test signatureIn signed-above signed-below span-pos sub-word sum-below sum-mono sumOf take-next to-fields
    too-long turn-by turn-is turnOf turns-same upTo word-below word-next word-read wordAt zero-more
""".split()

TOKEN = re.compile(r"[^\s(){}\[\].,;:\"|`]+")
DECLARED = re.compile(r"^(\s*)((?:abbrev |unfoldable |pub |data |record |axiom |ruleset )*)([^\s(){}:.]+)((?: \{[^}]*\})*)((?:\s*\([^)]*\))*)\s*:(?: |$)")
IMPORT = re.compile(r"^(?:pub )?(?:ghost )?use ([^\s{;]+?)(?:\.\{([^}]*)\})?(?: as ([^\s;]+))?;?$")


def files(*endings):
    for folder, folders, names in os.walk("crates"):
        folders[:] = sorted(f for f in folders if f != "out")
        for name in sorted(names):
            if name.endswith(endings):
                yield os.path.join(folder, name)


def snake(name):
    name = name.replace("getD", "get_or").replace("+", "_plus_").replace("′", "'")
    name = re.sub(r"(?<=[a-z0-9])(?=[A-Z])", "_", name)
    return name.replace("-", "_").lower()


def own():
    return {line.split(":")[0].split()[0] for line in open("crates.txt") if ":" in line}


def declared():
    """What lemma files and specs declare, fields and members of modules among them; not the parts of one function's proof."""
    found = collections.defaultdict(set)
    for path in files(".antt"):
        if path.endswith("/Proof.antt"):
            continue
        for line in open(path):
            if re.match(r"\s*(use|pub use|open|mod|pub mod|unfolding|--|let|in|→)\b", line) or line.lstrip().startswith(("--", "→", "∙", "λ", "(", "|")):
                continue
            m = DECLARED.match(line.rstrip("\n"))
            if m and re.match(r"[A-Za-zμ]", m.group(3)):
                found[m.group(3)].add(path)
    return found


def main():
    crates = own()
    found = declared()
    turned = {}
    for name in found:
        if name in OTHER:
            turned[name] = OTHER[name]
        elif name[0].islower() and re.search(r"[-′+]|[a-z0-9][A-Z]", name):
            turned[name] = snake(name)
    earlier = {name: OTHER.get(snake(name), snake(name)) for name in TURNED_BEFORE}
    # a lemma gives way to a definition: a name with a dash was a lemma's
    by_new = collections.defaultdict(set)
    for old, new in turned.items():
        by_new[new].add(old)
    for new, olds in by_new.items():
        if len(olds) > 1 or new in found:
            for old in olds:
                if "-" in old and old not in FIELDS:
                    turned[old] = new + "_lem"
    taken = 0
    for path in files(".antt", ".rt", ".edit"):
        text = open(path).read()
        is_code = path.endswith(".rt")
        is_edit = path.endswith(".edit")
        foreign, aliases = set(), set()
        for line in text.split("\n"):
            m = IMPORT.match(line.strip())
            if m:
                if m.group(3):
                    aliases.add(m.group(3))
                parts = m.group(1).split(".")
                if not (parts[0] == "Rattle" and len(parts) > 1 and parts[1].split("·")[0] in crates):
                    for item in (m.group(2) or "").split(","):
                        foreign.add(item.strip().split(" as ")[-1].strip())

        here = OTHER_IN.get(path, {})

        def turn(m):
            word = m.group(0)
            if word in here:
                return here[word]
            if is_edit and word in earlier:
                return earlier[word]
            if word not in turned or word in foreign or is_code and word in found and word == snake(word):
                return word
            before = text_line[: m.start()]
            if before.endswith("."):
                head = re.search(r"([^\s(){}\[\],;:]+)\.$", before)
                top = head.group(1).split(".")[0] if head else ""
                # a field of a generated record keeps its name; our own fields have no such word
                if not (top in aliases or top == "Rattle" or word in fields):
                    return word
            seen[turned[word]].add(word)
            return turned[word]

        fields = FIELDS
        seen = collections.defaultdict(set)
        lines = []
        for text_line in text.split("\n"):
            stripped = text_line.lstrip()
            if stripped.startswith("//") or (stripped.startswith("--")):
                lines.append(re.sub(r"`[^`]*`", lambda s: in_ticks(s.group(0), turned | earlier), text_line))
            else:
                lines.append(TOKEN.sub(turn, text_line))
        plain = set(TOKEN.findall(text))
        for new, olds in seen.items():
            if len(olds) > 1 or new in plain - set(olds):
                print(f"together: {path}: {new}: {sorted(olds)}{' and it stood there' if new in plain else ''}")
                taken += 1
        new_text = "\n".join(lines)
        if new_text != text:
            open(path, "w").write(new_text)
    for folder in ("docs", "."):
        for name in sorted(os.listdir(folder)):
            if name.endswith(".md") and name not in ("PORT.md",):
                path = os.path.join(folder, name)
                text = open(path).read()
                new_text = re.sub(r"`[^`\n]*`", lambda s: in_ticks(s.group(0), turned | earlier), text)
                if new_text != text:
                    open(path, "w").write(new_text)
    print(f"{len(turned)} names; {taken} that fall together in a file")


def in_ticks(text, turned):
    return TOKEN.sub(lambda m: turned.get(m.group(0), m.group(0)), text)


def field_names():
    found = set()
    for path in files(".antt"):
        if path.endswith("/Proof.antt"):
            continue
        inside = None
        for line in open(path):
            m = re.match(r"( *)(?:pub )?(record|data) ", line)
            if m:
                inside = len(m.group(1))
            elif inside is not None and line.strip() and len(line) - len(line.lstrip()) <= inside:
                inside = None
            elif inside is not None:
                m = re.match(r"\s+(?:pub )?([^\s(){}:.]+) :", line)
                if m:
                    found.add(m.group(1))
    return found


FIELDS = field_names()
if __name__ == "__main__":
    sys.exit(main())
