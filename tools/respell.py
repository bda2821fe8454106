#!/usr/bin/env python3
"""Respells this repository's own definitions and lemmas as Rattle writes names today.

usage: python3 tools/respell.py          at the top of the repository, once, after /opt/rattle/port/port.py

Types are in upper camel case. Everything else is in snake case, and in a lemma a dash joins two names. Names that Rattle
makes (goals, steps), functions and fields of src/, strings, inputs and outputs keep their spelling. It prints each name it
turns, and stops where two names would fall together in one file.
"""

import collections
import glob
import re

# Words of the library that a lemma's name may join by a dash.
STD = set(
    "append length take drop map set replicate add sub mul div mod pow le lt eq sum xor and_then table column decimal"
    " get_or insert remove reverse concat flat_map is_some is_ok judged min max suc zero".split()
)
# Where the rule alone would not do: the library's own new word, a lemma beside the function of its name, an alias.
BY_HAND = {"getD-seals": "get_or-seals", "next-key": "next_key_lem", "digitValue": "value_of_digit"}
DECLARED = re.compile(r"^(\s*)((?:(?:abbrev|unfoldable|pub|data|record) )*)([^\s:(){}]+)((?: [({].*?)?) : (.*)$")
SIGN = re.compile(r"[A-Za-z0-9_'\u2032\u00b7\u25cc-]+")
WORDS_OF_CLAUSES = re.compile(r"^\s*(ghost\b|requires|ensures)")


def files():
    found = glob.glob("crates/*/specs/**/*.antt", recursive=True) + glob.glob("crates/*/proofs/**/*.antt", recursive=True)
    return sorted(f for f in found if "/out/" not in f)


def declarations():
    """name -> (is it a type, is it a definition)"""
    found = {}
    for path in files():
        block = None
        for line in open(path, encoding="utf-8"):
            line = line.rstrip("\n")
            if line.lstrip().startswith(("--", "use ", "unfolding ")):
                continue
            m = DECLARED.match(line)
            if not m:
                continue
            indent, marks, name, _, kind = m.groups()
            if not indent:
                block = "data" if re.search(r"\b(data|record)\b", marks) else None
            if kind.startswith(("goal.", "given.")) or not re.match(r"[A-Za-z]", name):
                continue
            is_type = name[0].isupper()
            is_word = bool(re.search(r"\b(abbrev|unfoldable|data|record)\b", marks)) or (bool(indent) and block == "data")
            old = found.get(name, (False, False))
            found[name] = (old[0] or is_type, old[1] or is_word)
    return found


def aliases():
    found = set()
    for path in files() + glob.glob("crates/*/src/**/*.rt", recursive=True):
        for line in open(path, encoding="utf-8"):
            if line.lstrip().startswith(("use ", "ghost use ")):
                found.update(m.group(1) for m in re.finditer(r" as ([A-Za-z0-9_'-]+)", line) if m.group(1) not in ("goal", "given", "plain"))
    return found


def snake(word):
    word = word.replace("\u2032", "'")
    word = re.sub(r"([a-z0-9])([A-Z])", lambda m: m.group(1) + "_" + m.group(2).lower(), word)
    return word


def spelled(found, names):
    """The new spelling of each name that gets one."""
    turned = {}
    words = set(STD)
    for name, (is_type, is_word) in found.items():
        if is_word or "-" not in name:
            words.add(snake(name).replace("-", "_"))
            words.add(snake(name[0].lower() + name[1:]).replace("-", "_"))
    for name, (is_type, is_word) in found.items():
        if is_type:
            new = "".join(p[:1].upper() + p[1:] for p in name.split("-"))
        elif is_word:
            new = snake(name).replace("-", "_")
        else:
            new = joined(snake(name), words)
        if new != name:
            turned[name] = new
    for name in names:
        if name not in found and not name[0].isupper():
            new = snake(name).replace("-", "_")
            if new != name:
                turned[name] = new
    return turned


def joined(name, words):
    """A lemma's name: the parts that are names themselves are joined by a dash, other words by an underscore."""
    parts = name.split("-")
    tokens, i = [], 0
    while i < len(parts):
        for j in range(len(parts), i, -1):
            word = "_".join(parts[i:j])
            if word in words:
                tokens.append((word, True))
                break
        else:
            j = i + 1
            tokens.append((parts[i], False))
        i = j
    out = tokens[0][0]
    for (_, one), (word, other) in zip(tokens, tokens[1:]):
        out += ("-" if one and other else "_") + word
    return out


def turn_line(line, turned, fields):
    def new(m):
        word, at = m.group(0), m.start()
        if word not in turned:
            return word
        before = line[:at]
        if before.endswith("."):
            path = re.search(r"(\S+)\.$", before).group(1)
            if re.match(r"^\(*Rattle\.", path) or word in fields:
                return turned[word]
            return word
        return turned[word]

    return SIGN.sub(new, line)


def turn_antt(text, turned, fields):
    out = []
    for line in text.split("\n"):
        code, mark, note = line.partition("--") if line.lstrip().startswith("--") else (line, "", "")
        out.append(line if mark else turn_line(line, turned, fields))
    return "\n".join(out)


def turn_rt(text, turned, fields):
    """Only ghost items and clauses; a clause may go over several lines, until its braces close."""
    out, depth = [], 0
    for line in text.split("\n"):
        if depth > 0 or WORDS_OF_CLAUSES.match(line):
            out.append(turn_line(line, turned, fields))
            depth += line.count("{") - line.count("}")
            if line.rstrip().endswith(";") and depth <= 0:
                depth = 0
        else:
            out.append(line)
    return "\n".join(out)


def main():
    found = declarations()
    turned = spelled(found, aliases())
    fields = set()
    for path in files():
        inside = False
        for line in open(path, encoding="utf-8"):
            if re.match(r"^\S", line):
                inside = bool(re.match(r"^((abbrev|unfoldable|pub) )*record ", line))
            elif inside:
                m = re.match(r"^\s+pub ([^\s:]+) :", line)
                if m:
                    fields.add(m.group(1))
    turned.update({old: new for old, new in BY_HAND.items() if old in turned})
    news = collections.defaultdict(list)
    for old, new in turned.items():
        news[new].append(old)
    clash = 0
    for path in files():
        text = open(path, encoding="utf-8").read()
        here = set(SIGN.findall("\n".join(l for l in text.split("\n") if not re.search(r"\.(Given|Goals) as ", l))))
        for new, olds in news.items():
            present = [o for o in olds if o in here] + ([new] if new in here else [])
            if len(set(present)) > 1:
                print(f"falls together: {path}: {' '.join(sorted(set(present)))} -> {new}")
                clash += 1
    if clash:
        print(f"{clash} places; nothing was written")
        return 1
    for path in files() + sorted(glob.glob("crates/*/src/**/*.rt", recursive=True)):
        with open(path, encoding="utf-8", newline="") as f:
            text = f.read()
        after = turn_antt(text, turned, fields) if path.endswith(".antt") else turn_rt(text, turned, fields)
        if after != text:
            with open(path, "w", encoding="utf-8", newline="") as f:
                f.write(after)
    for old in sorted(turned):
        print(f"{old} -> {turned[old]}")
    return 0


if __name__ == "__main__":
    raise SystemExit(main())
