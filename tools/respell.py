#!/usr/bin/env python3
"""Respells the repository's own names of the logic as today's Rattle spells names: words in snake case.

usage: python3 tools/respell.py            at the top, once, after the port script

Definitions, lemmas and local names in camel case become snake case (`poolsOf` is `pools_of`); types, modules and
constructors keep their capital. A new spelling that another name of the same file has already gives that other name,
or itself, another word: TABLE says which. `result` is a word of clauses now, so the ledger's own `result` is
`outcome`, and the clauses that kept a lambda because of it lose it; `ground` is a tactic, so parameters and fields of that
name are `area`. Functions of src/, exported names, strings and
files that are no Rattle keep their names.
"""
import glob
import re
import sys

# Names that would fall together, or that are a word of clauses: the old token and the new one, in these files or in all.
TABLE = [
    ("no_place", "without_place", ["ask_commit/proofs/ReplyPuts.antt", "ask_serve/proofs/GrantLaws.antt"]),
    ("in_use", "member_in_use", ["ledger/proofs/FirstSentence.antt"]),
    ("four_bytes", "four_bytes_fit", ["ledger/proofs/InRange.antt"]),
    ("ended_by", "ended_alike", ["ledger/proofs/Following.antt"]),
    ("outcome", "granted_outcome", ["ask_commit/proofs/GrantLaws.antt"]),
    ("outcome", "settled_outcome", [f"call_{c}" for c in ("mark", "list", "release", "take")]),
    ("by_rows", "by_rows_lem", None),
    ("lastDigits", "lowest_digits", None),
    ("askH", "asked_h", None),
    ("askLength", "asked_length", None),
    ("askLengths", "asked_lengths", None),
]
# A word that is a tactic in clauses and definitions. Comments keep it, and so does the text of the program `sheet`.
TACTIC = {"ground": "area"}
# Labels of the clauses that lose their lambda; `fact` with a second one beside it states bounds.
CLAUSES = {"r_bound": "upper_bound", "r_in_bounds": "in_bounds", "fact": "equation", "fact_2": "equation"}

TOKEN = re.compile(r"[^\s(){}\[\];,.@\"«»◌]+")
CAMEL = re.compile(r"[a-z][^:]*")
HUMP = re.compile(r"[a-z0-9][A-Z]")


def snake(word):
    return re.sub(r"(?<=[a-z0-9])([A-Z])", lambda m: "_" + m.group(1).lower(), word)


def camel(word):
    return CAMEL.fullmatch(word) is not None and HUMP.search(word) is not None


def sources():
    return sorted(
        glob.glob("crates/*/specs/**/*.antt", recursive=True)
        + glob.glob("crates/*/proofs/**/*.antt", recursive=True)
        + glob.glob("crates/*/src/**/*.rt", recursive=True)
    )


def read(path):
    with open(path, encoding="utf-8", newline="") as it:
        return it.read()


def own_names(files):
    """Every token in camel case of the repository's code: all are names of its own."""
    found = set()
    for path in files:
        mark = "--" if path.endswith(".antt") else "//"
        for line in read(path).split("\n"):
            found.update(t for t in TOKEN.findall(line.split(mark)[0]) if camel(t))
    return found


def mapped(text, names, table):
    def one(found):
        word = found.group()
        if word in table:
            # A field behind a dot is not the name that the table means.
            before = text[: found.start()]
            if not (before.endswith(".") and word[0].islower() and not HUMP.search(word)):
                return table[word]
        return snake(word) if word in names else word

    return TOKEN.sub(one, text)


def without_tactics(path, text):
    if path.startswith("crates/sheet/"):
        return text
    lines = []

    def plain(found):
        word = found.group()
        end = ":" if word.endswith(":") and word[:-1] in TACTIC else ""
        return TACTIC.get(word[: -1] if end else word, word[: -1] if end else word) + end

    for line in text.split("\n"):
        if path.endswith(".edit"):
            code, rest = (line, "") if line.startswith(("old:", "new:")) else ("", line)
        else:
            at = line.find("--" if path.endswith(".antt") else "//")
            code, rest = (line, "") if at < 0 else (line[:at], line[at:])
        lines.append(TOKEN.sub(plain, code) + rest)
    return "\n".join(lines)


def close(text, at):
    """Where the brace that opens at `at` closes."""
    depth = 0
    for i in range(at, len(text)):
        depth += (text[i] == "{") - (text[i] == "}")
        if depth == 0:
            return i
    raise ValueError("an open brace")


def without_lambdas(path, text):
    """Clauses `ensures* n { λ r. ⌜ .. ⌝ }` as `ensures n { .. }`, with the ledger's `result` as `outcome`."""
    clause = re.compile(r"ensures\*( \w+)? \{ λ (\w+)\. ⌜ ")
    out, at = [], 0
    for found in clause.finditer(text):
        if found.start() < at:
            continue
        end = close(text, text.index("{", found.start()))
        body = text[found.end() : end].rstrip()
        if not body.endswith("⌝"):
            raise ValueError(f"{path}: {body[-40:]}")
        body = body[:-1].rstrip()
        name, bound = found.group(1) or "", found.group(2)
        if name.strip() == "fact" and text[end + 1 :].lstrip().startswith("ensures* fact_2 "):
            name = "bounds"
        name = " " + CLAUSES.get(name.strip(), name.strip()) if name else ""
        body = TOKEN.sub(
            lambda m: "outcome" if m.group() == "result" and not body[: m.start()].endswith(".") else m.group(), body
        )
        if bound != "_":
            if re.search(r"λ[^.]*(?<!\w)%s(?!\w)|\([^()]*(?<![\w.])%s(?!\w)[^()]*:" % (bound, bound), body):
                print(f"look: {path}: {bound} may be bound again: {body[:60]}")
            body = TOKEN.sub(
                lambda m: "result" if m.group() == bound and not body[: m.start()].endswith(".") else m.group(), body
            )
        out += [text[at : found.start()], "ensures", name, " { ", body, " }"]
        at = end + 1
    out.append(text[at:])
    text = "".join(out)

    def imports(found):
        return re.sub(r"(?<![\w.])result(?![\w])", "outcome", found.group())

    return re.sub(r"ghost use Rattle\.ledger\.specs\.Ledger\.\{[^}]*\};", imports, text)


def main():
    files = sources()
    names = own_names(files)
    if not names:
        sys.exit("respell: every name has today's spelling already")
    for path in files + sorted(glob.glob("crates/*/must-fail/*.edit") + glob.glob("tests/more-edits/**/*.edit", recursive=True)):
        text = read(path)
        short = path[len("crates/") :]
        table = {old: new for old, new, only in TABLE if only is None or any(short == it or short.startswith(it + "/proofs/") for it in only)}
        new = mapped(text, names, table)
        if path.endswith(".antt"):
            new = TOKEN.sub(lambda m: "outcome" if m.group() == "result" and not new[: m.start()].endswith(".") else m.group(), new)
        elif path.endswith(".rt"):
            new = without_lambdas(path, new)
        new = without_tactics(path, new)
        if new != text:
            with open(path, "w", encoding="utf-8", newline="") as it:
                it.write(new)
            print(path)


if __name__ == "__main__":
    main()
