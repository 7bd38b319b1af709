#!/usr/bin/env python3
"""Brings the names that this repository defines in specs/ and proofs/ to one spelling.

    tools/respell.py        at the top of the repository; it was run once, right after the kit's port.py (docs/PORT.md)

Words and lemmas in snake case, types and facts in camel case, a prime as an apostrophe.
Names that a library defines, names of goals and of steps, and all of src/ outside of
clauses and ghost items stay as they are. Files are rewritten in place.
"""
import os
import re
import subprocess
import sys

WORD = r"[^\s(){}\[\];,.«»∷λ|]+"
SIGNATURE = re.compile(r"^\s*(?:(?:pub|abbrev|unfoldable|mutual)\s+)*(?:(?:record|data|ruleset)\s+)?(%s)\s*(?:[({].*)?:(?!=)(.*)$" % WORD)
GENERATED = re.compile(r"^(returns|invariant-|decreases-|loop-|overflow-|bounds-|slice-bounds-|offset-bounds-|unreachable-)|-(requires|preserved|smaller|init)(-|$)")


def files():
    names = subprocess.check_output(["git", "ls-files", "-co", "--exclude-standard"], text=True).split("\n")
    return [f for f in names if f.endswith((".antt", ".rt")) and os.path.exists(f)]


def respelled(name):
    name = name.replace("′", "'")
    parts = name.split("-")
    if name[0].isupper():
        return parts[0] + "".join(p[:1].upper() + p[1:] for p in parts[1:])
    text = "_".join(parts)
    return re.sub(r"(?<=[a-z])([A-Z])(?=[a-z])", lambda m: "_" + m[1].lower(), text)


def defined(texts):
    found = set()
    for f, text in texts.items():
        if not f.endswith(".antt"):
            continue
        for line in text.split("\n"):
            if line.lstrip().startswith(("--", "use ", "open ", "module ")):
                continue
            m = SIGNATURE.match(line)
            if not m or "goal." in m[2] or GENERATED.search(m[1]):
                continue
            found.add(m[1])
    return found


def imported(texts, own):
    """Names that come from a library, by the lines that import them."""
    found = set()
    for text in texts.values():
        for m in re.finditer(r"^(?:ghost )?use ([^\n{;]*)(?:\{([^}]*)\})?", text, re.M):
            path = m[1].split(".")
            if path[0] == "Rattle" and len(path) > 1 and path[1] in own:
                continue
            for part in (m[2] or "").split(","):
                found.add(part.strip().split(" as ")[0])
    return found


def main():
    own = {line.split(":")[0].split()[0] for line in open("crates.txt", encoding="utf-8") if line.strip() and not line.startswith("#")}
    texts = {f: open(f, encoding="utf-8").read() for f in files()}
    names = {n for n in defined(texts) if respelled(n) != n and re.match(r"^[A-Za-z]", n)} - imported(texts, own)
    # names of functions may be taken: a clause can't call them. Fields, parameters and variables may not
    taken = set()
    for f, text in texts.items():
        if f.endswith(".antt"):
            taken |= set(re.findall(WORD, re.sub(r"^use [^\n{]*", "", text, flags=re.M)))
        else:
            taken |= {a or b for a, b in re.findall(r"\b([a-z][a-z0-9_]*)(?=: )|\b(?:let mut|let|for) ([a-z0-9_]+)", text)}
    turned = {}
    for n in sorted(names):
        to = respelled(n)
        if to in taken or to in turned.values():
            print(f"look: {n} would be {to}, which is there already")
            to = to + "_law" if not to[0].isupper() else to + "Law"
        turned[n] = to
    token = re.compile("(?<![^\\s(){}\\[\\];,.«»∷λ|`])(" + "|".join(re.escape(n) for n in sorted(turned, key=len, reverse=True)) + ")(?![^\\s(){}\\[\\];,.«»∷λ|`])")
    for f, text in texts.items():
        lines = text.split("\n")
        for i, line in enumerate(lines):
            comment = line.lstrip().startswith(("--", "//"))
            if comment:
                lines[i] = re.sub(r"`[^`]*`", lambda m: token.sub(lambda k: turned[k[1]], m[0]), line)
            elif f.endswith(".antt"):
                lines[i] = token.sub(lambda k: turned[k[1]], line)
            else:
                # code can't hold these names: a minus sign stands between blanks there, and strings are left alone
                lines[i] = re.sub(r'"[^"\n]*"|[^"\n]+', lambda m: m[0] if m[0].startswith('"') else token.sub(lambda k: turned[k[1]], m[0]), line)
        new = "\n".join(lines)
        if new != text:
            open(f, "w", encoding="utf-8").write(new)
    for n in sorted(turned):
        print(n, turned[n])


if __name__ == "__main__":
    main()
