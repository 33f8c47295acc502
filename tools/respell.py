#!/usr/bin/env python3
"""Spells the repository's own definitions, lemmas, constructors and fields as the libraries do.

usage: python3 tools/respell.py [TOP]

Functions, lemmas, fields and constructors of specs/ and proofs/ get snake case, and facts and
types get upper camel case. A name that the prover makes (a goal, a label of a loop) stays, and so
does every function, string and comment of src/. It prints what it renamed, and stops before it
writes anything where two names would fall together. The crate hex becomes hexadecimal, since the
kit has a library of the old name.
"""
import os
import re
import sys

TOP = sys.argv[1] if len(sys.argv) > 1 else "."
WORD = r"[^\s(){}\[\].;,:@\"«»=≡λ→×⊎∷+*/%<≤|]+"
TOKEN = re.compile(r"(?<![^\s(){}.;,@«»\[\]])([A-Za-z][A-Za-z0-9_'-]*)(?![A-Za-z0-9_'-])")
SIGNED = re.compile(r"(?:(?:abbrev|unfoldable|pub) )*([A-Za-z][^\s:({]*)(?: \{[^{}\n]*\})* :(?: (.*)|$)")
KIND = re.compile(r"(?:(?:abbrev|unfoldable|pub) )*(?:record|data) ([A-Za-z][^\s:({]*)")
MEMBER = re.compile(r"\s+(?:pub )?([A-Za-z][^\s:({]*) :(?: |$)")
MADE = re.compile(r"\bgoal\.")

# Names that a `ghost use` gives by `as`.
GIVEN = ["copyEvent", "lapsesAnswer", "partsSeen", "pieceEvent", "receiveEvent", "releaseEvent", "sendEvent", "slotReply", "tickEvent"]


def files(ending):
    for folder, dirs, names in os.walk(os.path.join(TOP, "crates")):
        dirs[:] = sorted(d for d in dirs if d not in ("out", "target"))
        for name in sorted(names):
            if name.endswith(ending):
                yield os.path.join(folder, name)


def is_shared(path):
    """A file of specs/ or of proofs/ itself, and no function's own."""
    return os.path.basename(os.path.dirname(path)) in ("specs", "proofs")


# Where two names would fall together, one of them gets another.
CHOSEN = {
    "all-fit": "all_fit_map",
    "code-in": "code_in_is",
    "code-size": "code_size_is",
    "code-then": "code_then_is",
    "code-told": "code_told_is",
    "destination-in": "destination_in_is",
    "digitsIn": "digits_held",
    "first-told": "first_told_is",
    "followsOn": "load_follows",
    "form-ok": "form_ok_is",
    "found-entry": "found_entry_is",
    "limitOf": "load_limit",
    "octets-of": "octets_of_is",
    "passedOn": "message_passed_on",
    "pieceStep": "piece_step_seen",
    "segmented-as": "segmented_as_is",
    "subsystem-size": "subsystem_size_is",
    "subsystem-told": "subsystem_told_is",
    "with-code": "with_code_ok",
}


def spelled(name):
    if name in CHOSEN:
        return CHOSEN[name]
    if name[0].isupper():
        return "".join(p[:1].upper() + p[1:] for p in re.split(r"[-_]", name))
    words = re.sub(r"(?<=[a-z0-9])[A-Z]", lambda m: "_" + m[0].lower(), name)
    return words.replace("-", "_").lower() if not re.search(r"[A-Z]{2}", name) else words.replace("-", "_")


def declared():
    found = {}
    for path in files(".antt"):
        block = nested = False
        made = set()
        for line in open(path, encoding="utf-8"):
            line = line.rstrip("\n")
            if not line or line.lstrip().startswith("--"):
                continue
            # what stands in a module with parameters is indented by two more
            if not line[0].isspace():
                nested = line.startswith(("module ", "pub module "))
            elif nested:
                line = line[2:]
            kind, sign, member = KIND.match(line), SIGNED.match(line), MEMBER.match(line)
            if not line[0].isspace():
                block = bool(kind)
                if kind:
                    found.setdefault(kind[1], path)
                elif sign:
                    if sign[2] and MADE.match(sign[2]):
                        made.add(sign[1])
                    elif is_shared(path) or sign[1] not in made:
                        found.setdefault(sign[1], path)
            elif block and member:
                found.setdefault(member[1], path)
    return found


def pieces_of_rust(text):
    """The text cut into (is_code, piece): strings and comments are no code."""
    at = 0
    for m in re.finditer(r'//[^\n]*|b?"(?:[^"\\]|\\.)*"', text):
        yield True, text[at:m.start()]
        yield False, m[0]
        at = m.end()
    yield True, text[at:]


def rename_crate():
    old, new = os.path.join(TOP, "crates", "hex"), os.path.join(TOP, "crates", "hexadecimal")
    if not os.path.isdir(old):
        return
    os.rename(old, new)
    listed = os.path.join(TOP, "crates.txt")
    for path in [listed, *files(".rt"), *files(".antt")]:
        text = open(path, encoding="utf-8").read()
        turned = re.sub(r"\bRattle\.hex\.", "Rattle.hexadecimal.", text)
        if path == listed:
            turned = re.sub(r"(?m)^hex:|(?<= )hex(?= |$)", lambda m: m[0].replace("hex", "hexadecimal"), turned)
        elif path.endswith(".rt"):
            turned = re.sub(r"\bhex::", "hexadecimal::", turned)
        if turned != text:
            open(path, "w", encoding="utf-8").write(turned)


def main():
    turned = {}
    for name in [*declared(), *GIVEN]:
        new = spelled(name)
        if new != name:
            turned[name] = new
    texts = {}
    for ending in (".antt", ".rt"):
        for path in files(ending):
            texts[path] = open(path, encoding="utf-8").read()
    wrong = []
    back = {}
    for old, new in turned.items():
        back.setdefault(new, []).append(old)
    for new, olds in back.items():
        if len(olds) > 1:
            wrong.append(f"{' and '.join(olds)} would both be {new}")
    for path, text in texts.items():
        # a function of src/ may have the name of the definition that says what it returns
        if not path.endswith(".antt"):
            continue
        words = set(TOKEN.findall(re.sub(r"\bproofs(\.\w+)+", "", text)))
        for old, new in turned.items():
            if old in words and new in words and not re.search(rf"\bspecs\.{new}\b", text):
                wrong.append(f"{path}: {old} would meet {new}")
    if wrong:
        print("\n".join(wrong))
        if "--show" not in sys.argv:
            return 1

    def turn(text, own):
        def one(m):
            word = m[1]
            if word not in turned:
                return word
            before = text[: m.start()]
            # a label that the prover makes: the first name behind goal, c, l or g in a function's own file
            if own and re.search(r"(?<![^\s(){};,])(?:goal|c|l|g|c\.[a-z_-]+|l\.initial)\.$", before[-40:]):
                return word
            return turned[word]

        return TOKEN.sub(one, text)

    for path, text in texts.items():
        if path.endswith(".rt"):
            new = "".join(turn(p, False) if code else p for code, p in pieces_of_rust(text))
        else:
            own = not is_shared(path)
            made = {m[1] for m in re.finditer(r"(?m)^(?:pub |abbrev )*(\S+) : goal\.", text)} if own else set()
            kept = {n: turned.pop(n) for n in list(turned) if n in made}
            new = "\n".join(l if l.lstrip().startswith("--") else turn(l, own) for l in text.split("\n"))
            turned.update(kept)
        if new != text:
            open(path, "w", encoding="utf-8").write(new)
    rename_crate()
    for old, new in sorted(turned.items()):
        print(f"{old} -> {new}")
    print(f"{len(turned)} names")
    return 0


raise SystemExit(main())
