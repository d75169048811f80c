#!/usr/bin/env python3
"""Spells the repository's own definitions and lemmas in snake case, after the kit's port.py: words in camel case and lemmas with dashes.

usage: tools/respell.py [--check]    at the top of the repository, once, right after port.py

A word in camel case that begins small is a definition, a field or a variable of this repository, as the library has none: it turns everywhere.
A word with a dash turns where a file of proofs/ declares it. Behind a value it is a name that Rattle makes of the code, and stays, but where a
record of this repository has such a field. Two names that would fall together: the lemma gets _lem. Modules, types, functions of src/ and what the
programs read and write keep their names. It goes by text: rt check decides. --check writes nothing, and names what falls together in a file.
"""
import collections
import os
import re
import sys

WORD = r"[^\s(){}.;,@\"«»:]+"
CHAIN = re.compile(rf"{WORD}(?:\.{WORD})*")
DECLARED = re.compile(rf"^\s*(?:abbrev |unfoldable |pub )*({WORD})(?:\s+\{{[^{{}}\n]*\}})* :(?!\S)")
CAMEL = re.compile(r"[a-z][a-z0-9_]*[A-Z][A-Za-z0-9_]*'*")
DASHED = re.compile(r"[a-z][\w'₀-₉]*(?:-[\w'₀-₉]+)+")
GHOST = re.compile(r"ghost use\b[^;]*;|\b(?:requires|ensures|ghost)\b[^{;]*\{", re.S)
COMMENT = re.compile(r"//[^\n]*")
SPAN = re.compile(r"`[^`\n]+`")


def snake(name):
    return re.sub(r"(?<=[a-z0-9])[A-Z]", lambda m: "_" + m[0].lower(), name).replace("-", "_")


def files(top, ends, below="crates"):
    for folder, dirs, names in os.walk(os.path.join(top, below)):
        dirs[:] = sorted(d for d in dirs if d not in ("out", "target", ".git", "__pycache__"))
        for name in sorted(names):
            if name.endswith(ends):
                yield os.path.join(folder, name)


def is_made(path):
    return "/Proof/" in path or path.endswith(("Kinds.antt", "Reads.antt"))


def of_function(path):
    """Whether the file is a proof of one function, which speaks of the names that Rattle makes."""
    return re.search(r"/proofs/.+/", path) is not None


class Respelling:
    def __init__(self, top):
        declared = collections.defaultdict(set)
        functions = set()
        for path in files(top, (".antt", ".rt")):
            with open(path, encoding="utf-8") as f:
                text = f.read()
            if path.endswith(".rt"):
                functions.update(re.findall(r"\bfn (\w+)", text))
            elif not is_made(path):
                for line in text.splitlines():
                    m = DECLARED.match(line)
                    if m:
                        declared[m[1]].add(path)
        self.functions = functions
        spelled = collections.defaultdict(set)
        for name in declared:
            spelled[snake(name)].add(name)
        self.table = {}
        for name in declared:
            if not (DASHED.fullmatch(name) or CAMEL.fullmatch(name)):
                continue
            new = snake(name)
            if "-" in name and len(spelled[new]) > 1:
                new += "_lem"
            self.table[name] = new
        for name in list(self.table):
            # what the code's own functions are called, Rattle calls so too
            if "-" in name and re.sub(r"\d*$", "", snake(name)) in functions and all(of_function(p) for p in declared[name]):
                if not name.endswith("-spec"):
                    del self.table[name]

    def word(self, w):
        if w in self.table:
            return self.table[w]
        if CAMEL.fullmatch(w):
            return snake(w)
        return w

    def chain(self, text, function):
        parts = text.split(".")
        out = [self.word(parts[0])]
        module = parts[0][:1].isupper()
        for part in parts[1:]:
            made = function and not module and "-" in part
            if made and (re.sub(r"\d*$", "", snake(part)) in self.functions or part not in self.table or re.match("requires|ensures|loop|returns|if|in", part)):
                out.append(part)
            else:
                out.append(self.word(part))
            module = module and part[:1].isupper()
        return ".".join(out)

    def antt(self, text, path):
        function = of_function(path)
        lines = []
        for line in text.split("\n"):
            cut = re.search(r"(?:^|\s)--(?:\s|$)", line)
            code, comment = (line[: cut.start()], line[cut.start() :]) if cut else (line, "")
            lines.append(CHAIN.sub(lambda m: self.chain(m[0], function), code) + self.prose(comment))
        return "\n".join(lines)

    def prose(self, text):
        span = lambda m: "`" + CHAIN.sub(lambda n: self.chain(n[0], True), m[0][1:-1]) + "`"
        return SPAN.sub(span, text)

    def rt(self, text):
        out, at = [], 0
        for m in GHOST.finditer(text):
            if m.start() < at:
                continue
            end = m.end()
            if m[0].endswith("{"):
                depth = 1
                while depth and end < len(text):
                    depth += {"{": 1, "}": -1}.get(text[end], 0)
                    end += 1
            out.append(COMMENT.sub(lambda n: self.prose(n[0]), text[at : m.start()]))
            out.append(CHAIN.sub(lambda n: self.chain(n[0], False), text[m.start() : end]))
            at = end
        return "".join(out) + COMMENT.sub(lambda n: self.prose(n[0]), text[at:])


def falls_together(old, new, respelling):
    """The words of a file that were two and are one."""
    sources = collections.defaultdict(set)
    for w in set(re.findall(WORD, old)):
        sources[respelling.word(w)].add(w)
    return {n: sorted(o) for n, o in sources.items() if len(o) > 1}


def main(argv):
    top = os.getcwd()
    respelling = Respelling(top)
    for path in list(files(top, (".antt", ".rt"))):
        if is_made(path):
            continue
        with open(path, encoding="utf-8") as f:
            old = f.read()
        new = respelling.rt(old) if path.endswith(".rt") else respelling.antt(old, path)
        for name, words in falls_together(old, new, respelling).items():
            print(f"look: {os.path.relpath(path, top)}: {name}: {' '.join(words)}")
        if new != old and "--check" not in argv:
            with open(path, "w", encoding="utf-8") as f:
                f.write(new)
    if "--table" in argv:
        for old, new in sorted(respelling.table.items()):
            print(f"{old}\t{new}")


if __name__ == "__main__":
    main(sys.argv[1:])
