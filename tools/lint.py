#!/usr/bin/env python3
"""What the gate doesn't see. Prints a line for each finding, and ends with 1 where there is one.

- a file, a definition or a lemma that a page names and that isn't there
- a source file, a module of definitions or one of lemmas without its head sentence
- a line of more than 120 columns, without what stands between quotes; imports, proofs and Markdown left out
- a crate of crates.txt without a row in the map or in the README's table, a folder of crates/ that it doesn't name
- a library in a crate's line of crates.txt that nothing of the crate names
- a lemma that nothing cites
- an edit that can't be applied: a text to be changed that doesn't stand exactly once in its file
"""
import os
import re
import subprocess
import sys

from program import TOP, words_of

WIDTH = 120
CODE = (".rt", ".antt")
SCRIPTS = (".py", ".sh", ".c", ".rs", "Makefile", "tools/ebl")
# Files that the prover wants by these names: they need no head, and their items are cited by it.
ANSWERS = ("Answers.antt", "Invariants.antt", "Lib.antt")


def listed():
    """The paths of the files that git knows: what lies beside them in a checkout doesn't count."""
    ended = subprocess.run(["git", "ls-files", "-c"], cwd=TOP, stdout=subprocess.PIPE, text=True, check=True)
    return [name for name in sorted(set(ended.stdout.splitlines())) if os.path.isfile(os.path.join(TOP, name))]


def files():
    """The texts of code, scripts and pages, by path."""
    found = {}
    for name in listed():
        if name.endswith(CODE + SCRIPTS + (".md", ".txt", ".edit")):
            with open(os.path.join(TOP, name), encoding="utf-8") as file:
                found[name] = file.read()
    return found


def heads(texts):
    for name, text in texts.items():
        needs = "//! " if name.endswith(".rt") else "-- " if name.endswith(".antt") else ""
        if needs and os.path.basename(name) not in ANSWERS and not text.startswith(needs):
            yield name, "has no head sentence"


def widths(texts):
    for name, text in texts.items():
        if name.endswith(CODE + SCRIPTS):
            if "/proofs/" in name:
                continue
            for number, line in enumerate(without_texts(name, text).split("\n"), 1):
                if len(line) > WIDTH and not re.match(r"\s*(pub |ghost )?use ", line):
                    yield "%s:%d" % (name, number), "is %d columns wide" % len(line)


# In Rattle, what isn't code: a raw text and a text, which may go over several lines, a character, a comment.
NO_CODE = re.compile(r'''r(#*)".*?"\1|"(?:\\.|[^"\\])*"|'(?:\\[^\n]|[^'\\\n])'|//[^\n]*''', re.S)


def without_texts(name, text):
    """The code without what stands between quotes, line by line."""
    if not name.endswith(".rt"):
        return re.sub(r'"(\\.|[^"\\\n])*"', '""', text)
    return NO_CODE.sub(lambda it: it.group() if it.group().startswith("//") else '""' + "\n" * it.group().count("\n"),
                       text)


def crates_named(texts):
    listed = {line.split(":")[0].split()[0] for line in texts["crates.txt"].split("\n") if ":" in line.split("#")[0]}
    for page in ("docs/ARCHITECTURE.md", "README.md"):
        rows = "\n".join(line for line in texts[page].split("\n") if line.startswith("| "))
        named = {crate for crate in listed if "`%s`" % crate in rows}
        for crate in sorted(listed - named):
            yield page, "has no row for the crate " + crate
    for crate in sorted({name.split("/")[1] for name in texts if name.startswith("crates/")} - listed):
        yield "crates.txt", "doesn't name crates/" + crate


def libraries_named(texts):
    for line in texts["crates.txt"].split("\n"):
        head, colon, names = line.split("#")[0].partition(":")
        if not colon:
            continue
        crate = head.split()[0]
        code = "\n".join(text for name, text in texts.items()
                         if name.startswith("crates/%s/" % crate) and name.endswith(CODE))
        for library in names.split():
            if not re.search(r"\b%s\b" % library, code):
                yield "crates.txt", "names %s for %s, which doesn't" % (library, crate)


EDIT = re.compile(r"(?:crates/(\w+)/must-fail|edits/(\w+))/[^/]+\.edit")


def edits_apply(texts):
    for name, text in texts.items():
        crate = EDIT.fullmatch(name)
        if not crate:
            continue
        path, old, changed = "", "", {}
        for line in text.split("\n"):
            word, _, said = line.partition(":")
            said = said[1:]
            if word == "file":
                path = "crates/%s/%s" % (crate.group(1) or crate.group(2), said)
            elif word == "old":
                old = said
            elif word == "new":
                now = changed.get(path, texts.get(path, ""))
                if now.count(old) != 1:
                    yield name, "changes what stands %d times in %s: %s" % (now.count(old), path, old.strip())
                changed[path] = now.replace(old, said)
        if not changed:
            yield name, "changes nothing"


# ---- lemmas

DEFINED = re.compile(r"^( *)(?:(?:pub|abbrev|unfoldable|opaque)\s+)*(?:(?:record|data)\s+)?([^\s(){},.;:|]+)\s*"
                     r"(?:[({].*)?:(?:\s|$)")
RULESET = re.compile(r"^( *)(?:pub )?ruleset (\S+)")
WORD = re.compile(r"[^\s(){},.;:|\"`]+")


def blocks(text):
    """(name of the definition, its lines) of a module, in order; the name is empty before the first one.

    A definition stands at the left, or as deep as a module that is open there has its items. Of mutual ones all types
    come first, and then the equations.
    """
    name, lines, depths, defined = "", [], [0], set()
    for line in text.split("\n"):
        deep = len(line) - len(line.lstrip())
        if line.strip() and not line.lstrip().startswith("--"):
            depths = [depth for depth in depths if depth <= deep] or [0]
        if line.lstrip().startswith(("module ", "mutual")):
            depths.append(deep + 2)
            yield name, lines
            name, lines = "", []
        found = DEFINED.match(line) or RULESET.match(line)
        if found and deep in depths and found.group(2) not in ("use", "mod", "module", "--"):
            yield name, lines
            name, lines = found.group(2), []
            defined.add(name)
        elif deep in depths and line.split(" ", 1)[0] in defined:
            yield name, lines
            name, lines = line.split(" ", 1)[0], []
        lines.append(line)
    yield name, lines


def uncited(texts):
    counts, own, lemmas = {}, {}, {}
    for path, text in texts.items():
        if not path.endswith(CODE):
            continue
        is_lemmas = re.match(r"crates/\w+/proofs/", path) and os.path.basename(path) not in ANSWERS
        for name, lines in blocks(text) if is_lemmas else [("", text.split("\n"))]:
            words = WORD.findall("\n".join(line for line in lines if not line.lstrip().startswith("--")))
            for word in words:
                counts[word] = counts.get(word, 0) + 1
            if name:
                own[name] = own.get(name, 0) + words.count(name)
                lemmas.setdefault(name, []).append(path)
    for name, paths in sorted(lemmas.items(), key=lambda it: it[1]):
        if counts[name] == own[name]:
            yield paths[0], "%s is cited by nothing" % name


# ---- names in pages

PLACEHOLDER = re.compile(r"[*<>=$]|\.\.|\bNAME\b|\bFILE\b|\bFOLDER\b|\bDIR\b")
PARTY = re.compile(r"[A-Z0-9]{4}/[A-Z0-9_-]+")
MEDIA = re.compile(r"(?:application|text|HTTP)/[\w.+-]+")
PATH = re.compile(r"[\w.-]+(?:/[\w.-]+)+/?|[\w-]+\.(?:rt|antt|md|py|sh|c|edit|jsonl|out|txt)")
DOTTED = re.compile(r"Rattle\.(\w+)\.(specs|proofs)\.(\w+)")
IDENTIFIER = re.compile(r"[a-z][a-z0-9]*(?:_[a-z0-9]+)+|[A-Z][a-z0-9]+(?:[A-Z][a-z0-9]+)+")


def is_there(page, word, paths):
    """Whether a path that a page names is there: from the page's folder, its crate, the top or crates/.

    A page of no crate may name a file of any of them by its end, as `specs/Run`.
    """
    crate = re.match(r"crates/\w+", page)
    bases = [os.path.dirname(page), "", "crates", crate.group(0) if crate else ""]
    wanted = {os.path.normpath(os.path.join(base, word)) for base in bases}
    wanted |= {path + ending for path in wanted for ending in CODE}
    ends = () if crate and "/" in word else ("/" + word, "/" + word + ".antt")
    return bool(wanted & paths) or any(path.endswith(ends) for path in paths if ends)


def names_in_pages(texts):
    paths = set(listed())
    paths |= {path[:at] for path in paths for at in range(len(path)) if path[at] == "/"}
    known = {word for name, text in texts.items() if not name.endswith(".md") for word in re.findall(r"\w+", text)}
    known |= {word for name in paths for word in re.findall(r"\w+", name)}
    for page, text in texts.items():
        if page.endswith(".md"):
            for number, line in enumerate(text.split("\n"), 1):
                for quoted in re.findall(r"`([^`]+)`", line):
                    for missing in missing_in(page, quoted, paths, known):
                        yield "%s:%d" % (page, number), "names %s, which isn't there" % missing


def missing_in(page, quoted, paths, known):
    """What a text in backquotes names that isn't there."""
    dotted = DOTTED.search(quoted)
    if PLACEHOLDER.search(quoted):
        return
    if dotted:
        crate, part, module = dotted.groups()
        path = "crates/%s/%s/%s" % (crate, part, module)
        if "crates/" + crate in paths and module != "declared" and not {path, path + ".antt"} & paths:
            yield dotted.group(0)
    elif IDENTIFIER.fullmatch(quoted):
        if quoted not in known:
            yield quoted
    else:
        for word in (it.strip("(),;").rstrip("/") for it in quoted.split()):
            is_other = PARTY.fullmatch(word) or MEDIA.fullmatch(word) or "out" in word.split("/")
            if PATH.fullmatch(word) and not is_other and not is_there(page, word, paths):
                yield word


def main():
    words_of(__doc__).parse_args()
    texts, found = files(), 0
    for check in (names_in_pages, heads, widths, crates_named, libraries_named, edits_apply, uncited):
        for where, what in check(texts):
            print("%s %s" % (where, what))
            found += 1
    if found:
        print("%d findings" % found)
    return 1 if found else 0


if __name__ == "__main__":
    sys.exit(main())
