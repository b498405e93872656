#!/usr/bin/env python3
"""Checks the pages: README.md and docs/*.md. It writes a line for each fault, and ends with status 1 if there is one.

- Each relative link leads to a file of the repository, and its anchor is one of that page.
- No page has one anchor twice.
- Each refusal code has its anchor in docs/answers.md, `#p20` for P20: those of the sources, and those that a page
  names. In the sources (src/ and specs/) a code is a capital letter and one or two digits at the beginning of a string
  literal, as in "P20 {} {}", or of a document comment, as in `/// F1: a byte of the magic differs.`
- Each exit status has its anchor there, `#status-14`. A status is a number behind `=>` in a function `status`, or a
  constant whose document comment begins with `The status`.
- Each file of the repository that a page names is there. In `..` that is a name that begins with a folder of FOLDERS,
  from the top or from a crate's folder, or a bare name with an ending of ENDINGS; in a code block, a name that begins
  with a folder of the repository. Names with a word of capitals, as crates/NAME, stand for many files.
- No page has a word of WORDS: the glossary says what is written in its place.

With --self-test it plants a fault of each kind in a copy, and fails where one isn't found.
"""
import os
import re
import shutil
import sys
import tempfile
from pathlib import Path

CODE = r"[TAPIFCBZ][0-9]{1,2}"
IN_SOURCE = re.compile(rf'b?"({CODE})(?=[ "\\{{])|^\s*//[/!] ({CODE})\b', re.M)
IN_PAGE = re.compile(rf"(?<![\w.#/-])({CODE})(?![\w-])")
STATUSES = re.compile(r"fn (?:exit_)?status\(.*?^    }$", re.M | re.S)
STATUS_CONSTANT = re.compile(r"/// The status[^\n]*\n(?:pub )?const \w+: u8 = (\d+);")
LINK = re.compile(r"(?<!!)\[(?:[^\[\]]|\[[^\]]*\])*\]\(([^()\s]+)\)")
FOLDERS = r"crates|docs|bench|\.ci|specs|proofs|src|must-fail|data"
ENDINGS = "rt|antt|edit|sh|py"
FILE = re.compile(rf"^(?:\./)?((?:{FOLDERS})/[\w./-]*|[\w-]+\.(?:{ENDINGS}))$")
IN_BLOCK = re.compile(r"(?<!\S)(?:\./)?((?:crates|docs|\.ci|bench)/[\w./-]+)")
FOR_MANY = re.compile(r"(^|/)[A-Z]+(/|$)")
WORDS = ("exactly where", "want of memory", "a front of", "is told")


def blocks(text):
    """The text without its code blocks, and the code blocks."""
    inside, prose, code = False, [], []
    for line in text.split("\n"):
        if line.lstrip().startswith("```"):
            inside = not inside
        else:
            (code if inside else prose).append(line)
    return "\n".join(prose), "\n".join(code)


def anchors(text):
    """The anchors of a page: those that it writes, and those of its headings."""
    prose, _ = blocks(text)
    headings = re.findall(r"^#+ (.*)$", prose, re.M)
    slugs = [re.sub(r"[^\w\- ]", "", it.lower()).replace(" ", "-") for it in headings]
    return re.findall(r'<a id="([^"]+)">', text), slugs


def files_of(top):
    """All that a page may name: paths from the top and from each crate's folder, and bare names."""
    found = set()
    for folder, below, files in os.walk(top):
        below[:] = [it for it in below if it not in ("out", ".git")]
        for it in below + files:
            path = (Path(folder) / it).relative_to(top)
            found |= {str(path), it, "/".join(path.parts[2:]) if path.parts[0] == "crates" else it}
    return found


def codes_of_sources(top):
    found = {}
    for file in sorted([*top.glob("crates/*/src/**/*.rt"), *top.glob("crates/*/specs/**/*.antt")]):
        text = file.read_text(encoding="utf-8")
        for it in IN_SOURCE.finditer(text):
            found.setdefault((it[1] or it[2]).lower(), file.relative_to(top))
        for body in STATUSES.findall(text):
            for number in re.findall(r"=> (\d+),", body):
                found.setdefault(f"status-{number}", file.relative_to(top))
        for number in STATUS_CONSTANT.findall(text):
            found.setdefault(f"status-{number}", file.relative_to(top))
    return found


def check(top):
    pages = {it: it.read_text(encoding="utf-8") for it in [top / "README.md", *sorted(top.glob("docs/*.md"))]}
    known = {it: anchors(text) for it, text in pages.items()}
    answers = set(known.get(top / "docs/answers.md", ([], []))[0])
    files = files_of(top)
    codes = codes_of_sources(top)
    kinds = {it.startswith("status-") for it in codes}
    faults = [] if kinds == {True, False} else ["the sources have no code, or no status: the patterns are out of date"]
    for code, where in codes.items():
        if code not in answers:
            faults.append(f"{where}: {code} has no anchor in docs/answers.md")
    for page, text in pages.items():
        name = page.relative_to(top)
        prose, code = blocks(text)
        own = known[page][0]
        faults += [f"{name}: the anchor {it} is there twice" for it in sorted({it for it in own if own.count(it) > 1})]
        for target in LINK.findall(prose):
            path, _, anchor = target.partition("#")
            if re.match(r"[a-z]+:", path):
                continue
            other = (page.parent / path).resolve() if path else page
            if not other.exists():
                faults.append(f"{name}: no file {target}")
            elif anchor and other in known and anchor not in known[other][0] + known[other][1]:
                faults.append(f"{name}: no anchor {target}")
        for it in sorted({it.lower() for it in IN_PAGE.findall(prose)} - answers):
            faults.append(f"{name}: the code {it.upper()} has no anchor in docs/answers.md")
        named = [it[1] for it in map(FILE.match, re.findall(r"`([^`\n]+)`", prose)) if it] + IN_BLOCK.findall(code)
        for it in sorted(set(named)):
            if not FOR_MANY.search(it) and it.rstrip("/") not in files:
                faults.append(f"{name}: no file {it}")
        plain = " ".join(prose.split()).lower()
        faults += [f"{name}: the words '{it}'" for it in WORDS if it in plain]
    return faults


def self_test(top):
    plants = {
        "no anchor": lambda it: (it / "README.md", "\n[here](docs/answers.md#nowhere)\n"),
        "no file": lambda it: (it / "docs/machine.md", "\nSee `crates/felt64/src/nothing.rt`.\n"),
        "p99 has no anchor": lambda it: (it / "crates/felt64/src/lib.rt", '\n/// P99: planted.\nconst A: &str = "P99 {}";\n'),
        "status-77 has no anchor": lambda it: (
            it / "crates/felt64/src/lib.rt",
            "\nimpl A {\n    fn status(&self) -> u8\n    {\n        A => 77,\n    }\n}\n",
        ),
        "the words": lambda it: (it / "docs/formats.md", "\nWant of\nmemory.\n"),
    }
    missed = []
    for wanted, plant in plants.items():
        with tempfile.TemporaryDirectory() as folder:
            copy = Path(folder).resolve() / "copy"
            shutil.copytree(top, copy, ignore=shutil.ignore_patterns("out", ".git"))
            before = set(check(copy))
            file, text = plant(copy)
            file.write_text(file.read_text(encoding="utf-8") + text, encoding="utf-8")
            if not any(wanted in it for it in set(check(copy)) - before):
                missed.append(f"planted, and not found: {wanted}")
    return missed


def main():
    top = Path(__file__).resolve().parent.parent
    tests_itself = "--self-test" in sys.argv[1:]
    name = "check_pages --self-test" if tests_itself else "check_pages"
    faults = self_test(top) if tests_itself else check(top)
    for it in [*faults, f"{len(faults)} faults"] if faults else ["ok"]:
        print(f"{name}: {it}", file=sys.stderr)
    return 1 if faults else 0


if __name__ == "__main__":
    sys.exit(main())
