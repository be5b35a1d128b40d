#!/usr/bin/env python3
"""Brings the repository's own definitions, lemmas, fields and constructors to snake case: a-name becomes a_name.

usage: python3 tools/snake_names.py     at the top of the repository, once, right after port.py

What it turns: names that the .antt files of the repository define, wherever they stand in .antt files and in the ghost parts of .rt files,
and the few names that NAMES lists.
What it leaves: names of the library and of what Rattle generates (they keep their dashes), comments (but for names that it turns), strings,
functions of src/, and files that are neither .antt nor .rt.
It writes nothing where two names would become one.
"""

import os
import re
import subprocess

# Names in camel case, and names that would be the same as a function of the file that imports them.
NAMES = {
    "noNewline": "no_newline",
    "digitsValue": "text_value",
    "digitsValue-digits": "text_value_digits",
    "splitOnce": "split_at_mark",
    "afterBlank": "past_blank",
    "handleWrite": "handle_write_of",
    "read-lines": "lines_read",
    "valueIn": "value_in",
    "Accepts-nothing": "accepts_nothing",
}

# Variables that no line of their own declares.
VARIABLES = {"ds-is", "q-is", "work-is", "when-closed", "when-open", "some-budget", "flushed-law", "wrote-law", "flushes-rel", "writes-rel"}

WORD = re.compile(r"(?<![\w'-])[A-Za-z_][\w']*(?:-[\w']+)*(?![\w'-])")
DEFINES = re.compile(r"^\s*(?:(?:abbrev|pub|data|record|opaque)\s+)*([A-Za-z_][\w']*(?:-[\w']+)*)(?:\s+[\w'-]+)*\s*(?::(?!=)|\{|\()")
LET = re.compile(r"\blet ([A-Za-z_][\w']*(?:-[\w']+)+)\s*[:=]")
USE = re.compile(r"^\s*(?:ghost )?(?:pub )?use (?P<path>[^{;\s]+)\.\{(?P<names>[^}]*)\}", re.M)
GOAL = re.compile(r":\s*goal\.|:\s*need\.")


def files():
    said = subprocess.run(["git", "ls-files", "-co", "--exclude-standard", "crates"], capture_output=True, text=True, check=True).stdout
    return [f for f in said.splitlines() if f.endswith((".rt", ".antt")) and os.path.exists(f)]


def crates():
    return {f.split("/")[1] for f in files()}


def snake(name):
    return NAMES.get(name, name.replace("-", "_"))


def parts(line, mark):
    """The line cut into code, strings and its comment."""
    out, at, i = [], 0, 0
    while i < len(line):
        if line.startswith(mark, i) and (mark == "//" or line[i + 2 : i + 3] in ("", " ", "\n", "-")):
            out += [("code", line[at:i]), ("comment", line[i:])]
            return out
        if line[i] == '"':
            j = i + 1
            while j < len(line) and line[j] != '"':
                j += 2 if line[j] == "\\" else 1
            out += [("code", line[at:i]), ("string", line[i : j + 1])]
            i = at = j + 1
            continue
        i += 1
    out.append(("code", line[at:]))
    return out


def collect(texts):
    """The names that the repository defines, and those of them that are fields."""
    defined, fields = set(), set()
    for f, text in texts.items():
        if not f.endswith(".antt"):
            continue
        within = None
        for line in text.splitlines():
            line = re.sub(r"--( .*)?$", "", line)
            if not line.strip():
                continue
            depth = len(line) - len(line.lstrip())
            if within is not None and depth <= within:
                within = None
            m = DEFINES.match(line)
            if m and not GOAL.search(line):
                defined.add(m.group(1))
                if within is not None:
                    fields.add(m.group(1))
            if re.match(r"\s*(?:pub )?record .*where\s*$", line):
                within = depth
    return {n for n in defined if "-" in n or n in NAMES}, fields


def foreign(text, own):
    """The names that a file takes from outside the repository's crates."""
    names = set()
    for m in USE.finditer(text):
        at = m.group("path").split(".")
        if not (at[0] == "Rattle" and len(at) > 1 and at[1] in own):
            for item in re.split(r",\s*", m.group("names")):
                names.add(item.split(" as ")[0].strip())
    return names


def turn(line, mark, names, fields, taken, local):
    def one(m, text):
        word = m.group()
        dotted = text[m.start() - 1 : m.start()] == "."
        if word in taken or (dotted and word not in fields):
            return word
        return snake(word) if word in names or word in local else word

    done = []
    for kind, text in parts(line, mark):
        if kind == "code":
            text = WORD.sub(lambda m: one(m, text), text)
        elif kind == "comment":
            text = WORD.sub(lambda m: snake(m.group()) if m.group() in names else m.group(), text)
        done.append(text)
    return "".join(done)


def main():
    texts = {f: open(f, encoding="utf-8").read() for f in files()}
    own = crates()
    names, fields = collect(texts)
    bad, became, written = [], {}, {}
    for name in names:
        became.setdefault(snake(name), set()).add(name)
    bad += [f"{sorted(n)} would be one name" for n in became.values() if len(n) > 1]
    for f, text in texts.items():
        mark = "--" if f.endswith(".antt") else "//"
        if f.endswith(".antt"):
            for line in text.splitlines():
                m = DEFINES.match(re.sub(r"--( .*)?$", "", line))
                if m and m.group(1) in became and m.group(1) not in became[m.group(1)]:
                    bad.append(f"{f}: {m.group(1)} stands already, and {sorted(became[m.group(1)])} would be it too")
        else:
            items = [i for u in re.findall(r"ghost use [^;{]*\{([^}]*)\};", text) for i in re.split(r",\s*", u)]
            ghosts = {snake(i.split(" as ")[-1]) for i in items}
            functions = set(re.findall(r"^(?:pub(?:\(crate\))? )?fn (\w+)", text, re.M))
            bad += [f"{f}: the definition {n} would have the name of a function" for n in sorted(ghosts & functions)]
        taken = foreign(text, own)
        local = VARIABLES | set(LET.findall(text)) if f.endswith(".antt") else set()
        local |= {b.split(" as ")[1].strip() for m in USE.finditer(text) for b in m.group("names").split(",") if " as " in b}
        written[f] = "".join(turn(line, mark, names, fields, taken, local) for line in text.splitlines(keepends=True))
    for line in bad:
        print(line)
    if bad:
        return 1
    for f, text in written.items():
        if text != texts[f]:
            with open(f, "w", encoding="utf-8") as out:
                out.write(text)
    print(f"snake_names: {sum(written[f] != texts[f] for f in texts)} files turned, {len(names)} names")
    return 0


if __name__ == "__main__":
    raise SystemExit(main())
