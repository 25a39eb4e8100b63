#!/usr/bin/env python3
"""Brings this repository's own definitions and lemmas to snake case, as the library's are: `fault-if` to `fault_if`, `firstBelow` to `first_below`.

    python3 tools/respell.py [FOLDER]     once, right after the kit's port.py, at the top of the checkout or in FOLDER

It renames what the .antt files of specs/ and proofs/ declare and the names that they import under another name, and follows each name into
contracts and ghost imports. Types, modules, functions of src/, names that the checker makes (`loop-i-preserved`), strings and comments keep
their spelling. It stops, and writes nothing, where two names would fall together.
"""
import os
import re
import sys

# Names that were looked at by hand: a dash joins the names of two functions in a lemma's name; a name is not that of a field or of another
# definition; and `writes_like` may be that of the function that it says.
EXACT = {
    "firstOf-append": "first_of-append",
    "firstOf-within": "first_of-within",
    "ranges-answer": "ranges_answer_lem",
    "lastStride": "last_stride_of",
    "depth-stencil": "depth_stencil_row",
    "writesLike": "writes_like",
}
TOKEN = r"[^\s(){}\[\],;:.«»λ⌜⌝\"]+"
DECLARED = re.compile(r"^(\s*)(?:(?:abbrev|unfoldable)\s+)?(?:pub\s+)?(?:(record|data)\s+)?(" + TOKEN + r")((?:\s*[({][^)}]*[)}])*)\s*:\s*(.*)$")
IMPORTED_AS = re.compile(r"\s+as\s+(" + TOKEN + r")")


def old_form(name):
    return name[0].islower() and re.search(r"[a-z0-9]-[a-z0-9]|[a-z0-9][A-Z]", name)


def snake(name):
    if name in EXACT:
        return EXACT[name]
    name = re.sub(r"([a-z0-9])([A-Z])", lambda m: m.group(1) + "_" + m.group(2).lower(), name)
    return name.replace("-", "_")


def sources(root, ending):
    for folder, inner, files in os.walk(os.path.join(root, "crates")):
        inner[:] = sorted(d for d in inner if d != "out")
        for f in sorted(files):
            if f.endswith(ending):
                yield os.path.join(folder, f)


def read(path):
    with open(path, encoding="utf-8") as f:
        return f.read()


def code(line):
    """The line without its comment, in antt."""
    return re.split(r"(?:^|(?<=\s))--(?=\s|$)", line)[0]


def declared(root):
    """The names that are declared anywhere, and those that are fields of records."""
    names, fields = set(), set()
    for path in sources(root, ".antt"):
        in_record = False
        for line in read(path).split("\n"):
            text = code(line)
            if re.match(r"\s*(pub\s+)?use\s", text):
                names.update(IMPORTED_AS.findall(text))
                continue
            found = DECLARED.match(text)
            if text.strip() and not text.startswith(" "):
                in_record = bool(found and found.group(2))
            if not found or found.group(5).startswith("goal.") or found.group(3) in ("let", "module", "use", "mod"):
                continue
            names.add(found.group(3))
            if in_record and found.group(1):
                fields.add(found.group(3))
    return names, fields


def turned(text, renames, fields):
    def one(m):
        name = m.group(2)
        if m.group(1) == "." and name not in fields:
            return m.group(0)
        return m.group(1) + renames.get(name, name)

    return re.sub(r"(^|[\s(){}\[\],;:.«»λ⌜⌝])(" + TOKEN + r")", one, text)


def turned_antt(text, renames, fields):
    lines = []
    for line in text.split("\n"):
        head = code(line)
        lines.append(turned_words(head, renames, fields) + line[len(head):])
    return "\n".join(lines)


def turned_words(text, renames, fields):
    """All but what stands in strings."""
    parts = re.split(r"(\"(?:[^\"\\]|\\.)*\")", text)
    return "".join(p if i % 2 else turned(p, renames, fields) for i, p in enumerate(parts))


def turned_rt(text, renames, fields):
    lines = []
    for line in text.split("\n"):
        if line.lstrip().startswith("//"):
            lines.append(line)
        else:
            head, sep, tail = line.partition(" // ")
            lines.append(turned_words(head, renames, fields) + sep + tail)
    return "\n".join(lines)


def main(root):
    names, fields = declared(root)
    renames = {n: snake(n) for n in names if old_form(n)}
    taken = {}
    for old, new in renames.items():
        taken.setdefault(new, []).append(old)
    clashes = [(new, olds) for new, olds in taken.items() if len(olds) > 1]
    words = set()
    for path in sources(root, ".antt"):
        words.update(m.group(1) for line in read(path).split("\n") for m in re.finditer("(" + TOKEN + ")", code(line)))
    clashes += [(new, olds) for new, olds in taken.items() if new in words and olds[0] not in EXACT]
    if clashes:
        for new, olds in clashes:
            print(f"these would fall together as {new}: {', '.join(olds)}")
        return 1
    changed = 0
    for ending, turn in ((".antt", turned_antt), (".rt", turned_rt)):
        for path in sources(root, ending):
            before = read(path)
            after = turn(before, renames, fields)
            if after != before:
                with open(path, "w", encoding="utf-8") as f:
                    f.write(after)
                changed += 1
    print(f"{len(renames)} names, {changed} files")
    return 0


if __name__ == "__main__":
    raise SystemExit(main(sys.argv[1] if len(sys.argv) > 1 else "."))
