#!/usr/bin/env python3
"""Writes what follows the first three lines of docs/PORT.md. Run it at the top of the repository.

usage: page.py LOG

  LOG   what `rt ci` or `rt must-fail` printed: a line for each must-fail edit, with the error that refuses it

The first line of docs/PORT.md is the last commit before the port; its crates are taken from git and laid beside those that
are here. The text at the head is tools/port/page.md; the lists below it are made here:

  names       of each crate: declared names that are spelled otherwise, from name to name
  theorems    what stood in specs/ and stands in proofs/, each statement whole
  signatures, derives, contracts, definitions      that differ by more than spelling, old and new
  edits       each, whether its text changed, and the goal that refuses it
"""

import collections
import difflib
import os
import re
import subprocess
import sys
import tempfile

HERE = os.path.dirname(os.path.realpath(__file__))
sys.path.insert(0, HERE)
sys.dont_write_bytecode = True
import clauses as reader
import compare
import theorems

PAGE = "docs/PORT.md"
NAMED = re.compile(r"^( *)((?:(?:abbrev|unfoldable|pub|record|data)\s+)*)([^\s(){}.;,@\"«»:]+)((?: +[^\s(){}.;,@\"«»:=]+)*)(?:\s+[({].*)?\s+:(?:\s|$)")
PROOFS = ("Answers.antt", "Invariants.antt", "Proof.antt")


def read(path):
    with open(path, encoding="utf-8") as f:
        return f.read()


def crates_at(commit, to):
    archive = subprocess.run(["git", "archive", commit, "crates"], stdout=subprocess.PIPE, check=True).stdout
    subprocess.run(["tar", "-x", "-C", to], input=archive, check=True)
    return to


def order(root):
    with open("crates.txt", encoding="utf-8") as f:
        names = [l.split(":")[0].split()[0] for l in f if l.strip()]
    return [n for n in names if os.path.isdir(f"{root}/crates/{n}")]


def antt(root, crate, folders):
    """The files of definitions and lemmas, by their path below the folder."""
    out = {}
    for part in folders:
        for at, inner, files in os.walk(f"{root}/crates/{crate}/{part}"):
            inner.sort()
            for f in sorted(files):
                if f.endswith(".antt") and f not in PROOFS:
                    out[part, os.path.relpath(os.path.join(at, f), f"{root}/crates/{crate}/{part}")] = os.path.join(at, f)
    return out


# Names


def declared(text):
    out = []
    for line in text.split("\n"):
        if not line.strip().startswith("--") and (m := NAMED.match(line)):
            out += [m[3], *m[4].split()]
    return out


def names_of(old, crate):
    """From name to name, for what specs/ declared."""
    now = collections.defaultdict(list)
    for (part, path), file in antt(".", crate, ["specs", "proofs"]).items():
        for n in declared(read(file)):
            now[compare.norm(n)].append(n)
    out = set()
    for file in antt(old, crate, ["specs"]).values():
        for n in declared(read(file)):
            same = [s for s in now.get(compare.norm(n), []) if s[:1].isupper() == n[:1].isupper()]
            if n not in same and same and re.search("[A-Za-z]", n):
                out.add((n, collections.Counter(same).most_common(1)[0][0]))
    return sorted(out)


# Theorems


def statement(block):
    """A lemma up to its first equation; a type or a definition whole; a section with what it holds."""
    if block.kind == "section":
        head = []
        for line in block.lines:
            head.append(line)
            if line.rstrip().endswith("where"):
                break
        rows = head
        for b in block.inner:
            rows = rows + statement(b)
        return rows
    if block.kind in ("use", "mod"):
        return []
    if block.kind in ("type", "definition"):
        return block.lines
    if not re.match(r"(?:pub )?\S+ :(?: |$)", block.head):
        return []  # the rest of a proof, after a bracket that closes at its margin
    rows = [block.lines[0]]
    for line in block.lines[1:]:
        at = line[block.indent :]
        if line.strip() and not at.startswith(" ") and re.match(re.escape(block.name) + r"(\s|$)", at):
            break
        if at.startswith("unfolding "):
            break
        rows.append(line)
    while rows and not rows[-1].strip():
        rows.pop()
    return rows


def moved(old, crate, said):
    stood = antt(old, crate, ["specs"])
    count = 0
    rows = []
    for (part, path), file in antt(".", crate, ["proofs"]).items():
        lines = read(file).rstrip("\n").split("\n")
        blocks, _ = theorems.parse(lines)
        body = [b for b in blocks if b.kind not in ("use", "mod")]
        if not body:
            continue
        was = path if ("specs", path) in stood else path.replace("Laws.antt", ".antt")
        assert ("specs", was) in stood, (crate, path)
        whole = "" if os.path.exists(f"crates/{crate}/specs/{was}") else ", all of the file"
        rows.append(f"\n`{crate}`: `specs/{was}` to `proofs/{path}`{whole}\n\n")
        for b in body:
            said_here = statement(b)
            count += bool(said_here)
            rows += [f"    {line}".rstrip() + "\n" for line in said_here]
    said += rows
    return count


# Code


def functions(root):
    out = {}
    for crate, path in reader.files(root):
        text = read(path)
        code = re.sub(r"//[^\n]*", lambda m: " " * len(m[0]), text)
        for m in reader.FN.finditer(code):
            f = reader.Function(code, m)
            f.text = "\n".join(l for l in text[f.start : f.end].split("\n") if l.strip())
            f.signature = re.sub(r"#\[[^\n]*\]|\s+", " ", text[m.start() : f.start]).strip()
            at = code.find("{", f.end)
            f.body = text[at : reader.closing(code, at) + 1]
            out[crate, os.path.basename(path)[:-3], f.name] = f
    return out


def in_one_form(f, is_old):
    """The clauses in their order, without their names and the spelling that changed; None where a ghost value is tied."""
    out = []
    for kind, _, name, body in f.clauses:
        body = re.sub(r"\s+", " ", body).strip()
        if kind == "ghost":
            return None
        if is_old:
            m = re.match(r"λ ([^.]*?)\. (⌜.*)$", body)
            names, body = (m[1].split(), m[2]) if m else ([], body)
            body = compare.old_moments(body.replace("⌜", "").replace("⌝", "").strip(), f.params)
            if names and names[-1] != "_":
                body = compare.put(body, names[-1], "result")
        out.append((kind, compare.shown(reader.bare(body), is_old)))
    return out


def indented(text, mark):
    first, *rest = text.strip("\n").split("\n")
    lines = [" " * 4 + first.strip(), *rest]
    cut = min(len(l) - len(l.lstrip()) for l in lines if l.strip())
    return "".join(f"    {mark} {l[cut:]}".rstrip() + "\n" for l in lines)


def types(root):
    out = {}
    for crate, path in reader.files(root):
        for m in re.finditer(r"((?:#\[[^\n]*\]\n)*)((?:pub(?:\([a-z]+\))? )?(?:struct|enum) (\w+)(?:[^\n]*;\n|[^\n]*\{(?:\n(?!\}).*)*\n\}))", read(path)):
            out[crate, m[3]] = (m[1].strip(), re.sub(r"//[^\n]*", "", m[2]))
    return out


# Edits

# Those that say the same wrong answer in other words; page.md has them.
OTHER = {("precedence", "precedes_itself.edit"), ("pair_repairs", "pushes_exchanged.edit"), ("stability", "stops_at_first_student.edit")}


def edit_of(text):
    return [l for l in text.split("\n") if re.match(r"(file|old|new):", l)]


def refusals(log):
    out = {}
    for m in re.finditer(r"^rt: must-fail (\w+)/(\S+\.edit): ([^\n]*)", read(log), re.M):
        out[m[1], m[2]] = m[3]
    return out


def main(argv):
    if len(argv) != 1:
        print(__doc__, file=sys.stderr)
        return 2
    first = read(PAGE).split("\n")[:3]
    with tempfile.TemporaryDirectory() as room:
        old = crates_at(first[0], room)
        before, now = order(old), order(".")
        out = [read(f"{HERE}/page.md").rstrip("\n") + "\n"]

        out.append("\n## Names\n\nOf each crate what specs/ declared and what is spelled otherwise. A name with a dash in this list is a lemma, a field or a constructor.\n\n")
        total = 0
        for crate in before:
            pairs = names_of(old, crate)
            total += len(pairs)
            if pairs:
                out.append(f"`{crate}`: " + ", ".join(f"`{a}` is `{b}`" for a, b in pairs) + ".\n\n")
        out.append(f"{total} names.\n")

        a, b = functions(old), functions(".")
        out.append("\n## Signatures\n\nThe 22 exports of `placement` are plain functions, and `placement_c` exports each under the name that it had:\n\n")
        rest = []
        for key in sorted(a):
            if key not in b:
                rest.append(f"\n`{'::'.join(key)}` is gone ('What is gone').\n")
                continue
            x, y = a[key], b[key]
            if compare.close_up(x.signature) != compare.close_up(y.signature):
                if key[0] == "placement":
                    c = b["placement_c", key[1], key[2]]
                    assert compare.close_up(c.signature) == compare.close_up(x.signature), key
                    assert compare.close_up(c.text) == compare.close_up(y.text), key
                    out.append(f"    {key[2]}\n")
                else:
                    rest.append(f"\n`{'::'.join(key)}`\n\n{indented(x.signature, '-')}{indented(y.signature, '+')}")
        out.append("\n    - #[no_mangle] pub extern \"C\" fn placement_check_book(..) -> Reply\n    + pub fn placement_check_book(..) -> Reply                                               in placement\n    + #[unsafe(no_mangle)] pub extern \"C\" fn placement_check_book(..) -> Reply              in placement_c\n")
        out += ["\nThe others:\n"] + rest
        for key in sorted(set(b) - set(a)):
            if key[0] != "placement_c":
                f = b[key]
                out.append(f"\nNew: `{'::'.join(key)}`\n\n{indented(f.signature, '+')}{indented(f.text, '+')}")

        out.append("\n## Types\n\nIn the older language a value of any of these could be used again after it was passed on; today its type has to say so. No field, variant or order changed.\n\n")
        x, y = types(old), types(".")
        by = collections.defaultdict(list)
        for key in sorted(x):
            assert key in y and compare.close_up(x[key][1]) == compare.close_up(y[key][1]), key
            if x[key][0] != y[key][0]:
                by[y[key][0]].append("::".join(key))
        for derive, names in sorted(by.items()):
            out.append(f"`{' '.join(derive.split())}`: " + ", ".join(f"`{n}`" for n in names) + ".\n\n")

        listed, same = [], 0
        for key in sorted(a):
            if key not in b:
                continue
            f, g = a[key], b[key]
            one = in_one_form(f, True)
            if one is not None and one == in_one_form(g, False):
                same += 1
            else:
                listed.append(f"\n`{'::'.join(key)}`\n\n{indented(f.text, '-')}{indented(g.text, '+')}")
        out.append(f"\n## Contracts\n\nThe {len(listed)} functions whose clauses differ by more than spelling, as they were and as they are; the other {same} have the same clauses in the same order, spelled as today.\n")
        out += listed

        out.append("\n## Bodies\n\nThose that differ by more than layout, programs aside ('Programs' above).\n")
        for key in sorted(a):
            if key in b and key[0] not in ("cases", "sheet", "weighted_sheet", "moves") and compare.close_up(a[key].body) != compare.close_up(b[key].body):
                rows = list(difflib.unified_diff(a[key].body.split("\n"), b[key].body.split("\n"), lineterm="", n=0))[2:]
                out.append(f"\n`{'::'.join(key)}`\n\n" + "".join(f"    {r[0]} {r[1:].strip()}\n" for r in rows if not r.startswith("@@")))

        out.append("\n## Edits\n\n'same' is an edit whose file, old and new text are those of before, byte for byte; 'respelled' one that has them in today's spelling, 'other words' one of the three above. Beside it the error that refuses it, as `rt` printed it, which cuts a line at 160 characters.\n\n| Edit | Text | Refused by |\n|---|---|---|\n")
        told = refusals(argv[0])
        count, respelled = collections.Counter(), []
        for crate in before:
            folder = f"{old}/crates/{crate}/must-fail"
            for n in sorted(os.listdir(folder)) if os.path.isdir(folder) else []:
                kind = "same" if edit_of(read(f"{folder}/{n}")) == edit_of(read(f"crates/{crate}/must-fail/{n}")) else "respelled"
                kind = "other words" if (crate, n) in OTHER else kind
                count[kind] += 1
                respelled += [(crate, n)] if kind == "respelled" else []
                why = told.get((crate, n), "not tried")
                why = re.sub(r"^refused, as it must be(: )?", "", why).replace("|", "\\|").replace("`", "'")
                out.append(f"| {crate}/{n[:-5]} | {kind} | `{why}` |\n")
        out.append("\nThe texts of those that are respelled:\n")
        for crate, n in respelled:
            was, now = (edit_of(read(f"{root}/crates/{crate}/must-fail/{n}")) for root in (old, "."))
            out.append(f"\n`{crate}/{n[:-5]}`\n\n" + "".join(f"    {m} {l}\n" for m, ls in (("-", was), ("+", now)) for l in ls if not l.startswith("file:")))
        out.append(f"\n{sum(count.values())} edits, {count['respelled']} respelled, {count['other words']} in other words.\n")

        said = []
        counts = {crate: moved(old, crate, said) for crate in theorems.CRATES}
        out.append("\n## Theorems that stood in specs/ and stand in proofs/\n\n"
            + f"{sum(counts.values())} blocks, under their names: " + ", ".join(f"{c} {n}" for c, n in counts.items())
            + ". A block is a lemma, a type or definition that only lemmas cite, or a section (`module _ .. where`) with what it holds. Each statement stands here whole, as it stands in the file; what proves it is left out.\n")
        out += said
    with open(PAGE, "w", encoding="utf-8") as f:
        f.write("\n".join(first) + "\n\n" + "".join(out))
    print(f"page.py: {len(read(PAGE).splitlines())} lines, {total} names, {len(listed)} contracts, {sum(counts.values())} blocks, {sum(count.values())} edits")
    return 0


if __name__ == "__main__":
    raise SystemExit(main(sys.argv[1:]))
