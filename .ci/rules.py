#!/usr/bin/env python3
"""Looks up each name of docs/RULES.md in the tree, and fails with the list of what isn't as the page says.

A name stands in backquotes. In the column of that title it is
  definition   CRATE/FILE NAME           a name that a file of specs/ declares
  code         CRATE/FILE FUNCTION       a function of a file of src/; OWNER::FUNCTION is one in an impl, or a trait, of that owner
  proof        CLAUSE                    a clause of the contract of one of the row's functions
               CRATE/FILE LAW [CLAUSE]   a function whose contract is a law, and a clause of it
  test         CRATE TEST                a #[test] function, or a constant that a file with one uses
  edit         CRATE EDIT                a file of must-fail/, or of bench/must-fail/CRATE/ where the gate leaves it out, which changes
                                         the row's functions, or constants beside them
Each row of a table has names in all five. The proof speaks of each function: it names one of its clauses, or says "one clause"
and the function has no other. A function of an impl without a contract has that of the trait's, which stands beside it.

A line of "Also kept" has the same places behind the words Definition, Code, Proof, Test and Edit, and a test or an edit may be
missing. Elsewhere a name with a slash is a definition, a function or a path.
"""
import pathlib
import re
import sys

TOP = pathlib.Path(__file__).resolve().parent.parent
CRATES = TOP / "crates"
PAGE = TOP / "docs" / "RULES.md"
COLUMNS = ["rule", "definition", "code", "proof", "test", "edit"]
VISIBLE = r"(?:pub(?:\([a-z]+\))? )?"


def text_of(path):
    return path.read_text() if path.is_file() else ""


def sources_of(crate):
    return [text_of(it) for it in (CRATES / crate / "src").rglob("*.rt")]


def is_definition(place, name):
    crate, _, file = place.partition("/")
    declares = rf"^ *(abbrev |unfoldable |opaque )?(pub )?(record |data )?{re.escape(name)}( |$)"
    return re.search(declares, text_of(CRATES / crate / "specs" / f"{file}.antt"), re.M)


def without_generics(header):
    """The header of an impl behind its own parameters."""
    depth = 0
    for at, sign in enumerate(header):
        depth += (sign == "<") - (sign == ">" and header[at - 1] != "-")
        if depth == 0:
            return header[at + 1 :] if sign == ">" else header
    return header


def owner_of(kind, header):
    """Whose functions stand in the block: those of the type, or of the trait."""
    if kind == "impl":
        header = without_generics(header).rpartition(" for ")[2]
    return re.match(r"\W*(\w+)", header).group(1)


def parts_of(source, owner):
    """The text in which the functions of the owner stand, and how far they are set in."""
    if not owner:
        return [(source, "")]
    blocks = re.finditer(rf"^{VISIBLE}(impl|trait)\b([^{{]*)\{{\n(.*?)^\}}", source, re.M | re.S)
    return [(it.group(3), "    ") for it in blocks if owner_of(it.group(1), it.group(2)) == owner]


def function_at(lines, indent):
    """The function that begins with the first of the lines: its head, up to its body, and the whole of it."""
    head, in_contract = [], False
    for line in lines:
        in_contract = in_contract or re.match(r" *(requires|ensures)\b", line) is not None
        if re.match(rf"{indent}\{{", line):
            break
        head.append(line)
        if line.endswith("};") or (not in_contract and line.endswith(("{", ";"))):
            break
    is_declared = head[-1].endswith(";")
    ends = (at for at, line in enumerate(lines) if at >= len(head) and re.match(rf"{indent}(\{{)?\}}", line))
    whole = head if is_declared else lines[: next(ends, len(lines)) + 1]
    return "\n".join(head), "\n".join(whole)


def functions_of(place, name):
    """The functions of that name, each with its head and the whole of it."""
    crate, _, file = place.partition("/")
    owner, _, function = name.rpartition("::")
    found = []
    for text, indent in parts_of(text_of(CRATES / crate / "src" / f"{file}.rt"), owner):
        lines = text.split("\n")
        named = re.compile(rf"{indent}{VISIBLE}fn {function}\b")
        found += [function_at(lines[at:], indent) for at, line in enumerate(lines) if named.match(line)]
    return found


def heads_of(place, name):
    return [head for head, _ in functions_of(place, name)]


def clauses_of(head):
    """The names of its clauses; a clause without one has the empty name."""
    return [it.group(1) or "" for it in re.finditer(r"^ *ensures\*? (?:(\w+) )?\{", head, re.M)]


def is_test(crate, name):
    sources = sources_of(crate)
    if any(re.search(rf"#\[test\]\n(?: *(?:#|//).*\n)* *fn {name}\b", it) for it in sources):
        return True
    used = any("#[test]" in it and re.search(rf"(?<!const )\b{name}\b", it) for it in sources)
    return used and any(re.search(rf"^ *{VISIBLE}const {name}\b", it, re.M) for it in sources)


def names_in(text):
    return [it.split() for it in re.findall(r"`([^`]+)`", text)]


def changes_of(crate, edit):
    """The files that the edit changes, each with the text that it changes there."""
    folders = [CRATES / crate / "must-fail", TOP / "bench" / "must-fail" / crate]
    text = "".join(text_of(it / f"{edit}.edit") for it in folders)
    return re.findall(r"^file: src/(.*?)\.rt\nold: (.*?)\nnew: ", text, re.M | re.S)


def is_changed(row, place, old):
    """The text stands in one of the row's functions, or is a constant beside one."""
    names = [words[1] for words in names_in(row["code"]) if words[0] == place]
    in_one = any(old in whole for name in names for _, whole in functions_of(place, name))
    return in_one or names and old.startswith("const ")


def is_edit(row, crate, name):
    changes = changes_of(crate, name)
    return changes and all(is_changed(row, f"{crate}/{file}", old) for file, old in changes)


def is_proof(row, words):
    if len(words) == 1:
        heads = [head for it in names_in(row["code"]) for head in heads_of(*it)]
        return any(words[0] in clauses_of(head) for head in heads)
    laws = heads_of(*words[:2])
    return laws and all(any(it in clauses_of(law) for law in laws) for it in words[2:])


def is_there(row, column, words):
    if column == "proof" and len(words) in (1, 2, 3):
        return is_proof(row, words)
    if len(words) != 2:
        return False
    looks = {"definition": is_definition, "code": heads_of, "test": is_test}
    return is_edit(row, *words) if column == "edit" else looks[column](*words)


def unproved_in(row):
    """The functions of which the row's proof doesn't speak."""
    named = {words[0] for words in names_in(row["proof"]) if len(words) == 1}
    functions = {}
    for words in names_in(row["code"]):
        contracts = [clauses_of(head) for head in heads_of(*words)]
        functions.setdefault(words[-1].rpartition("::")[2], []).extend(it for it in contracts if it)
    for name, contracts in functions.items():
        spoken = [named & set(it) or "one clause" in row["proof"] and len(it) == 1 for it in contracts]
        if not spoken or not all(spoken):
            yield name


def wrong_in_row(row, needed):
    for column in needed:
        if not names_in(row[column]) and not (column == "proof" and "one clause" in row[column]):
            yield f"no {column}"
    for column in COLUMNS[1:]:
        yield from (f"{column} {' '.join(it)}" for it in names_in(row[column]) if not is_there(row, column, it))
    yield from (f"the proof doesn't speak of {it}" for it in unproved_in(row))


def cells_of(line):
    return [it.strip() for it in re.split(r"(?<!\\)\|", line)[1:-1]]


def kept_in(line):
    """The places of a line of "Also kept", if it is one."""
    parts = re.split(r"\b(Definition|Code|Proof|Test|Edit): ", line)
    found = {title.lower(): text for title, text in zip(parts[1::2], parts[2::2])}
    return {column: found.get(column, "") for column in COLUMNS} if found else None


def wrong_elsewhere(line):
    for words in names_in(line):
        is_path = len(words) == 1 and (TOP / words[0]).exists()
        is_name = len(words) == 2 and (is_definition(*words) or heads_of(*words))
        if "/" in words[0] and not is_path and not is_name:
            yield " ".join(words)


def is_row(line):
    return line.startswith("|") and cells_of(line)[0] not in ("rule", "---")


def wrong_in(line):
    if is_row(line):
        cells = cells_of(line)
        if len(cells) != len(COLUMNS):
            return ["a row has six cells"]
        return list(wrong_in_row(dict(zip(COLUMNS, cells)), COLUMNS[1:]))
    kept = kept_in(line)
    return list(wrong_in_row(kept, COLUMNS[1:4]) if kept else wrong_elsewhere(line))


def numbered_lines(text):
    """The lines with their numbers, each with those that continue it."""
    lines = []
    for number, line in enumerate(text.splitlines(), 1):
        if line.startswith("  ") and lines:
            lines[-1] = (lines[-1][0], f"{lines[-1][1]} {line.strip()}")
        else:
            lines.append((number, line))
    return lines


def main():
    lines = numbered_lines(PAGE.read_text())
    wrong = [f"docs/RULES.md:{number}: {it}" for number, line in lines for it in wrong_in(line)]
    for it in wrong:
        print(it)
    rows = sum(is_row(line) for _, line in lines)
    print(f"rules: {len(wrong)} places are not as they should be" if wrong else f"rules: {rows} rows, each with its five places")
    return 1 if wrong else 0


if __name__ == "__main__":
    sys.exit(main())
