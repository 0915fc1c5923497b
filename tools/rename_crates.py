#!/usr/bin/env python3
"""Gives the crates of a checkout the names of tools/names.json: folders, imports, paths, edits, crates.txt and pages.

  tools/rename_crates.py [TOP]    works on the checkout at TOP, or on this one. What has its new name already stays, so a text that was written under old names
                                  (another branch, a sketch) can be put through it as often as one likes

Several old names with one new name are merged: their modules stand side by side in one crate then. MODULES says which of them get another name on the way, since
the other crate has a module of that name.
"""
import json
import os
import re
import shutil
import subprocess
import sys

HERE = os.path.dirname(os.path.realpath(__file__))
with open(HERE + "/names.json", encoding="utf-8") as given:
    NAMES = json.load(given)
# Of a merged crate the modules of src/, of specs/ and the lemma files of proofs/ that get another name.
MODULES = {
    "token_laws": {"src": {"laws": "token_laws"}},
    "tree_laws": {"src": {"laws": "tree_laws"}},
    "type_laws": {"src": {"laws": "type_laws"}, "proofs": {"Findings": "TypeFindings", "Parts": "TypeParts", "Selects": "TypeSelects", "Statements": "TypeStatements", "Trees": "TypeTrees"}},
    "column_laws": {"src": {"laws": "column_laws"}, "proofs": {"Findings": "ColumnFindings", "Fitting": "ColumnFitting", "Parts": "ColumnParts", "Selects": "ColumnSelects", "Statements": "ColumnStatements", "Trees": "ColumnTrees"}},
    "set_function_laws": {"src": {"laws": "set_function_laws"}, "proofs": {"Columns": "NumberedColumns", "Fitting": "FunctionFitting"}},
    "value_laws": {"src": {"laws": "value_laws"}, "proofs": {"Answers": "ValueAnswers", "Trees": "ValueTrees"}},
    "life_laws": {"src": {"theorems": "life_laws"}},
    "tree_entries": {"src": {"laws": "entry_laws"}, "proofs": {"KeptLemmas": "PageLossLemmas"}},
    "catalog_read": {"src": {"error": "read_error", "places": "read_places"}},
    "page_contents": {"src": {"laws": "content_laws"}},
    "findings": {"src": {"parts": "findings"}, "specs": {"Parts": "Findings"}},
}
HEADINGS = """# The house from the ground up. A line: a crate, and the crates that it stands on, of this repository and of the toolchain.
# Two chains of crates meet at `store`: above it statements are carried out, below it pages are kept.
# Crates named *_definitions hold definitions alone, *_laws theorems alone: none of these runs.
"""
ORDER = [
    ("1. The ground: plain data, values, refusals", "items refusals sqlval"),
    ("2. From bytes to a syntax tree", "lexer ast parse_terminals parse_expressions parse_queries parse_statements parser statement_definitions statement_reader condition_printer"),
    ("3. Names and types: from a syntax tree to a typed statement", "typing scopes type_rules query_types change_types table_types resolve check_reader"),
    ("4. What statements mean, and what keeps tables", "denote store list_store"),
    ("5. Queries: operator trees, and how they are carried out", "algebra translation kernels executor closed_trees tree_tables uncorrelated_subqueries rewrite planner key_lookups query_answers open_plans"),
    ("6. Sessions and transactions", "replies script_pieces session_definitions transactions sessions"),
    ("7. Changes", "constraints check_constraints table_changes update_delete change"),
    ("8. The core, scripts and programs", "sqlcore scripts frame_count shell sqlsh shared parallel_scripts sqlmany"),
    ("9. Below `store`: from a device to tables, lowest first", "disk pagefile pool snapshot_pins page_space memory_space overlay sqlrecord btree_read btree btree_remove catalog_records catalog tablestore index_trees stored_tables database_trees index_lookups database_versions paged_store"),
    ("10. Laws: what shows that the definitions say what they should", "syntax_laws typing_laws operator_laws denote_laws algebra_laws order_laws check_laws session_laws rule_laws lives"),
    ("11. Beside the program: trees printed and copied", "printer round_trip ast_copies syntax_tests"),
]
TARGETS = set(NAMES.values())


def read(path):
    with open(path, encoding="utf-8") as it:
        return it.read()


def write(path, text):
    os.makedirs(os.path.dirname(path), exist_ok=True)
    with open(path, "w", encoding="utf-8") as it:
        it.write(text)


def entries(file):
    """Of each crate of such a file its own words (as `may_wait=1`) and the crates that it names."""
    found = {}
    if os.path.isfile(file):
        for line in read(file).split("\n"):
            head, colon, names = line.partition("#")[0].partition(":")
            if colon:
                found[head.split()[0]] = head.split()[1:], names.split()
    return found


def module(crate, kind, name):
    return MODULES.get(crate, {}).get(kind, {}).get(name, name)


def spec_path(found):
    """A path as `Rattle.CRATE.specs.Module`, under its new names."""
    crate, rest = found[1], found[2].split(".")
    if crate not in NAMES:
        return found[0]
    if rest[1:2] == ["specs"] and rest[2:3] == ["declared"] and len(rest) > 3:
        rest[3] = module(crate, "src", rest[3])
    elif rest[1:2] in (["specs"], ["proofs"]) and len(rest) > 2:
        plain = module(crate, rest[1], rest[2])
        rest[2] = module(crate, "src", rest[2]) if plain == rest[2] else plain
    return "Rattle." + NAMES[crate] + ".".join(rest)


class Home:
    """A checkout: what each crate gives at its root, and from which of its modules."""

    def __init__(self, top):
        self.top = top
        self.lines = entries(top + "/crates.txt")
        self.tests = entries(top + "/tests/libraries.txt")
        self.given = {it: self.names_given(it) for it in {*NAMES, *TARGETS} if os.path.isfile("%s/crates/%s/src/lib.rt" % (top, it))}

    def names_given(self, crate):
        found, text = {}, read("%s/crates/%s/src/lib.rt" % (self.top, crate))
        for path, names in re.findall(r"pub use ([\w:]+)::(\{[^}]*\}|\w+);", text):
            for name in re.findall(r"\w+", names):
                parts = path.split("::")
                parts[0] = module(crate, "src", parts[0])
                found[name] = "::".join(parts)
        return found

    def deps(self, crate):
        return (self.lines.get(crate) or self.tests.get(crate) or ([], []))[1]

    def use_of(self, own, found):
        """`use OLD::..;` of a crate that is renamed, in a crate that is named `own` then."""
        indent, public, old, names = (it or "" for it in found.groups())
        new = NAMES.get(old, old)
        if new != own:
            return "%s%suse %s::%s;" % (indent, public, new, names)
        if "::" in names.split("{")[0]:
            return "%s%suse crate::%s;" % (indent, public, names)
        by = {}
        for name in re.findall(r"\w+", names):
            by.setdefault(self.given[old].get(name, ""), []).append(name)
        lines = []
        for path, some in sorted(by.items()):
            what = some[0] if len(some) == 1 else "{%s}" % ", ".join(some)
            lines.append("%s%suse crate::%s%s;" % (indent, public, path + "::" if path else "", what))
        return "\n".join(lines)

    def code(self, crate, text):
        """A text of code of this crate, under the new names."""
        own = NAMES.get(crate, crate)
        text = re.sub(r"Rattle\.([a-z_]+)((?:\.[\w+]+)*)", spec_path, text)
        # a crate that keeps its name is inside its own code when another one is merged into it
        olds = [it for it in self.deps(crate) if it in NAMES or it == own]
        for old in olds:
            text = re.sub(r"(?m)^(\s*(?:old: |new: )?\s*)(pub )?use (%s)::([^;]*);" % old, lambda found: self.use_of(own, found), text)
            new = "crate" if NAMES.get(old, old) == own else NAMES[old]
            text = re.sub(r"(?<![\w:./])%s::(?!\{)(proofs|specs)::(\w+)" % old, lambda found: "%s::%s::%s" % (new, found[1], module(old, found[1], found[2])), text)
            if new != "crate":
                text = re.sub(r"(?<![\w:./])%s::" % old, new + "::", text)
            else:
                text = re.sub(r"(?<![\w:./])%s::(\w+)" % old, lambda found: "crate::%s::%s" % (self.given[old][found[1]], found[1]) if found[1] in self.given[old] else found[0], text)
        if crate in MODULES:
            for before, after in MODULES[crate].get("src", {}).items():
                text = re.sub(r"\bcrate::%s\b" % before, "crate::" + after, text)
                text = re.sub(r"(?m)^(file: src/)%s\.rt$" % before, r"\g<1>%s.rt" % after, text)
                text = re.sub(r"(?m)^(file: proofs/)%s/" % before, r"\g<1>%s/" % after, text)
            for kind in ("specs", "proofs"):
                for before, after in MODULES[crate].get(kind, {}).items():
                    text = re.sub(r"\bcrate::%s::%s\b" % (kind, before), "crate::%s::%s" % (kind, after), text)
                    text = re.sub(r"(?m)^(file: %s/)%s\.antt$" % (kind, before), r"\g<1>%s.antt" % after, text)
        return text


def in_crate(top, crate, folder="crates"):
    for at, inner, names in os.walk("%s/%s/%s" % (top, folder, crate)):
        inner[:] = [it for it in inner if it != "out"]
        for name in names:
            yield os.path.relpath(at + "/" + name, "%s/%s/%s" % (top, folder, crate))


def new_place(crate, path):
    """Where a file of an old crate stands in the new one."""
    parts = path.split("/")
    if crate in MODULES and len(parts) > 1:
        stem, dot, ending = parts[1].partition(".")
        if parts[0] == "src":
            parts[1] = module(crate, "src", stem) + dot + ending
        elif parts[0] in ("specs", "proofs"):
            parts[1] = (module(crate, parts[0], stem) if ending else module(crate, "src", stem)) + dot + ending
    return "/".join(parts)


def renamed_list(text, path, crate):
    """A file Lib.antt or lib.rt of a crate, with the new names of its modules."""
    kind = path.split("/")[0]
    for before, after in MODULES.get(crate, {}).get(kind, {}).items():
        text = re.sub(r"\b(mod|use) %s(?=;|::|$)" % before, r"\1 %s" % after, text, flags=re.M)
    return text


def joined_lists(first, second, path):
    """The lists of two files Lib.antt, or of two files lib.rt, in one: `second` is that of the crate that is merged."""
    if path.endswith(".antt"):
        return first.rstrip("\n") + "\n" + second.strip("\n") + "\n"
    head = [it for it in first.split("\n") if it.startswith(("//!", "#!["))]
    whole = "\n".join(it for text in (first, second) for it in text.split("\n") if not it.startswith(("//!", "#![")))
    modules = sorted(set(re.findall(r"(?m)^(?:pub )?mod \w+;$", whole)))
    uses = sorted(set(re.findall(r"(?m)^pub use [^;]*;$", whole)))
    rest = re.sub(r"(?m)^((?:pub )?mod \w+;|pub use [^;]*;)\n?", "", whole).strip("\n")
    return "\n".join([*head, "", *modules, "", *uses, *(["", rest] if rest.strip() else [])]) + "\n"


def move_crate(home, crate):
    """Moves a crate to its new name, or into the crate that has it."""
    target, old = ("%s/crates/%s" % (home.top, it) for it in (NAMES[crate], crate))
    for path in sorted(in_crate(home.top, crate)):
        place, is_list = "%s/%s" % (target, new_place(crate, path)), os.path.basename(path) in ("Lib.antt", "lib.rt")
        is_there = os.path.exists(place)
        if is_list:
            text = renamed_list(read(old + "/" + path), path, crate)
            write(place, joined_lists(read(place), text, path) if is_there else text)
        elif is_there and path == "README.md":
            write(place, read(place).rstrip("\n") + "\n\n" + re.sub(r"(?m)^#", "##", read(old + "/" + path)))
        elif is_there and path.endswith(".edit"):
            shutil.move(old + "/" + path, "%s/%s_%s" % (os.path.dirname(place), crate, os.path.basename(path)))
        elif is_there:
            raise SystemExit("%s stands there already (from %s/%s)" % (place, crate, path))
        else:
            os.makedirs(os.path.dirname(place), exist_ok=True)
            shutil.move(old + "/" + path, place)
    shutil.rmtree(old)


def prose(text):
    """A text with the new names where an old one is told as a crate's: between backticks, or in a path."""
    for old, new in NAMES.items():
        text = re.sub(r"`%s(?=`|::)" % old, "`" + new, text)
        text = re.sub(r"(?<=crates/)%s(?=/|\b)" % old, new, text)
    return text


def rename_texts(home, folder, crates):
    for crate in crates:
        for path in in_crate(home.top, crate, folder):
            full = "%s/%s/%s/%s" % (home.top, folder, crate, path)
            is_code = path.endswith((".rt", ".antt", ".edit", ".rt.txt", ".antt.txt"))
            if is_code or path.endswith(".md"):
                before = read(full)
                after = prose(home.code(crate, before) if is_code else before)
                if after != before:
                    write(full, after)


def write_list(home):
    lines, merged = {}, {**home.lines}
    for crate, (words, deps) in merged.items():
        new = NAMES.get(crate, crate)
        own, all_deps = lines.setdefault(new, ([], []))
        own += [it for it in words if it not in own]
        all_deps += dict.fromkeys(NAMES.get(dep, dep) for dep in deps)
    places = {it: at for at, it in enumerate(it for _, names in ORDER for it in names.split())}
    text, left = HEADINGS, dict(lines)
    for heading, names in ORDER:
        some = [it for it in names.split() if it in left]
        if some:
            text += "\n# %s\n" % heading
        for name in some:
            words, deps = left.pop(name)
            deps = sorted(set(deps) - {name}, key=lambda it: (it not in places, places.get(it, 0), it))
            text += " ".join([name, *words]) + ":" + "".join(" " + it for it in deps) + "\n"
    for name, (words, deps) in left.items():
        text += " ".join(["\n" + name, *words]) + ":" + "".join(" " + it for it in dict.fromkeys(deps)) + "\n"
    write(home.top + "/crates.txt", text)


def main(words):
    top = os.path.realpath(words[0]) if words else os.path.dirname(HERE)
    home = Home(top)
    if not any(it in NAMES for it in home.lines):
        print("All crates have their names.")
        return 0
    rename_texts(home, "crates", [it for it in home.lines if os.path.isdir("%s/crates/%s" % (top, it))])
    rename_texts(home, "tests", [it for it in home.tests if os.path.isdir("%s/tests/%s" % (top, it))])
    for crate in NAMES:
        if os.path.isdir("%s/crates/%s" % (top, crate)):
            move_crate(home, crate)
    write_list(home)
    return 0


if __name__ == "__main__":
    sys.exit(main(sys.argv[1:]))
