"""Tests of the repository's texts: clauses that are cited exist and are mapped, what the map names stands in the crates, and
nothing is taken on trust that no page says."""

import pathlib
import re
import subprocess
import unittest

ROOT = pathlib.Path(__file__).resolve().parent.parent
SPECIFICATION = "docs/SPECIFICATION.md"
READING = "docs/READING.md"
CLAUSE = re.compile(r"\bS\d+\.\d+\b")
TEXTS = (".md", ".antt", ".rt", ".rs", ".py", ".edit", ".sheet", ".txt")


def texts():
    """The path and the text of each file that git tracks, or would track, and that a reader reads."""
    listed = subprocess.run(
        ["git", "ls-files", "-co", "--exclude-standard"], cwd=ROOT, capture_output=True, text=True, check=True
    )
    for name in listed.stdout.splitlines():
        if name.endswith(TEXTS) and (ROOT / name).is_file():
            yield name, (ROOT / name).read_text(encoding="utf-8")


def read(name):
    return (ROOT / name).read_text(encoding="utf-8")


def clauses():
    """The clauses of the specification, each the first cell of a row."""
    return re.findall(r"^\| (S\d+\.\d+) \|", read(SPECIFICATION), re.MULTILINE)


def rows():
    """The cells of each row of the reading map whose first cell names clauses."""
    for line in read(READING).splitlines():
        cells = [cell.strip() for cell in line.strip("|").split("|")] if line.startswith("| ") else []
        if cells and CLAUSE.search(cells[0]):
            yield cells


class Clauses(unittest.TestCase):
    def test_no_clause_stands_twice(self):
        found = clauses()
        self.assertGreaterEqual(len(found), 80)
        self.assertEqual(sorted(found), sorted(set(found)))

    def test_each_clause_that_is_cited_exists(self):
        known = set(clauses())
        for name, text in texts():
            if name.endswith("test_repository.py"):
                continue
            for number, line in enumerate(text.splitlines(), 1):
                for clause in CLAUSE.findall(line):
                    self.assertIn(clause, known, f"{name}:{number} cites a clause that {SPECIFICATION} does not have")

    def test_each_clause_has_a_row_in_the_map(self):
        mapped = {clause for cells in rows() for clause in CLAUSE.findall(cells[0])}
        self.assertEqual([c for c in clauses() if c not in mapped], [], f"clauses without a row in {READING}")

    def test_refusals_have_the_numbers_of_their_clauses(self):
        numbers = [int(c.split(".")[1]) for c in clauses() if c.startswith("S9.")]
        self.assertEqual(numbers, list(range(1, len(numbers) + 1)))


class Map(unittest.TestCase):
    def test_each_definition_that_is_named_stands_in_specs(self):
        for name, definition in re.findall(r"`([A-Z]\w*)\.([\w·-]+)`", read(READING)):
            files = [p for p in ROOT.glob(f"crates/*/specs/{name}.antt")]
            self.assertTrue(files, f"{READING} names {name}.{definition}: there is no specs/{name}.antt")
            word = re.compile(rf"(^|[\s(]){re.escape(definition)}([\s:)(]|$)", re.MULTILINE)
            self.assertTrue(
                any(word.search(p.read_text(encoding="utf-8")) for p in files),
                f"{READING} names {name}.{definition}, which no specs/{name}.antt has",
            )

    def test_each_edit_is_named_and_each_named_edit_exists(self):
        edits = {p.stem for p in ROOT.glob("crates/*/must-fail/*.edit")}
        self.assertEqual(len(edits), len(list(ROOT.glob("crates/*/must-fail/*.edit"))), "two edits have one name")
        words = set(re.findall(r"`([a-z0-9_]+)`", read(READING)))
        self.assertEqual(sorted(edits - words), [], f"edits that {READING} does not name")
        named = {w for cells in rows() if len(cells) >= 4 for w in re.findall(r"`([a-z0-9_]+)`", cells[3])}
        self.assertEqual(sorted(named - edits), [], f"edits that {READING} names and no crate has")

    def test_each_test_that_is_named_exists(self):
        known = set()
        for path in list(ROOT.glob("tests/tests/*.rs")) + list(ROOT.glob("tests/src/**/*.rs")):
            known |= set(re.findall(r"^\s*fn (\w+)\(", path.read_text(encoding="utf-8"), re.MULTILINE))
        named = {w for cells in rows() if len(cells) >= 5 for w in re.findall(r"`(?:\w+::)?(\w+)`", cells[4])}
        programs = {p.parent.parent.name for p in ROOT.glob("crates/*/src/main.rt")}
        self.assertEqual(sorted(named - known - programs), [], f"tests that {READING} names and tests/ does not have")


class Trust(unittest.TestCase):
    def test_no_axiom_stands_in_the_repository(self):
        for name, text in texts():
            if not name.startswith("crates/"):
                continue
            for number, line in enumerate(text.splitlines(), 1):
                code = re.split(r"--|//", line)[0]
                at = f"{name}:{number}: {line.strip()}"
                self.assertNotRegex(code, r"^\s*axiom\b", at)
                self.assertNotRegex(code, r"Prim\.Axiom|\bLEM\b|\bAC\b", at)
                self.assertNotRegex(code, r'\bextern(\s+"\w+")?\s*\{|\bunsafe\s*\{|\bunsafe\s+(fn|impl)\b', at)
                self.assertNotRegex(code, r"\b(Abort|Wait|Threads|Net|Processes)\b", at)

    def test_no_hole_stands_in_the_proofs(self):
        for name, text in texts():
            if name.endswith(".antt"):
                for number, line in enumerate(text.splitlines(), 1):
                    self.assertNotRegex(line.split("--")[0], r"(^|[\s({,])\?\w*($|[\s;,)}])|\{!", f"{name}:{number}")


class Build(unittest.TestCase):
    """What `./build` says of names that it can't build, before it proves anything."""

    def says(self, words, expected):
        done = subprocess.run(["./build", *words], cwd=ROOT, capture_output=True, text=True, check=False)
        self.assertEqual((done.returncode, done.stdout, done.stderr), (2, "", f"build: {expected}\n"))

    def test_names_that_cannot_be_built(self):
        self.says([], "which program or archive? plan_printer, stg_import, exports, replays or importer")
        self.says(["printer"], "printer is no program and no archive of this repository")
        self.says(["nodes"], "nodes is no program and no archive of this repository")
        self.says(["../build"], "'../build' is no name of a crate")
        self.says([""], "'' is no name of a crate")


if __name__ == "__main__":
    unittest.main()
