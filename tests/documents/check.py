#!/usr/bin/env python3
"""Holds the documents to the repository: every Markdown file is read, and what is wrong is told with its file and line, status 1.

    check.py                    the documents of this repository
    check.py --dry FOLDER       the documents in a copy of the Markdown files, held to this repository; no command is run

  - No line is longer than 160 characters, but for the tables of docs/MEASUREMENTS.md that bench/report.py writes.
  - Every file or folder that a document names is there. Named is what stands in backticks or a link and has a slash or a known ending, and what
    stands anywhere else and has both. What is under target/ or a crate's out/ is built, and so exempt; patterns are too. A link to a heading finds it.
  - Every name in backticks (of a definition, a theorem, a function, a crate ..) is a word of the sources; the parts of `crate::function` stand in
    one crate or folder, those of `Record.field` in a file that declares the record, and `names` with a file in brackets after them in that file.
  - Every command in an indented or fenced block that starts with a program of this repository names one that is there and can be run, and is in
    one of two lists: those that are run here, and those that are not, with the reason.
  - Every session that a document prints, a line and its answer in columns, is played, and answered so.
  - README.md's list of crates has each of crates.txt once, above those that it uses or before them in its line.
docs/landings, docs/PORT.md and docs/DESIGN-PASS.md tell of the past: only their lines are measured.
"""
import os
import re
import subprocess
import sys
import tempfile

ROOT = os.path.dirname(os.path.dirname(os.path.dirname(os.path.abspath(__file__))))
LONGEST = 160
ENDINGS = "md rt antt edit rs c h sh py S ld txt out svg toml".split()
SOURCES = ["crates", "bindings", "examples", "tests", "bench", "tools"]
OURS = "tests/documents"  # its lists of words are no source of names
IN_CRATES = ("specs", "src", "proofs", "must-fail")

# Words in backticks that are no names of ours.
NO_NAMES = {"endbr64"}
# Names that docs/CHANGES.md tells of and that are gone: another document or a source that has one is told.
GONE = {
    "corwystal_free", "corwystal_board_free", "Pager::free",
    "Released", "Listed", "GivenBack", "MapWritten", "MadeSize",
    "StartOut", "TouchOut", "ReleaseOut", "GiveBackOut", "WriteOut",
}

# A script for FILE, and an empty folder for PREFIX.
SCRIPT = "tests/session/session.txt"
# Commands that are run. Each must end with status 0; a script's answers are held to the file of answers beside it.
RUN = [
    r"\./session( FILE| tests/session/[\w.]+)?",
    r"bindings/(build|library)",
    r"bindings/install( PREFIX)?|PREFIX=PREFIX bindings/install",
    r"rustc -O --out-dir target/independent tests/session/session\.rs",
    r"target/independent/session < (FILE|tests/session/[\w.]+)",
]
# Commands that are not run, and why.
NOT_RUN = [
    (r"\.ci/run", "it is the gate, which runs this"),
    (r"bench/run", "it takes minutes, and writes docs/MEASUREMENTS.md anew"),
    (r"examples/board/run( \w+)?", "tests/board runs it, where there is an emulator"),
    (r"(bash )?tests/\w+/run\.sh", "the gate runs it"),
    (r"tests/object/run\.sh write", "it writes docs/KERNEL.md anew"),
    (r"(bash )?tests/\w+/run\.sh (broken|long \[SEED\] \[MINUTES\])", "it takes minutes; it is run by hand when its test changes"),
]


# ---- what the repository has

def files_below(folder):
    """Files below a folder of the repository, by their names from the root on."""
    for where, folders, names in os.walk(os.path.join(ROOT, folder)):
        folders[:] = sorted(f for f in folders if f not in (".git", "target", "out"))
        for name in sorted(names):
            yield os.path.relpath(os.path.join(where, name), ROOT)


def words_of(path):
    """A source's words. In Rattle `returns-clause` is one; elsewhere a file's or a program's name with dots is one too, and so are the parts of all."""
    with open(os.path.join(ROOT, path), encoding="utf-8", errors="replace") as source:
        text = source.read()
    found = {word.strip("-'") for word in re.findall(r"[^\W\d][\w'-]*", text)}
    if not path.endswith((".antt", ".rt")):
        found.update(re.findall(r"[^\W\d]\w*", text))
        found.update(word.strip(".-") for word in re.findall(r"[\w.+-]+", text))
    return found, re.findall(r"\b(?:record|struct|enum|data) (\w+)", text)


class Repository:
    def __init__(self):
        self.files = list(files_below("."))
        self.bases = {os.path.basename(f) for f in self.files}
        self.crates = sorted(os.listdir(os.path.join(ROOT, "crates")))
        self.units, self.declaring = {}, {}
        for path in self.files:
            parts = path.split("/")
            if parts[0] not in SOURCES or path.startswith(OURS) or path.endswith((".md", ".svg")):
                continue
            unit = self.units.setdefault("/".join(parts[:2]), set())
            unit.update(os.path.splitext(part)[0] for part in parts)
            words, records = words_of(path)
            unit.update(words)
            for record in records:
                self.declaring.setdefault(record, set()).update(words)
        self.words = set().union(*self.units.values())
        with open(os.path.join(ROOT, "crates.txt"), encoding="utf-8") as listed:
            lines = [line.split(":") for line in listed if line.strip() and not line.startswith("#")]
        self.uses = {name.split()[0]: used.split() for name, used in lines}

    def has(self, path):
        return os.path.exists(os.path.join(ROOT, path))

    def is_program(self, word):
        """Whether a command's first word is a program of ours, there or not: in one of our folders, and not built."""
        folder = word.split("/")[0]
        return re.fullmatch(r"[\w.-]+(/[\w.-]+)+", word) is not None and not is_built(word) and os.path.isdir(os.path.join(ROOT, folder))

    def words_in(self, path):
        """The words of a file, named from the root or from crates/ on; none if it isn't there."""
        for name in (path, "crates/" + path):
            if os.path.isfile(os.path.join(ROOT, name)):
                return words_of(name)[0]
        return None

    def has_file(self, path, document, crates):
        """Whether a document may name a file so; the crates are those of the table row that it stands in."""
        path = re.sub(r"^(\./)+", "", path).rstrip("/")
        folder = os.path.dirname(document)
        if self.has(path) or self.has(os.path.join(folder, path)) or self.has("crates/" + path):
            return True
        if path.split("/")[0] in IN_CRATES:
            return any(self.has(f"crates/{crate}/{path}") for crate in crates or self.crates)
        return "/" not in path and path in self.bases

    def has_name(self, name):
        """Names in capitals may stand without CORWYSTAL_."""
        if name in self.words or (name.isupper() and "CORWYSTAL_" + name in self.words):
            return True
        parts = re.split(r"::|\.", name)
        if "." in name:
            return set(parts) <= self.declaring.get(parts[0], set())
        return len(parts) > 1 and any(set(parts) <= words for words in self.units.values())


# ---- what a document says

class Document:
    """Spans of prose in backticks, in links and outside of both; names with their file in brackets; lines of indented or fenced blocks."""

    def __init__(self, name, lines):
        self.name, self.lines = name, lines
        self.spans, self.links, self.prose, self.placed, self.block = [], [], [], [], []
        paragraph, fenced, indented = [], False, False
        for number, line in enumerate(lines + [""], 1):
            if line.lstrip().startswith("```"):
                fenced = not fenced
                self.read(paragraph)
                paragraph = []
                continue
            indented = line.startswith("    ") and (indented or not paragraph)
            if fenced or indented:
                self.block.append((number, line.strip()))
                continue
            if not line.strip() or line.startswith("|"):
                self.read(paragraph)
                paragraph = []
            if line.strip():
                paragraph.append((number, line))
            if line.startswith("|"):
                self.read(paragraph)
                paragraph = []

    def read(self, paragraph):
        """Backticks may go over a line's end, but not over a paragraph's."""
        if not paragraph:
            return
        text = "\n".join(line for _, line in paragraph)
        crates = []
        if text.startswith("|"):
            crates = re.findall(r"`([\w-]+)`", text.split("|")[1])

        def at(place):
            return paragraph[0][0] + text.count("\n", 0, place)
        for found in re.finditer(r"(`+)(.+?)\1", text, re.S):
            self.spans.append((at(found.start()), " ".join(found[2].split()), crates))
        for found in re.finditer(r"((?:`[^`]+`(?:[,;]\s+|\s+and\s+)?)+)\s+\(([\w./-]+\.(?:antt|rt))\)", text):
            self.placed.append((at(found.start()), re.findall(r"`([^`\s]+)`", found[1]), found[2]))
        bare = re.sub(r"(`+)(.+?)\1", lambda m: re.sub(r"\S", " ", m[0]), text, flags=re.S)
        for found in re.finditer(r"\]\(([^)\s]+)\)", bare):
            self.links.append((at(found.start()), found[1], crates))
        bare = re.sub(r"\]\([^)\s]+\)", lambda m: " " * len(m[0]), bare)
        for found in re.finditer(r"[\w./*<>-]+", bare):
            self.prose.append((at(found.start()), found[0].rstrip("."), crates))


def has_ending(word):
    return re.search(r"[\w*]\.(" + "|".join(ENDINGS) + r")$", word) is not None


def is_path(word):
    """What has a slash, but for a quotient such as T/64, or a known ending."""
    has_slash = re.search(r"[\w.]/|/[\w.]", word) is not None
    return has_slash and re.fullmatch(r"(\w|\d+)(/(\w|\d+))+", word) is None or has_ending(word)


def is_built(path):
    return re.match(r"(\./)?(target|(crates/)?\w+/out)(/|$)", path) is not None


def is_exempt(path):
    """Built, a pattern, of another place than this repository, or with a word to be filled in."""
    parts = path.split("/")
    return (is_built(path) or re.search(r"[*<>$~]|\.\.", path) is not None
            or re.match(r"/(usr|dev)\b|https?:", path) is not None or any(re.fullmatch(r"[A-Z]{2,}", part) for part in parts))


class Check:
    def __init__(self, documents, repository):
        self.documents, self.repository, self.faults = documents, repository, []
        self.names = set()

    def tell(self, document, line, what):
        self.faults.append((document.name, line, what))

    def lines(self, document):
        written = False
        for number, line in enumerate(document.lines, 1):
            if re.fullmatch(r"<!-- [\w-]+ -->", line):
                written = document.name == "docs/MEASUREMENTS.md" and line != "<!-- end -->"
            if len(line) > LONGEST and not written:
                self.tell(document, number, f"{len(line)} characters: break the line, {LONGEST} are the most")

    def path(self, document, line, path, crates):
        if is_exempt(path):
            return
        self.names.add(path)
        if path.startswith("/"):
            self.tell(document, line, f"{path}: a path of one machine; name it from the repository's root on")
        elif not self.repository.has_file(path, document.name, crates):
            where = "crates " + ", ".join(crates) if crates and path.split("/")[0] in IN_CRATES else "repository"
            self.tell(document, line, f"{path}: there is no such file or folder in the {where}; name one that is there")

    def name(self, document, line, word):
        word = re.sub(r"\(\)$", "", word.lstrip("&"))
        if not re.fullmatch(r"[^\W\d][\w'-]*((::|\.)[\w'*-]+)*", word) or word in NO_NAMES:
            return
        if word in GONE:
            if document.name != "docs/CHANGES.md":
                self.tell(document, line, f"{word}: this name is gone; docs/CHANGES.md says what it is now")
            return
        self.names.add(word)
        if not self.repository.has_name(word.replace("::*", "")):
            self.tell(document, line, f"{word}: no source has this name; mend it, or, if it is no name, add it to NO_NAMES of {OURS}/check.py")

    def text(self, document):
        for line, span, crates in document.spans:
            words = span.split()
            for word in words:
                if is_path(word):
                    self.path(document, line, word, crates)
            if len(words) == 1 and not is_path(span):
                self.name(document, line, span)
        for line, link, crates in document.links:
            path, _, heading = link.partition("#")
            if path:
                self.path(document, line, path, crates)
            if heading and heading not in self.headings(document, path):
                self.tell(document, line, f"#{heading}: there is no such heading; name one that is there")
        for line, names, path in document.placed:
            words = self.repository.words_in(path)
            for name in names if words is not None else []:
                if not set(re.split(r"::|\.", name)) <= words:
                    self.tell(document, line, f"{name}: {path} has no such name; name the file that has it")
        for line, word, crates in document.prose + [(n, w, []) for n, text in document.block for w in text.split()]:
            if "/" in word and has_ending(word):
                self.path(document, line, word.strip("\"'`,;:()"), crates)

    def headings(self, document, path):
        """A document's headings as links name them."""
        name = os.path.normpath(os.path.join(os.path.dirname(document.name), path)) if path else document.name
        lines = next((d.lines for d in self.documents if d.name == name), [])
        return {re.sub(r"[^\w -]", "", line.lstrip("# ").lower()).replace(" ", "-") for line in lines if line.startswith("#")}

    def crates(self, document):
        """The list under README.md's heading of the crates: names, commas between them, two blanks or more, what they are."""
        heading = next((n for n, line in enumerate(document.lines, 1) if line.startswith("## The crates")), 0)
        if not heading:
            self.tell(document, 1, 'there is no list of crates any more, under "## The crates": put it back, or take this rule away')
        uses = self.repository.uses
        stands = {}
        listed = [(line, text) for line, text in document.block if line > heading]
        for line, text in (item for n, item in enumerate(listed) if item[0] == listed[0][0] + n):
            for name in re.split(r"\s{2,}", text)[0].split(", "):
                if name not in uses:
                    self.tell(document, line, f"{name}: no crate of crates.txt; name one, or take it out of the list")
                elif name in stands:
                    self.tell(document, line, f"{name}: a crate that the list has twice; take one away")
                for above in (used for used in uses.get(name, []) if used in stands):
                    self.tell(document, line, f"{name}: it uses {above}, which stands above it; put it above {above}")
                stands.setdefault(name, line)
        for name in uses:
            if name not in stands:
                self.tell(document, heading, f"{name}: a crate that the list below has not; add it, above those that it uses")

    def gone(self):
        for where, words in self.repository.units.items():
            for name in sorted(GONE & words):
                self.faults.append((where, 1, f"{name}: a name that is gone by docs/CHANGES.md; take it out here, or out of GONE of {OURS}/check.py"))

    # ---- commands

    def command(self, document, line, text):
        """A command of this repository that is to be run; none for others and those that are in the list of what isn't."""
        text = re.sub(r"^\$ ", "", re.sub(r"(^|\s+)#( .*)?$", "", text)).strip()
        words = [word for word in text.split() if not re.match(r"[A-Z_]+=", word)]
        by_bash = words[:1] == ["bash"]
        words = words[by_bash:]
        if any(re.fullmatch(pattern, text) for pattern in RUN):
            found = text
        elif not words or not self.repository.is_program(words[0]):
            return None
        elif any(re.fullmatch(pattern, text) for pattern, _ in NOT_RUN):
            found = ""
        else:
            self.tell(document, line, f"{text}: a command that {OURS}/check.py doesn't know; mend it, or add it to RUN or to NOT_RUN there")
            return None
        program = os.path.join(ROOT, words[0])
        if "/" in words[0] and not is_built(words[0]):
            if not os.path.isfile(program):
                self.tell(document, line, f"{words[0]}: there is no such program; name one that is there")
                return None
            if not by_bash and not os.access(program, os.X_OK):
                self.tell(document, line, f"{words[0]} can't be run: write bash before it, or make it executable (chmod +x {words[0]})")
                return None
        return found

    def commands(self):
        """Every command, and where those that are to be run stand first, in the order of RUN."""
        every, to_run = set(), {}
        for document in self.documents:
            for line, text in document.block:
                command = self.command(document, line, text)
                if command is None:
                    continue
                every.add(re.sub(r"\s+#.*", "", text))
                if command:
                    to_run.setdefault(command, (document, line))
        order = {command: next(n for n, pattern in enumerate(RUN) if re.fullmatch(pattern, command)) for command in to_run}
        return len(every), sorted(to_run.items(), key=lambda item: (order[item[0]], item[0]))

    def run(self, command, document, line):
        with tempfile.TemporaryDirectory() as prefix:
            words = re.sub(r"\bPREFIX\b(?!=)", prefix, re.sub(r"\bFILE\b", SCRIPT, command))
            script = next((w for w in words.split() if w.endswith(".txt")), SCRIPT)
            try:
                with open(os.path.join(ROOT, script), "rb") as keyboard:
                    ran = subprocess.run(["bash", "-c", words], cwd=ROOT, stdin=keyboard, capture_output=True, timeout=600)
            except FileNotFoundError:
                self.tell(document, line, f"{command}: there is no file {script}; name one that is there")
                return
            except subprocess.TimeoutExpired:
                self.tell(document, line, f"{command}: not ended after ten minutes; run it by hand and see why")
                return
        if ran.returncode != 0:
            last = (["and says nothing"] + (ran.stderr or ran.stdout).decode(errors="replace").strip().splitlines())[-1]
            self.tell(document, line, f"{command}: ends with status {ran.returncode} ({last}); mend it or the document")
            return
        answers = os.path.join(ROOT, re.sub(r"\.txt$", ".out", script))
        if "session" in words.split()[0] and os.path.exists(answers):
            with open(answers, "rb") as kept:
                if ran.stdout != kept.read():
                    self.tell(document, line, f"{command}: its answers aren't those of {os.path.relpath(answers, ROOT)}; see which are right")


    def sessions(self, document):
        """Plays the blocks that begin with a start and have an answer beside each line; answers how many there are."""
        blocks = []
        for line, text in document.block:
            if not blocks or blocks[-1][-1][0] + 1 != line:
                blocks.append([])
            blocks[-1].append((line, re.split(r" {2,}", text.strip())))
        sessions = [b for b in blocks if b[0][1][0].startswith("start ") and all(len(columns) > 1 for _, columns in b)]
        for block in sessions:
            script = "".join(columns[0] + "\n" for _, columns in block)
            program = os.path.join(ROOT, "crates/session_program/out/session_program")
            answers = subprocess.run([program], input=script, capture_output=True, text=True, timeout=60).stdout.splitlines()
            for (line, columns), answer in zip(block, answers + [""] * len(block)):
                if answer != columns[1]:
                    self.tell(document, line, f"{columns[0]}: is answered {answer!r} by the program; mend the session")
        return len(sessions)


def main():
    dry = sys.argv[1:2] == ["--dry"]
    if len(sys.argv) not in ((3,) if dry else (1,)):
        sys.exit("usage: check.py [--dry FOLDER]")
    folder = sys.argv[2] if dry else ROOT
    documents = []
    for name in sorted(f for f in files_below(".") if f.endswith(".md")):
        with open(os.path.join(folder, name), encoding="utf-8") as text:
            documents.append(Document(name, text.read().split("\n")))
    told = [d for d in documents if not d.name.startswith(("docs/landings/", "docs/PORT", "docs/DESIGN-PASS"))]
    check = Check(told, Repository())
    for document in documents:
        check.lines(document)
    for document in told:
        check.text(document)
        if document.name == "README.md":
            check.crates(document)
    check.gone()
    commands, to_run = check.commands()
    sessions = 0
    if not dry and not check.faults:
        for command, (document, line) in to_run:
            check.run(command, document, line)
        sessions = sum(check.sessions(document) for document in told)
    for name, line, what in sorted(check.faults):
        print(f"{name}:{line}: {what}", file=sys.stderr)
    if check.faults:
        sys.exit(f"documents: {len(check.faults)} wrong")
    print(f"documents: {len(documents)} files, {len(check.names)} names, {commands} commands, {len(to_run)} of them run, {sessions} sessions")


main()
