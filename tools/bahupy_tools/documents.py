"""The check of the documents against the repository: links, names and quotes."""

from __future__ import annotations

import re
from collections.abc import Iterator
from functools import cached_property
from pathlib import Path

# Names that no source has: interfaces of a capture that is made, and of a ptp4l.conf.
OTHERS = frozenset(["port1", "eth0", "eth1"])

# Folders in which no document and no source stands.
PASSED_OVER = frozenset([".git", ".cache", "out", "__pycache__", ".pytest_cache"])

SOURCES = (".rt", ".antt", ".edit", ".py", ".js", ".css", ".html", ".txt", ".transcript", ".summary", "")

# Words that stand for others: NUMBER, after_X, XYields.
STANDS_FOR_OTHERS = re.compile(r"^(?:[A-Z]+|X[A-Z]\w*|\w*_X|IsX|[0-9a-f]{8,})$")

LINK = re.compile(r"(?<!!)\[((?:`[^`]*`|[^\[\]`])*)\]\(([^()\s]*(?:\([^()\s]*\))?[^()\s]*)\)")
PICTURE = re.compile(r"!\[[^\]]*\]\(([^()\s]+)\)")
SPAN = re.compile(r"(?<!`)`([^`\n]+)`(?!`)")
FENCE = re.compile(r"^\s*(```+|~~~+)\s*(.*)$")
WORD = re.compile(r"[A-Za-z0-9_]+")
PATH = re.compile(r"^[\w.*-]+(/[\w.*-]+)*/?$")
# A name of a file of definitions: `ForeignMasters.record_of`.
OF_FILE = re.compile(r"^([A-Z][A-Za-z0-9]*)\.(?!(?:antt|md|rt|txt)$)(\w+)$")
DEFINITION = re.compile(
    r"^\s*(?:abbrev |unfoldable )?(?:pub )?(?:record |data )?([A-Za-z_]\w*)\s*[({:]", re.MULTILINE
)


class Repository:
    """The files of a folder, and the words in its sources."""

    def __init__(self, top: Path) -> None:
        self.top = top

    @cached_property
    def files(self) -> list[Path]:
        """All files, less those that are made."""
        return sorted(self.walk(self.top))

    def walk(self, folder: Path) -> Iterator[Path]:
        """The files below a folder."""
        for path in folder.iterdir():
            if path.name in PASSED_OVER and path.is_dir():
                continue
            if path.is_dir() and not path.is_symlink():
                yield from self.walk(path)
            else:
                yield path

    @cached_property
    def documents(self) -> list[Path]:
        """The documents: what is written in Markdown."""
        return [path for path in self.files if path.suffix == ".md"]

    @cached_property
    def paths(self) -> set[str]:
        """Each file and each folder, by its path from the top."""
        found = set()
        for path in self.files:
            for part in [path, *path.parents]:
                if part == self.top:
                    break
                found.add(part.relative_to(self.top).as_posix())
        return found

    @cached_property
    def words(self) -> set[str]:
        """The words of all sources, and the names of files without their endings."""
        found = set()
        for path in self.files:
            found.update(WORD.findall(path.name))
            if path.suffix in SOURCES:
                found.update(self.words_of(path))
        return found

    def words_of(self, path: Path) -> set[str]:
        """The words in a file."""
        return set(WORD.findall(path.read_text("utf-8", "replace")))

    @cached_property
    def definitions(self) -> dict[str, set[str]]:
        """What the files of definitions of each name define."""
        found: dict[str, set[str]] = {}
        for path in self.files:
            if path.suffix == ".antt":
                found.setdefault(path.stem, set()).update(definitions_in(path))
        return found

    def has_path(self, text: str) -> bool:
        """Some file or folder has the path, whole or as its end; a star stands for any name, and
        the ending of a file of definitions may be left out."""
        wanted = re.escape(text.rstrip("/").removeprefix("./")).replace(r"\*", "[^/]*")
        pattern = re.compile(rf"(?:.*/)?{wanted}(?:\.antt)?$")
        return any(pattern.match(path) for path in self.paths)


def definitions_in(path: Path) -> set[str]:
    """What a file of definitions defines, the fields of its records among it."""
    return set(DEFINITION.findall(path.read_text("utf-8", "replace")))


def slug(heading: str) -> str:
    """The anchor of a heading, as GitHub makes it."""
    text = re.sub(r"\[([^\]]*)\]\([^)]*\)", r"\1", heading).replace("`", "")
    text = re.sub(r"[^\w\- ]", "", text.strip().lower())
    return text.replace(" ", "-")


def anchors_of(path: Path) -> set[str]:
    """The anchors of a document."""
    found: set[str] = set()
    for _, line, fence in lines_of(path):
        if fence is None and line.startswith("#"):
            name = base = slug(line.lstrip("#"))
            count = 0
            while name in found:
                count += 1
                name = f"{base}-{count}"
            found.add(name)
        found.update(re.findall(r'<a id="([^"]+)"></a>', line))
    return found


def lines_of(path: Path) -> Iterator[tuple[int, str, str | None]]:
    """The lines of a document with their numbers, and the word of the fence that they stand in."""
    fence: str | None = None
    for number, line in enumerate(path.read_text("utf-8").splitlines(), 1):
        match = FENCE.match(line)
        if match and fence is None:
            fence = match.group(2)
        elif match and not match.group(2):
            fence = None
        else:
            yield number, line, fence


def faults_in(top: Path) -> list[str]:
    """What is wrong in the documents of a repository, a line each."""
    repository = Repository(top)
    found = []
    for path in repository.documents:
        where = path.relative_to(top).as_posix()
        for number, fault in faults_of(repository, path):
            found.append(f"{where}:{number}: {fault}")
    return found


def faults_of(repository: Repository, path: Path) -> Iterator[tuple[int, str]]:
    """What is wrong in a document, with the number of its line."""
    for number, line, fence in lines_of(path):
        if fence is not None:
            continue
        for text, target in LINK.findall(line):
            for fault in link_faults(repository, path, text, target):
                yield number, fault
        for target in PICTURE.findall(line):
            if not (path.parent / target).exists():
                yield number, f"no picture {target}"
        for span in SPAN.findall(line):
            for fault in name_faults(repository, span):
                yield number, fault
    yield from quote_faults(repository, path)


def link_faults(repository: Repository, path: Path, text: str, target: str) -> Iterator[str]:
    """A link that leads nowhere, or to a file that lacks the name that is the link's text."""
    if re.match(r"[a-z]+:", target):
        return
    file, _, anchor = target.partition("#")
    place = (path.parent / file) if file else path
    if not place.exists():
        yield f"the link {target} leads nowhere"
        return
    if anchor and place.suffix == ".md" and anchor not in anchors_of(place):
        yield f"{target} has no such heading"
    if place.suffix in SOURCES and place.is_file():
        words = repository.words_of(place) | set(WORD.findall(target))
        for span in SPAN.findall(text):
            if is_path(span):
                continue
            of_file = OF_FILE.match(span)
            if of_file and place.suffix == ".antt":
                words = definitions_in(place)
            names = WORD.findall(span)
            if names and names[-1] not in words:
                yield f"{target} has no {names[-1]}"


def name_faults(repository: Repository, span: str) -> Iterator[str]:
    """A name that no source has, or a path of no file."""
    of_file = OF_FILE.match(span)
    if of_file and of_file.group(1) in repository.definitions:
        if of_file.group(2) not in repository.definitions[of_file.group(1)]:
            yield f"{of_file.group(1)}.antt has no {of_file.group(2)}"
        return
    for word in span.split():
        if is_path(word):
            if not repository.has_path(word):
                yield f"no file {word}"
            continue
        for name in WORD.findall(word):
            if is_checked(name) and name not in repository.words and name not in OTHERS:
                yield f"no source has {name}"


def is_checked(name: str) -> bool:
    """The word is a name that a source should have, and no number and no word for others."""
    return len(name) > 2 and not name[0].isdigit() and not STANDS_FOR_OTHERS.match(name)


def is_path(word: str) -> bool:
    """The word is the path of a file or a folder of the repository."""
    if not PATH.match(word) or word.startswith(".cache"):
        return False
    return "/" in word or re.search(r"\w\.(?:md|rt|antt|txt|transcript|summary)$", word) is not None


def quote_faults(repository: Repository, path: Path) -> Iterator[tuple[int, str]]:
    """A block that quotes an example, and has a line that doesn't stand there behind the former."""
    former: tuple[str, int] | None = None
    skips = True
    for number, line, fence in lines_of(path):
        word, _, name = (fence or "").partition(" ")
        if word not in ("scenario", "transcript", "summary") or not name:
            former, skips = None, True
            continue
        file = repository.top / "examples" / (name + (".txt" if word == "scenario" else "." + word))
        if not file.is_file():
            yield number, f"no example {file.name}"
            continue
        if former is None or former[0] != file.name:
            former, skips = (file.name, 0), True
        if line.strip() == "..":
            skips = True
            continue
        rows = file.read_text("utf-8").splitlines()
        end = len(rows) if skips else former[1] + 1
        place = next((i for i in range(former[1], end) if is_quote(line, rows[i : i + 1])), None)
        if place is None:
            yield number, f"{file.name} has no such line here: {line.strip()}"
            continue
        former, skips = (file.name, place + 1), False


def is_quote(line: str, rows: list[str]) -> bool:
    """The line is the row, where a word that ends in two points stands for all that begin so."""
    if not rows:
        return False
    words, others = line.rstrip().split(" "), rows[0].split(" ")
    return len(words) == len(others) and all(
        other.startswith(word[:-2]) if word.endswith("..") else word == other
        for word, other in zip(words, others)
    )
