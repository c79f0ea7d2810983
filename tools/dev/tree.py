"""What the tools of this folder share: the repository's crates and files, and the declarations of a file."""
import re
import signal
import subprocess
import sys
from pathlib import Path
from typing import NamedTuple

ROOT = Path(__file__).resolve().parents[2]

# `| head` ends a tool quietly
signal.signal(signal.SIGPIPE, signal.SIG_DFL)


def stop(message, status=2):
    """Ends the tool with one line; status 2 says that it was called wrongly, or not where it can work."""
    print(f"{Path(sys.argv[0]).name}: {message}", file=sys.stderr)
    sys.exit(status)


def crates():
    """Each crate of crates.txt with what it lists. A word after the name, as staticlib, says what it is built as."""
    lines = (ROOT / "crates.txt").read_text(encoding="utf-8").splitlines()
    named = (line.split("#")[0].partition(":") for line in lines)
    return {name.split()[0]: listed.split() for name, _, listed in named if name.strip()}


def known(crate):
    if crate not in crates():
        stop(f"crates.txt has no crate {crate}")
    return crate


def files(crate):
    """The code, specifications and proofs of a crate."""
    folder = ROOT / "crates" / crate
    return sorted(p for part in ("src", "specs", "proofs") for p in (folder / part).rglob("*") if p.suffix in (".rt", ".antt"))


def checked(crate, function, *flags):
    """What a check of one function prints. One that is not proved yet is what it is asked for, so rt's status says nothing."""
    path = "::".join([crate, *function.split("/")])
    folder = ROOT / "crates" / crate
    try:
        done = subprocess.run(["rt", "check", "--only", path, *flags], cwd=folder, stdout=subprocess.PIPE, stderr=subprocess.STDOUT)
    except FileNotFoundError:
        stop("rt is not on the path")
    return done.stdout.decode()


def shown(path):
    return path.relative_to(ROOT).as_posix()


def bare(text):
    """A text without its comments, line by line as it was."""
    return re.sub(r"(^|\s)(--|//).*", r"\1", text, flags=re.M)


class Declaration(NamedTuple):
    name: str
    line: int
    inner: bool  # of a module, whose parameters its statement does not show
    statement: str  # up to the first clause
    text: str  # with the clauses, or the fields


HEAD = re.compile(r"(?:(?:abbrev|unfoldable|opaque|pub) )*(?:(?:record|data) )?(\S+)(?: [^=]*)? :(?:\s|$)")
NO_HEAD = re.compile(r"(?:(?:unfoldable|pub) )*(?:use|mod|infix\w*) ")


def declarations(text):
    """The declarations of an .antt file, those of its modules with them. Fields, constructors and `where` helpers belong to theirs."""
    found, margin, clauses = [], 0, False
    for number, line in enumerate(bare(text).splitlines(), 1):
        if not line.strip() or NO_HEAD.match(line):
            continue
        indent = len(line) - len(line.lstrip())
        if line.startswith("module "):
            margin, found = 2, found + [None]
            continue
        margin = min(margin, indent)
        if indent == margin:
            head = HEAD.match(line.strip())
            clauses = not head or bool(found and found[-1] and found[-1][0] == head.group(1))
            if not clauses:
                found.append((head.group(1), number, margin > 0, [], []))
        if found and found[-1]:
            words = " ".join(line.split())
            found[-1][4].append(words)
            if not clauses:
                found[-1][3].append(words)
    return [Declaration(*d[:3], " ".join(d[3]), " ".join(d[4])) for d in found if d]
