"""A scratch copy of the repository, in which an edit is made and the prover asked."""
import os
import re
import resource
import shutil
import signal
import subprocess
import tempfile
import time
from dataclasses import dataclass

import typed

PARTS = ("src", "specs", "proofs")
# a run of rt that takes longer leaves its edit undecided
SECONDS = 3600
# an error in a proof file, or a goal that has no answer, with what follows it up to the next one
ERROR = re.compile(
    r"^(?:(?=\S+\.antt:\d+:\d+: error)|note: (?=\S+\.rt:\d+:\d+: it is not proved))(\S+):(\d+):\d+: (.*?)"
    r"(?=^\S+:\d+:\d+: |^(?:note|help|rt): |^(?:fn|struct|enum|logic|statements|library|crate) |^logic=|\Z)",
    re.M | re.S,
)
# a library below, of which rt says that it is not proved or does not compile
BELOW = re.compile(r"^rt: the library (\w+) did not build", re.M)
# a fact that no longer holds, as the prover says it
FACT = re.compile(
    r"no occurrence of the path's|give a proof of that|`omega`|`search`|the two (?:types|sides)|expected type|does not follow|is not proved"
)
# a name that the proof uses and the edited code no longer has
NAME = re.compile(r"has no field|that can be named from here|has no `|not in scope|unknown name|cannot find|no such")


class Unready(Exception):
    """the tree is not proved before any edit, or the toolchain failed"""


@dataclass
class Outcome:
    """what the prover says of an edit: accepted, refused, undecided, or not compiled"""

    verdict: str
    reason: str = ""
    first: str = ""
    crate: str = ""
    seconds: float = 0.0
    busy: float = 0.0


def mirror(source, target):
    """makes the folder `target` equal to `source`, and copies only what differs in size or time"""
    if not os.path.isdir(source):
        shutil.rmtree(target, ignore_errors=True)
        return
    os.makedirs(target, exist_ok=True)
    remove_others(target, set(os.listdir(source)))
    for entry in os.scandir(source):
        there = os.path.join(target, entry.name)
        if entry.is_dir():
            mirror(entry.path, there)
        elif not same_file(entry, there):
            shutil.copy2(entry.path, there)


def remove_others(folder, wanted):
    for entry in [e for e in os.scandir(folder) if e.name not in wanted]:
        shutil.rmtree(entry.path) if entry.is_dir() else os.remove(entry.path)


def same_file(entry, there):
    if not os.path.exists(there):
        return False
    a, b = entry.stat(), os.stat(there)
    return (a.st_size, a.st_mtime_ns) == (b.st_size, b.st_mtime_ns)


def busy_seconds():
    """the processor's time that all ended runs of rt took"""
    used = resource.getrusage(resource.RUSAGE_CHILDREN)
    return used.ru_utime + used.ru_stime


def end(run):
    """ends a run and all that it started, where it has not ended by itself"""
    if run.poll() is None:
        os.killpg(run.pid, signal.SIGKILL)
        run.wait()


def read_text(path):
    try:
        with open(path, encoding="utf-8") as f:
            return f.read()
    except FileNotFoundError:
        return None


def write_text(path, text):
    with open(path, "w", encoding="utf-8") as f:
        f.write(text)


class Scratch:
    """the copy: crates.txt and crates/ of the library crates, with what rt makes in crates/NAME/out/; and kept/NAME, the out/ of each crate as
    it stands, which an edit's check is undone from"""

    def __init__(self, root, folder=None):
        self.own = folder is None
        self.folder = os.path.abspath(folder) if folder else tempfile.mkdtemp(prefix="mutate-")
        self.crates = typed.libraries(root)
        self.stand = {}
        for crate in self.crates:
            for part in PARTS:
                mirror(os.path.join(root, "crates", crate, part), self.path("crates", crate, part))
        write_text(self.path("crates.txt"), typed.lines_of(root, self.crates))

    def path(self, *words):
        return os.path.join(self.folder, *words)

    def close(self):
        if self.own:
            shutil.rmtree(self.folder, ignore_errors=True)

    # ---- the toolchain

    def check(self, crate):
        """the status and the text of one rt check of a crate; the status is None where it takes too long"""
        run = subprocess.Popen(
            ["rt", "check", "--jobs", os.environ.get("RT_JOBS", "1")],
            cwd=self.path("crates", crate),
            stdout=subprocess.PIPE,
            stderr=subprocess.STDOUT,
            start_new_session=True,
        )
        try:
            out, _ = run.communicate(timeout=SECONDS)
            return run.returncode, out.decode("utf-8", "replace")
        except subprocess.TimeoutExpired:
            return None, ""
        finally:
            end(run)

    # ---- before the edits, and after each

    def warm(self, crate):
        """proves a crate as it stands, and keeps what rt made"""
        status, text = self.check(crate)
        if status != 0:
            raise Unready(f"{crate} is not proved as it stands: rt check ended with status {status}\n{text[-2000:]}")
        self.keep()

    def keep(self):
        """what rt made of each crate, before any edit"""
        for crate in self.crates:
            mirror(self.path("crates", crate, "out"), self.path("kept", crate))

    def put_back(self, crates):
        for crate in crates:
            mirror(self.path("kept", crate), self.path("crates", crate, "out"))

    def standing(self, crates):
        """those of the crates that are proved as they stand, lower ones first"""
        for crate in (c for c in crates if c not in self.stand):
            self.stand[crate] = self.check(crate)[0] == 0
            self.keep()
        return sorted((c for c in crates if self.stand[c]), key=self.depth)

    def depth(self, crate):
        return 1 + max((self.depth(d) for d in self.crates[crate] if d in self.crates), default=0)

    # ---- an edit

    def judge(self, crate, edit, seen_by):
        """the prover's word on an edit, which the crates `seen_by` see too; the copy is then as it was"""
        path = self.path(edit.path)
        text = read_text(path)
        stat = os.stat(path)
        above = self.standing(seen_by)
        began, busy = time.monotonic(), busy_seconds()
        write_text(path, text[: edit.start] + edit.new + text[edit.end :])
        try:
            found = self.verdict([crate, *above])
        finally:
            write_text(path, text)
            os.utime(path, ns=(stat.st_atime_ns, stat.st_mtime_ns))
        found.seconds, found.busy = time.monotonic() - began, busy_seconds() - busy
        self.put_back(self.crates if above else [crate])
        return found

    def verdict(self, crates):
        """the word of a check of the crate, and then of those above it"""
        found = None
        for crate in crates:
            found = outcome(*self.check(crate), crate)
            if found.verdict != "accepted":
                break
        return found


def outcome(status, text, crate):
    """what one rt check says of the crate that it was run for, or of one below it"""
    if status == 0:
        return Outcome("accepted", crate=crate)
    below = BELOW.search(text)
    crate = below.group(1) if below else crate
    if status == 1 and re.search(r"^logic=not-proved", text, re.M):
        first = first_error(text)
        message = first.group(3) if first else text[-600:]
        return Outcome("refused", reason_of(message), where_of(first, crate) + message, crate)
    if status == 1 and re.search(r"^\S+\.rt:\d+:\d+: error", text, re.M):
        return Outcome("not compiled", first=text[-600:], crate=crate)
    if status in (None, 1, 3):
        return Outcome("undecided", first=text[-600:], crate=crate)
    raise Unready(f"rt ended with status {status} on {crate}\n{text[-2000:]}")


def first_error(text):
    """the first error that is not only a consequence of another"""
    errors = list(ERROR.finditer(text))
    own = [e for e in errors if not re.search(r"was not admitted|was rejected, was not checked", e.group(3))]
    return next(iter(own + errors), None)


def where_of(error, crate):
    return f"crates/{crate}/{error.group(1).removeprefix('./')}:{error.group(2)}: " if error else ""


def reason_of(message):
    if NAME.search(message):
        return "name"
    return "fact" if FACT.search(message) else "other"
