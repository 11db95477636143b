#!/usr/bin/env python3
"""Shows which program ./vrepl runs, and that the gate holds dist/ to the sources.

usage: tests/run_dist.py

Each check runs in copies of the checkout, most of them with no toolchain in the path: what dist/ has
answers at once, from a read-only folder and through a link too, and the next time behind one command
that looks at times; it asks for large pages unless it is told otherwise; a program in dist/ that was cut or
changed is never run, nor is one of other sources; its version tells of which it is; and scripts/is_released, which ./test
calls, refuses both.
How ./build goes about its work, and what it notes of it, is tried with a stand-in for the toolchain.
The last line is 'N passed, M failed': one a check.
"""
import contextlib
import hashlib
import os
import shutil
import subprocess
import sys
import tempfile
import time

ROOT = os.path.dirname(os.path.dirname(os.path.abspath(__file__)))
CARRIED = "dist/vrepl-x86_64-linux"
NOBODY = 65534
SHOW = ["show", "--hex", "examples/one_insert.hex"]
SHOWN = b"group 1 3e11fa47-71ca-11e1-9e33-c80aa9429562:1\n+ t\tx31\tx6162\n"
SOURCE = "crates/vrepl/src/main.rt"
NOT_THE_NAMED = f"{CARRIED} isn't the program that dist/SOURCES names"
NO_TOOLCHAIN = "rt, which builds one, isn't installed"

ZEROS = 64 * "0"
# A stand-in for the toolchain: a library takes a moment, the program is a text.
STAND_IN = f"""#!/bin/sh
case $1 in
    lib) mkdir -p out/rlib out/incremental; pwd >out/rlib/stamp ;;
    run) [ -z "$RT_FAILS" ] || exit 1; mkdir -p out; printf '#!/bin/sh\\necho built # 1.0.0, sources {ZEROS}' >out/vrepl; chmod +x out/vrepl ;;
esac
"""


def write(path, text):
    with open(path, "w", encoding="utf-8") as file:
        file.write(text)


def change(path, at):
    """Changes one byte of a file in place."""
    with open(path, "r+b") as file:
        file.seek(at)
        byte = file.read(1)
        file.seek(at)
        file.write(bytes([byte[0] ^ 1]))


class Room:
    """A folder with copies of the checkout, and paths of commands without the toolchain and with its stand-in."""

    def __init__(self, folder):
        self.folder, self.without, self.stand_in = folder, os.path.join(folder, "without"), os.path.join(folder, "stand_in")
        os.chmod(folder, 0o755)
        for path in (self.without, self.stand_in):
            os.mkdir(path)
        for place in os.environ["PATH"].split(":"):
            for name in os.listdir(place) if os.path.isdir(place) else ():
                if name != "rt" and not os.path.lexists(os.path.join(self.without, name)):
                    os.symlink(os.path.join(place, name), os.path.join(self.without, name))
        write(os.path.join(self.stand_in, "rt"), STAND_IN)
        os.chmod(os.path.join(self.stand_in, "rt"), 0o755)
        # the path with a `find` as it was before it could read a list
        older = os.path.join(folder, "older")
        os.mkdir(older)
        write(os.path.join(older, "find"), f'#!/bin/sh\n[ "$1" != -files0-from ] || exit 1\nexec "{self.without}/find" "$@"\n')
        os.chmod(os.path.join(older, "find"), 0o755)
        self.with_older_find = f"{older}:{self.without}"
        # every check leaves this copy as it was, but for what ./vrepl notes in out/
        self.plain = self.copy("a checkout")

    def copy(self, name):
        """Answers a new copy of the checkout."""
        place = os.path.join(self.folder, name)
        left_out = shutil.ignore_patterns("out", ".git", "must-fail", "bench", "cases", "drafts", "__pycache__")
        shutil.copytree(ROOT, place, ignore=left_out, symlinks=True)
        return place

    def start(self, place, *words, command="./vrepl", user=None, builds=False, **told):
        path = f"{self.stand_in}:{self.without}" if builds else self.without
        told = {"PATH": path, "HOME": os.path.join(self.folder, "home") if user is None else "/nonexistent", **told}
        how = {"cwd": place, "env": told, "stdin": subprocess.DEVNULL, "stdout": subprocess.PIPE, "stderr": subprocess.PIPE}
        return subprocess.Popen([command, *words], user=user, **how)

    def run(self, place, *words, **how):
        """Answers the status, standard output and standard error of a command in a copy."""
        process = self.start(place, *words, **how)
        out, error = process.communicate(timeout=60)
        return process.returncode, out, error.decode()


@contextlib.contextmanager
def changed(path, at):
    """Changes one byte of a file, for a while."""
    change(path, at)
    try:
        yield
    finally:
        change(path, at)


@contextlib.contextmanager
def longer(path):
    """Puts a comment behind a source, for a while."""
    size = os.path.getsize(path)
    with open(path, "a", encoding="utf-8") as file:
        file.write("// a change\n")
    try:
        yield
    finally:
        os.truncate(path, size)


@contextlib.contextmanager
def older_byte(path):
    """Changes a byte of a file and sets the time of its content back, for a while."""
    told = os.stat(path)
    with changed(path, 0):
        os.utime(path, ns=(told.st_atime_ns, told.st_mtime_ns - 10**15))
        yield


@contextlib.contextmanager
def renamed(path):
    """Gives a file another name in its folder, for a while."""
    other = os.path.join(os.path.dirname(path), "other.rt")
    os.rename(path, other)
    try:
        yield
    finally:
        os.rename(other, path)


@contextlib.contextmanager
def gone(path):
    """Takes a file away, for a while."""
    with open(path, "rb") as file:
        whole = file.read()
    os.remove(path)
    try:
        yield
    finally:
        with open(path, "wb") as file:
            file.write(whole)


@contextlib.contextmanager
def one_more(path):
    """Adds a file, with its folder where that isn't there, for a while."""
    folder = os.path.dirname(path)
    is_new = not os.path.isdir(folder)
    os.makedirs(folder, exist_ok=True)
    write(path, "")
    try:
        yield
    finally:
        shutil.rmtree(folder) if is_new else os.remove(path)


def wanted(ran, status=0, out=SHOWN, said=""):
    """Answers what isn't as wanted, or nothing."""
    is_said = said in ran[2] if said else not ran[2]
    return None if ran[:2] == (status, out) and is_said else f"status {ran[0]}, output {ran[1]!r}, error {ran[2]!r}"


def refused(ran, said):
    return wanted(ran, 125, b"", said)


def answers_at_once(room):
    begun = time.monotonic()
    fault = wanted(room.run(room.plain, *SHOW))
    took = time.monotonic() - begun
    return fault or wanted(room.run(room.plain, *SHOW)) or (None if took < 1 else f"the first answer took {took:.1f} seconds")


def answers_through_a_link(room):
    link = os.path.join(room.folder, "link")
    os.symlink(os.path.join(room.plain, "vrepl"), link)
    words = ["show", "--hex", os.path.join(room.plain, "examples/one_insert.hex")]
    return wanted(room.run(room.folder, *words, command=link)) or wanted(room.run(room.folder, *words, command=link))


def answers_many_at_a_time(room):
    shutil.rmtree(os.path.join(room.plain, "out"), ignore_errors=True)
    users = [NOBODY, None] if os.geteuid() == 0 else [None, None]
    started = [room.start(room.plain, *SHOW, user=users[at % 2]) for at in range(16)]
    ended = [(it.communicate(timeout=60), it.returncode) for it in started]
    return next((why for why in (wanted((status, out, error.decode())) for (out, error), status in ended) if why), None)


def words_and_status_are_the_programs(room):
    fault = wanted(room.run(room.plain, "show", "--hex", "none.hex"), 1, b"", "refused 131 file none.hex\n")
    return fault or wanted(room.run(room.plain, "no such word"), 2, b"", "no such word")


def changed_program_is_never_run(room):
    carried = os.path.join(room.plain, CARRIED)
    size = os.path.getsize(carried)
    fault = wanted(room.run(room.plain, *SHOW))
    with changed(carried, size // 2):
        fault = fault or refused(room.run(room.plain, *SHOW), NOT_THE_NAMED)
    with open(carried, "rb") as file:
        whole = file.read()
    os.truncate(carried, size - 1)
    fault = fault or refused(room.run(room.plain, *SHOW), NOT_THE_NAMED)
    with open(carried, "r+b") as file:
        file.write(whole)
    return fault or wanted(room.run(room.plain, *SHOW))


def program_of_other_sources_is_not_run(room):
    fault = wanted(room.run(room.plain, *SHOW))
    with longer(os.path.join(room.plain, SOURCE)):
        fault = fault or refused(room.run(room.plain, *SHOW), NO_TOOLCHAIN)
    fault = fault or wanted(room.run(room.plain, *SHOW))
    moved = os.path.join(room.folder, "moved")
    os.rename(os.path.join(room.plain, SOURCE), moved)
    fault = fault or refused(room.run(room.plain, *SHOW), NO_TOOLCHAIN)
    os.rename(moved, os.path.join(room.plain, SOURCE))
    return fault or wanted(room.run(room.plain, *SHOW))


@contextlib.contextmanager
def without_sums(room, place=None):
    """Nobody can sum the sources up, for a while: only a note gives an answer."""
    sums = os.path.join(place or room.plain, "scripts/sources")
    os.chmod(sums, 0o644)
    try:
        yield
    finally:
        os.chmod(sums, 0o755)


# A stand-in for the program: what the C library is told.
TELLS = "#!/bin/sh\nprintf '%s' \"${GLIBC_TUNABLES-unset}\"\n"
LARGE_PAGES = b"glibc.malloc.hugetlb=1:glibc.malloc.top_pad=16777216"


def asks_for_large_pages_unless_told(room):
    """Of a program that was looked for, and of one by its note."""
    place = room.copy("tells")
    carried = os.path.join(place, CARRIED)
    write(carried, TELLS)
    with open(os.path.join(place, "dist/SOURCES"), encoding="utf-8") as file:
        sources = file.readline()
    with open(carried, "rb") as file:
        write(os.path.join(place, "dist/SOURCES"), f"{sources}program {hashlib.sha256(file.read()).hexdigest()}\n")
    time.sleep(2.1)
    fault = None
    for told, said in ({}, LARGE_PAGES), ({"GLIBC_TUNABLES": ""}, b""), ({"GLIBC_TUNABLES": "glibc.malloc.arena_max=1"}, b"glibc.malloc.arena_max=1"):
        shutil.rmtree(os.path.join(place, "out"), ignore_errors=True)
        fault = fault or wanted(room.run(place, **told), 0, said)
        with without_sums(room, place):
            fault = fault or wanted(room.run(place, **told), 0, said)
    return fault


def next_answer_needs_one_command(room):
    """By `find` alone in the path, and as any shell reads the script; an older `find` leads to the same answer."""
    time.sleep(2.1)
    fault = wanted(room.run(room.plain, *SHOW))
    alone = os.path.join(room.folder, "alone")
    os.mkdir(alone)
    os.symlink(os.path.join(room.without, "find"), os.path.join(alone, "find"))
    with without_sums(room):
        for shell, path in (["sh"], alone), (["bash", "--posix"], alone), (["sh"], room.with_older_find):
            words = [*shell[1:], os.path.join(room.plain, "vrepl"), *SHOW]
            fault = fault or wanted(room.run(room.plain, *words, command=shutil.which(shell[0]), PATH=path))
    return fault


def holds_from_now(room):
    """Has a note of the program that holds from this moment on, in place of the second before it was made."""
    fault = wanted(room.run(room.plain, *SHOW))
    with open(os.path.join(room.plain, "out/answers"), "r+b") as file:
        _, _, rest = file.read().partition(b" ")
        file.seek(0)
        file.write(b"%.6f %s" % (time.time(), rest))
    with without_sums(room):
        fault = fault or wanted(room.run(room.plain, *SHOW))
    time.sleep(0.05)
    return fault


def each_change_is_noticed(room):
    changes = [
        (older_byte, SOURCE, NO_TOOLCHAIN),
        (gone, SOURCE, NO_TOOLCHAIN),
        (renamed, SOURCE, NO_TOOLCHAIN),
        (one_more, "crates/vrepl/src/other.rt", NO_TOOLCHAIN),
        (one_more, "crates/list_laws/proofs/Other.antt", NO_TOOLCHAIN),
        (longer, "HANDLES", NO_TOOLCHAIN),
        (gone, "crates.txt", "crates.txt"),
        (older_byte, CARRIED, NOT_THE_NAMED),
        (older_byte, "dist/SOURCES", NO_TOOLCHAIN),
    ]
    for make, path, said in changes:
        fault = holds_from_now(room)
        with make(os.path.join(room.plain, path)):
            for places in (room.without, room.with_older_find):
                fault = fault or refused(room.run(room.plain, *SHOW, PATH=places), said)
        if fault:
            return f"{make.__name__} {path}: {fault}"
    # what dist/ has counts under any toolchain
    return holds_from_now(room) or wanted(room.run(room.plain, *SHOW, builds=True, RT_FAILS="1"))


def tests_and_documents_do_not_count(room):
    edits = os.path.join(room.plain, "crates/vrepl/must-fail")
    os.mkdir(edits)
    write(os.path.join(edits, "other.edit"), "")
    moved = os.path.join(room.folder, "reading_tests")
    os.rename(os.path.join(room.plain, "crates/reading_tests"), moved)
    with longer(os.path.join(room.plain, "README.md")):
        fault = wanted(room.run(room.plain, *SHOW))
    shutil.rmtree(edits)
    os.rename(moved, os.path.join(room.plain, "crates/reading_tests"))
    return fault


def gate_refuses_a_changed_program(room):
    carried, check = os.path.join(room.plain, CARRIED), "scripts/is_released"
    fault = wanted(room.run(room.plain, CARRIED, command=check), 0, b"")
    with changed(carried, 4096):
        ran = room.run(room.plain, command=check)
        fault = fault or (None if ran[0] == 1 and b"./release" in ran[1] else f"status {ran[0]}, output {ran[1]!r}")
    other = os.path.join(room.folder, "other")
    shutil.copy(carried, other)
    change(other, 4096)
    ran = room.run(room.plain, other, command=check)
    return fault or (None if ran[0] == 1 and b"./release" in ran[1] else f"status {ran[0]}, output {ran[1]!r}")


def gate_compares_no_program_of_another_toolchain(room):
    """A toolchain that has a name of its own, beside a program in dist/ that isn't the one given."""
    kit, other = os.path.join(room.folder, "KIT-ID"), os.path.join(room.folder, "another")
    shutil.copy(os.path.join(room.plain, CARRIED), other)
    change(other, 4096)
    write(kit, "another-kit\n")
    ran = room.run(room.plain, other, command="scripts/is_released", builds=True)
    os.remove(kit)
    fault = None if ran[0] == 2 and b"another-kit: not compared" in ran[1] else f"status {ran[0]}, output {ran[1]!r}"
    write(kit, "another-kit\n")
    with longer(os.path.join(room.plain, SOURCE)):
        ran = room.run(room.plain, other, command="scripts/is_released", builds=True)
    os.remove(kit)
    return fault or (None if ran[0] == 1 and b"./release" in ran[1] else f"status {ran[0]}, output {ran[1]!r}")


def gate_refuses_changed_sources(room):
    with longer(os.path.join(room.plain, SOURCE)):
        ran = room.run(room.plain, CARRIED, command="scripts/is_released")
    return None if ran[0] == 1 and b"./release" in ran[1] else f"status {ran[0]}, output {ran[1]!r}"


def answers_from_a_read_only_folder(room):
    place = room.copy("read only")
    subprocess.run(["chmod", "-R", "a-w,a+rX", place], check=True)
    user = NOBODY if os.geteuid() == 0 else None
    fault = wanted(room.run(place, *SHOW, user=user)) or wanted(room.run(place, *SHOW, user=user))
    return fault or ("it wrote into the folder" if os.path.exists(os.path.join(place, "out")) else None)


def checkout_without_dist_builds(room):
    place = room.copy("built")
    shutil.rmtree(os.path.join(place, "dist"))
    fault = refused(room.run(place, *SHOW), NO_TOOLCHAIN)
    fault = fault or wanted(room.run(place, *SHOW, builds=True), 0, b"built\n", "the program is built")
    fault = fault or wanted(room.run(place, *SHOW, builds=True), 0, b"built\n")
    # what each crate's proof took, as scripts/figures takes it in
    with open(os.path.join(place, "out/build.figures"), encoding="utf-8") as file:
        head, _, *rows = file.read().splitlines()
    names = [row.split("|")[1].strip() for row in rows]
    if head != "| Crate | Proof |" or names != sorted({*names, "vrepl", "vrepl_main", "list_laws"}) or "vrepl_c" in names:
        fault = fault or f"out/build.figures has {', '.join(names)} under {head}"
    return fault


def version_tells_the_sources(room):
    """The sum that dist/SOURCES begins with; a program with no place for it, or with two, isn't kept."""
    with open(os.path.join(room.plain, "dist/SOURCES"), encoding="utf-8") as file:
        sources = file.read().split()[1]
    fault = wanted(room.run(room.plain, "--version"), 0, f"vrepl 1.0.0, sources {sources}\n".encode())
    place = room.copy("stamped")
    for places in range(3):
        program = os.path.join(place, "program")
        write(program, f", sources {ZEROS}\n" * places)
        status = room.run(place, program, f"sources {sources}", command="scripts/keep")[0]
        if status if places == 1 else not status:
            fault = fault or f"a program with {places} places is kept with status {status}"
    with open(os.path.join(place, "out/vrepl"), encoding="utf-8") as file:
        said = file.read()
    return fault or (None if said == f", sources {sources}\n" else f"kept is {said}")


def build_that_fails_leaves_what_was_there(room):
    place = os.path.join(room.folder, "built")
    fault = wanted(room.run(place, *SHOW, builds=True), 0, b"built\n")
    with longer(os.path.join(place, SOURCE)):
        fault = fault or refused(room.run(place, command="./build", builds=True, RT_FAILS="1"), "vrepl isn't proved")
    fault = fault or wanted(room.run(place, *SHOW, builds=True), 0, b"built\n")
    # a file of at most 16 KiB stands for a full disk
    write(os.path.join(place, "large"), f", sources {ZEROS}\n" + (1 << 16) * "x")
    words = ["-c", 'ulimit -f 16; exec scripts/keep "$1" "$2"', "keep", "large", f"sources {ZEROS}"]
    status = room.run(place, *words, command="bash")[0]
    fault = fault or (None if status else "a program was kept that doesn't fit")
    return fault or wanted(room.run(place, *SHOW, builds=True), 0, b"built\n")


CHECKS = [
    answers_at_once, answers_through_a_link, answers_many_at_a_time, words_and_status_are_the_programs,
    next_answer_needs_one_command, asks_for_large_pages_unless_told, each_change_is_noticed,
    changed_program_is_never_run, program_of_other_sources_is_not_run, tests_and_documents_do_not_count,
    gate_refuses_a_changed_program, gate_refuses_changed_sources, gate_compares_no_program_of_another_toolchain, answers_from_a_read_only_folder,
    checkout_without_dist_builds, version_tells_the_sources, build_that_fails_leaves_what_was_there,
]  # fmt: skip


def main():
    failed = 0
    with tempfile.TemporaryDirectory(prefix="vrepl-dist-") as folder:
        room = Room(folder)
        for check in CHECKS:
            try:
                why = check(room)
            except (OSError, subprocess.SubprocessError) as fault:
                why = str(fault)
            if why:
                print(f"dist {check.__name__}: {why}")
            failed += bool(why)
        subprocess.run(["chmod", "-R", "u+w", folder], check=False)
    print(f"{len(CHECKS) - failed} passed, {failed} failed")
    return 1 if failed else 0


if __name__ == "__main__":
    sys.exit(main())
