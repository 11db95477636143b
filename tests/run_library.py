#!/usr/bin/env python3
"""Holds the library for other languages to what it says.

usage: tests/run_library.py PROGRAM [COUNT]

The library is built first where it isn't there of these sources (scripts/library), which proves it. Each check runs by
itself: every call of include/vrepl.h from C, plainly, with AddressSanitizer and under valgrind, with no error and no
leak; from Python, from Rust, and as the programs of docs/LIBRARY.md; `pip install .` into a folder of its own; the
pytest plugin; and random and damaged inputs through the library and through the program, which have to give the
same answers, ten thousand of them: each call of the library that they took is made again by a program in C, with AddressSanitizer and
under valgrind, where it has to answer as it did, with memory that ends where its inputs do. With COUNT nothing else is tried,
but of so many inputs at least, by as many processes as there are processors. Where the toolchain isn't installed the script says so and counts nothing, and where valgrind,
cargo, pip or pytest isn't, that check alone. The last line is 'N passed, M failed': one a check.
"""
import os
import random
import re
import shutil
import subprocess
import sys
import tempfile
from concurrent.futures import ThreadPoolExecutor

ROOT = os.path.dirname(os.path.dirname(os.path.abspath(__file__)))
LIBRARY = os.path.join(ROOT, "out", "library")
HERE = os.path.join(ROOT, "tests", "library")


class Failed(Exception):
    """Why a check fails."""


class Left(Exception):
    """Why a check isn't made."""


def ran(*words, **how):
    """Runs a command that has to end with status 0, and answers its standard output."""
    how.setdefault("cwd", ROOT)
    done = subprocess.run(words, stdin=subprocess.DEVNULL, capture_output=True, text=True, check=False, **how)
    if done.returncode:
        raise Failed(f"{' '.join(words)}: status {done.returncode}\n{done.stdout}{done.stderr}")
    return done.stdout


def needed(*commands):
    for it in commands:
        if not shutil.which(it):
            raise Left(f"{it} isn't installed")


def compiled(room, name, *options):
    needed("cc")
    made = os.path.join(room, name.replace(".c", "") + "".join(options).replace("-", "_").replace("=", "_"))
    words = ["cc", "-std=c11", "-Wall", "-Wextra", "-Werror", "-pedantic", "-g", "-I", os.path.join(ROOT, "include")]
    ran(*words, *options, "-o", made, os.path.join(HERE, name), os.path.join(LIBRARY, "libvrepl.a"))
    return made


def calls_from_c(room, program):
    """Every call, linked with the static library, and with the shared one."""
    ran(compiled(room, "calls.c", "-O2"))
    made = os.path.join(room, "shared")
    ran("cc", "-I", os.path.join(ROOT, "include"), "-o", made, os.path.join(HERE, "calls.c"), "-L", LIBRARY, "-lvrepl")
    ran(made, env={**os.environ, "LD_LIBRARY_PATH": LIBRARY})


def header_is_c_plus_plus(room, program):
    needed("c++")
    with open(os.path.join(room, "one.cc"), "w", encoding="utf-8") as file:
        file.write('#include "vrepl.h"\nint main() { uint8_t room[1]; return vrepl_explain(0, room, 0) != 0; }\n')
    ran("c++", "-std=c++17", "-Wall", "-Wextra", "-Werror", "-I", os.path.join(ROOT, "include"), "-o", os.path.join(room, "one"),
        os.path.join(room, "one.cc"), os.path.join(LIBRARY, "libvrepl.a"))  # fmt: skip
    ran(os.path.join(room, "one"))


def calls_with_sanitizers(room, program):
    ran(compiled(room, "calls.c", "-fsanitize=address,undefined", "-fno-sanitize-recover=all"))


VALGRIND = ("valgrind", "-q", "--error-exitcode=9", "--leak-check=full", "--show-leak-kinds=all", "--errors-for-leak-kinds=all")


def calls_under_valgrind(room, program):
    needed("valgrind")
    ran(*VALGRIND, compiled(room, "calls.c"))


def exports_are_the_header(room, program):
    """The shared library has the calls of the header, and no other name; and the page says of each whose memory it reads and writes."""
    needed("nm")
    exported = {line.split()[-1] for line in ran("nm", "-D", "--defined-only", os.path.join(LIBRARY, "libvrepl.so")).splitlines()}
    with open(os.path.join(ROOT, "include", "vrepl.h"), encoding="utf-8") as file:
        named = set(re.findall(r"^(?:size_t|uint32_t) (vrepl_\w+)\(", file.read(), re.M))
    if exported != named:
        raise Failed(f"only exported: {sorted(exported - named)}; only in the header: {sorted(named - exported)}")
    with open(os.path.join(ROOT, "docs", "LIBRARY.md"), encoding="utf-8") as file:
        rows = [it for row in re.findall(r"^\| (`vrepl_.*?) \|", file.read(), re.M) for it in re.findall(r"`(\w+)`", row)]
    if sorted(rows) != sorted(named):
        raise Failed(f"the table of docs/LIBRARY.md has {sorted(rows)}")


def python_of(program):
    """The environment in which Python finds module, library and program."""
    paths = {"PYTHONPATH": os.path.join(ROOT, "bindings", "python"), "VREPL_LIBRARY": os.path.join(LIBRARY, "libvrepl.so")}
    return {**os.environ, **paths, "VREPL_PROGRAM": program}


def calls_from_python(room, program):
    ran(sys.executable, "-B", os.path.join(HERE, "calls.py"), env=python_of(program), cwd=room)


def same_answers(room, program, until="10000i"):
    """Inputs through library and program; and each call of the library once more, with AddressSanitizer and under valgrind."""
    file, seed = os.path.join(room, "calls"), str(random.randrange(2**32))
    said = ran(sys.executable, "-B", os.path.join(HERE, "same.py"), until, seed, file, env=python_of(program), cwd=room)
    walks = [[compiled(room, "walk.c", "-O1", "-fsanitize=address,undefined", "-fno-sanitize-recover=all")]]
    if shutil.which("valgrind"):
        walks.append([*VALGRIND, compiled(room, "walk.c", "-O1")])
    else:
        print("same_answers: not under valgrind, since that isn't installed")
    counts = {ran(*walk, file) for walk in walks}
    if len(counts) != 1 or not re.fullmatch("[1-9][0-9]{3,} calls\n", [*counts][0]):
        raise Failed(f"of {said!r} there are {counts}")
    return f"{said.strip()}, {[*counts][0].strip()}"


def same_answers_of_many(room, program, count):
    """So many inputs, by processes side by side."""
    many = len(os.sched_getaffinity(0))
    rooms = [os.path.join(room, str(at)) for at in range(many)]
    for it in rooms:
        os.mkdir(it)
    with ThreadPoolExecutor(many) as pool:
        for said in pool.map(lambda it: same_answers(it, program, f"{-(-count // many)}i"), rooms):
            print(said, flush=True)


def installed_by_pip(room, program):
    """What `pip install .` puts into a folder runs from there."""
    if subprocess.run([sys.executable, "-m", "pip", "--version"], capture_output=True, check=False).returncode:
        raise Left("pip isn't installed")
    copy, target = os.path.join(room, "copy"), os.path.join(room, "installed")
    taken = [*ran("git", "-C", ROOT, "ls-files", "--cached", "--others", "--exclude-standard", "-z").split("\0")[:-1]]
    for it in [*taken, "out/library/libvrepl.so"]:
        if os.path.isfile(os.path.join(ROOT, it)) and it.split("/")[0] in ("pyproject.toml", "bindings", "record", "dist", "out", "LICENSE", "README.md"):
            os.makedirs(os.path.dirname(os.path.join(copy, it)) or copy, exist_ok=True)
            shutil.copy(os.path.join(ROOT, it), os.path.join(copy, it), follow_symlinks=False)
    ran(sys.executable, "-m", "pip", "install", "--no-index", "--no-deps", "--quiet", "--disable-pip-version-check", "--root-user-action=ignore",
        "--target", target, copy)  # fmt: skip
    env = {it: value for it, value in os.environ.items() if not it.startswith("VREPL_")}
    ran(sys.executable, "-B", os.path.join(HERE, "calls.py"), env={**env, "PYTHONPATH": target}, cwd=room)


def plugin_of_pytest(room, program):
    """Two cases of the plugin pass and two fail, by the Python that has pytest."""
    has_pytest = [it for it in (sys.executable, "/usr/bin/python3") if os.path.exists(it) and subprocess.run([it, "-c", "import pytest"], capture_output=True, check=False).returncode == 0]
    if not has_pytest:
        raise Left("pytest isn't installed")
    shutil.copy(os.path.join(HERE, "plugin_cases.py"), os.path.join(room, "test_plugin.py"))
    words = [has_pytest[0], "-B", "-m", "pytest", "-q", "-p", "vrepl.pytest_plugin", "-p", "no:cacheprovider", "test_plugin.py"]
    done = subprocess.run(words, cwd=room, env=python_of(program), capture_output=True, text=True, check=False)
    wanted = "2 failed, 2 passed"
    if done.returncode != 1 or wanted not in done.stdout or "wanted (b'2', b'b'), found (b'2', b'x')" not in done.stdout:
        raise Failed(f"not {wanted}:\n{done.stdout}{done.stderr}")


def calls_from_rust(room, program):
    needed("cargo")
    copy = os.path.join(room, "rust")
    shutil.copytree(os.path.join(ROOT, "bindings", "rust"), copy, ignore=shutil.ignore_patterns("target"))
    env = {**os.environ, "VREPL_LIBRARY_DIR": LIBRARY, "CARGO_TARGET_DIR": os.path.join(room, "target"), "CARGO_NET_OFFLINE": "true"}
    ran("cargo", "test", "--offline", "--quiet", env=env, cwd=copy)
    wrong = os.path.join(HERE, "rows.wrong")
    held = ran("cargo", "run", "--offline", "--quiet", "--example", "hold", "--", os.path.join(HERE, "rows"), env=env, cwd=copy)
    if held != "4 rows are in their shards\n":
        raise Failed(f"the example says {held!r}")
    done = subprocess.run(["cargo", "run", "--offline", "--quiet", "--example", "hold", "--", wrong], env=env, cwd=copy, capture_output=True, text=True, check=False)
    if done.returncode != 1 or done.stdout != "row 2 is in shard 80-, and its id 0000000000000001 isn't\n":
        raise Failed(f"of a wrong row the example says {done.stdout!r}, {done.stderr!r}")


def programs_of_the_page(room, program):
    """Each program of docs/LIBRARY.md prints what stands under it."""
    ran(sys.executable, "-B", os.path.join(HERE, "page.py"), env=python_of(program), cwd=room)


def packages_with_the_library(room, program):
    """Packages that are made behind the library have it and its header, and lintian finds no error."""
    needed("dpkg-deb", "make")
    if subprocess.run([os.path.join(ROOT, "scripts", "program")], capture_output=True, check=False).returncode:
        raise Left("there is no program of these sources")
    copy = os.path.join(room, "copy")
    left_out = lambda at, names: [it for it in names if (it in (".git", "packages") if at == ROOT else it in ("out", "target"))]  # noqa: E731
    shutil.copytree(ROOT, copy, ignore=left_out, symlinks=True)
    ran(os.path.join(copy, "release"), "--packages", cwd=copy)
    made = {it.rsplit(".", 1)[1]: os.path.join(copy, "packages", it) for it in os.listdir(os.path.join(copy, "packages")) if "." in it}
    for listed, top in ((ran("tar", "tzf", made["gz"]), "lib"), (ran("dpkg-deb", "-c", made["deb"]), "lib/x86_64-linux-gnu/vrepl")):
        missing = [it for it in ("include/vrepl.h", f"{top}/libvrepl.a", f"{top}/libvrepl.so") if f"/{it}\n" not in listed]
        if missing:
            raise Failed(f"a package lacks {missing}")
    if shutil.which("lintian"):
        ran("lintian", "--fail-on", "error", made["deb"])


CHECKS = [
    *(exports_are_the_header, calls_from_c, header_is_c_plus_plus, calls_with_sanitizers, calls_under_valgrind, calls_from_python),
    *(same_answers, installed_by_pip, plugin_of_pytest, calls_from_rust, programs_of_the_page, packages_with_the_library),
]


def main(*given):
    if len(given) not in (1, 2):
        sys.exit(__doc__)

    def many(room, program):
        same_answers_of_many(room, program, int(given[1]))

    checks = CHECKS if len(given) == 1 else [many]
    program = os.path.abspath(given[0])
    if not shutil.which("rt"):
        print("the library for other languages: not tried, since the toolchain isn't installed")
        print("0 passed, 0 failed")
        return 0
    built = subprocess.run([os.path.join(ROOT, "scripts", "library")], stdin=subprocess.DEVNULL, check=False)
    if built.returncode:
        print("the library isn't built")
        print("0 passed, 1 failed")
        return 1
    passed = failed = 0
    for check in checks:
        with tempfile.TemporaryDirectory() as room:
            try:
                check(room, program)
                passed += 1
            except Left as why:
                print(f"{check.__name__}: not tried, since {why}")
            except (Failed, OSError) as why:
                print(f"{check.__name__}: {why}")
                failed += 1
    print(f"{passed} passed, {failed} failed")
    return 1 if failed else 0


if __name__ == "__main__":
    if not sys.argv[1:] or sys.argv[1] == "--help":
        sys.exit(__doc__)
    sys.exit(main(*sys.argv[1:]))
