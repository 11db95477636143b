#!/usr/bin/env python3
"""Shows that `make install` puts the program in place, and what is in the packages of ./release --packages.

usage: tests/run_packages.py

Each check runs in copies of the checkout, as another user than root where it may: what is installed is just what
the Makefile names, runs, and is taken away again; nothing is installed of a program of other sources; packages that
are built in two places, by two users and with other times are the same byte by byte; what is unpacked of each is the
program in dist/, and the .deb is installed into a root of its own by dpkg and removed again; and the writers of messages are
one file, which the module has in the checkout, in its wheel and in its archive. Where make or dpkg isn't
installed the script says so and counts nothing, and where lintian isn't that check alone. The last line is
'N passed, M failed': one a check.
"""
import filecmp
import os
import shutil
import subprocess
import sys
import tarfile
import tempfile
import zipfile

import run_dist

INSTALLED = ["bin/vrepl", "lib/vrepl/vrepl", "share/bash-completion/completions/vrepl", "share/doc/vrepl/LICENSE", "share/doc/vrepl/SOURCES", "share/man/man1/vrepl.1", "share/zsh/site-functions/_vrepl"]
IN_DEB = [
    *("usr/bin/vrepl", "usr/lib/vrepl/vrepl", "usr/share/bash-completion/completions/vrepl", "usr/share/doc/vrepl/SOURCES", "usr/share/doc/vrepl/changelog.gz", "usr/share/doc/vrepl/copyright"),
    *("usr/share/lintian/overrides/vrepl", "usr/share/man/man1/vrepl.1.gz", "usr/share/zsh/vendor-completions/_vrepl"),
]  # fmt: skip
CARRIED = os.path.join(run_dist.ROOT, run_dist.CARRIED)
OTHER = run_dist.NOBODY if os.geteuid() == 0 else None


def files_below(folder):
    return sorted(os.path.relpath(os.path.join(at, name), folder) for at, _, names in os.walk(folder) for name in names)


def folder_of(room, name, user=None):
    """A new folder, of a user."""
    place = os.path.join(room.folder, name)
    os.mkdir(place)
    if user is not None:
        os.chown(place, user, user)
    return place


def given_to(place, user):
    """Gives a copy to a user, with all in it."""
    if user is not None:
        subprocess.run(["chown", "-R", f"{user}:{user}", place], check=True)
    return place


def is_the_program(path):
    """What isn't as wanted of an installed program, which a script starts at a path, by a link too, or nothing."""
    program = os.path.join(os.path.dirname(path), "../lib/vrepl/vrepl")
    if not filecmp.cmp(program, CARRIED, shallow=False):
        return f"{program} isn't the program in dist/"
    sums = os.path.join(os.path.dirname(path), "../share/doc/vrepl/SOURCES")
    if not filecmp.cmp(sums, os.path.join(run_dist.ROOT, "dist/SOURCES"), shallow=False):
        return f"{sums} isn't dist/SOURCES"
    link = os.path.join(tempfile.mkdtemp(), "a link")
    os.symlink(os.path.abspath(path), link)
    os.chmod(os.path.dirname(link), 0o755)
    for command in path, link:
        ran = subprocess.run([command, "show", "--hex", os.path.join(run_dist.ROOT, "examples/one_insert.hex")], capture_output=True, user=OTHER, check=False)
        fault = run_dist.wanted((ran.returncode, ran.stdout, ran.stderr.decode()))
        if fault:
            break
    shutil.rmtree(os.path.dirname(link))
    return fault or asks_for_large_pages(path)


def asks_for_large_pages(path):
    """Whether what a script starts has the variable by which the C library asks, unless it is set."""
    fault = None
    for told, said in ({}, run_dist.LARGE_PAGES), ({"GLIBC_TUNABLES": ""}, b""):
        with tempfile.TemporaryDirectory() as folder:
            for it in "bin", "lib/vrepl":
                os.makedirs(os.path.join(folder, it))
            shutil.copy(path, os.path.join(folder, "bin/vrepl"))
            run_dist.write(os.path.join(folder, "lib/vrepl/vrepl"), run_dist.TELLS)
            os.chmod(os.path.join(folder, "lib/vrepl/vrepl"), 0o755)
            plain = {key: value for key, value in os.environ.items() if key != "GLIBC_TUNABLES"}
            ran = subprocess.run([os.path.join(folder, "bin/vrepl")], capture_output=True, env=plain | told, check=False)
            fault = fault or run_dist.wanted((ran.returncode, ran.stdout, ran.stderr.decode()), 0, said)
    return fault


def failed(ran):
    return None if ran[0] == 0 else f"status {ran[0]}, error {ran[2]}"


def installs_as_any_user(room):
    place, prefix = folder_of(room, "installed by a user", OTHER), os.path.join(room.folder, "installed by a user/a prefix")
    for _ in range(2):
        fault = failed(room.run(room.plain, "install", f"PREFIX={prefix}", command="make", user=OTHER))
        if fault or files_below(prefix) != INSTALLED:
            return fault or f"there are {files_below(prefix)}"
    modes = {it: os.stat(os.path.join(prefix, it)).st_mode & 0o777 for it in INSTALLED}
    if any(mode != (0o755 if it.endswith("/vrepl") and it.startswith(("bin", "lib")) else 0o644) for it, mode in modes.items()):
        return f"the modes are {modes}"
    fault = is_the_program(os.path.join(prefix, "bin/vrepl"))
    fault = fault or failed(room.run(room.plain, "uninstall", f"PREFIX={prefix}", command="make", user=OTHER))
    return fault or (f"{files_below(place)} is left" if files_below(place) else None)


def installs_no_program_of_other_sources(room):
    prefix = folder_of(room, "nothing")
    with run_dist.longer(os.path.join(room.plain, run_dist.SOURCE)):
        ran = room.run(room.plain, "install", f"PREFIX={prefix}", command="make")
    is_said = ran[0] != 0 and "no program of these sources" in ran[2]
    return None if is_said and not files_below(prefix) else f"status {ran[0]}, error {ran[2]}, there are {files_below(prefix)}"


def packages_are_the_same(room):
    one, other = room.copy("one place"), given_to(room.copy("another place with a longer name"), OTHER)
    subprocess.run(["find", other, "-exec", "touch", "-h", "-d", "2001-02-03", "--", "{}", "+"], check=True)
    fault = failed(room.run(one, "--packages", command="./release", TZ="Asia/Tokyo"))
    fault = fault or failed(room.run(other, "-c", "umask 077; exec ./release --packages", command="bash", user=OTHER, LC_ALL="C.UTF-8"))
    if fault:
        return fault
    room.packages = os.path.join(one, "packages")
    names = files_below(room.packages)
    if len(names) != 3 or names != files_below(os.path.join(other, "packages")):
        return f"there are {names}"
    different = [it for it in names if not filecmp.cmp(os.path.join(room.packages, it), os.path.join(other, "packages", it), shallow=False)]
    told = subprocess.run(["sha256sum", "--check", "--quiet", "SHA256SUMS"], cwd=room.packages, capture_output=True, text=True, check=False)
    return f"{different} differ" if different else told.stdout or None


def package(room, ending):
    return next(os.path.join(room.packages, it) for it in os.listdir(room.packages) if it.endswith(ending))


def version():
    said = subprocess.run([CARRIED, "--version"], capture_output=True, text=True, check=True).stdout
    return said.removeprefix("vrepl ").partition(",")[0]


def tarball_has_the_program(room):
    place = folder_of(room, "unpacked")
    subprocess.run(["tar", "-xzf", package(room, ".tar.gz"), "-C", place], check=True)
    top = f"vrepl-{version()}-x86_64-linux"
    wanted = [f"{top}/{it}" for it in sorted([*INSTALLED, "share/doc/vrepl/CHANGELOG.md", "share/doc/vrepl/README.md"])]
    found = files_below(place)
    return f"there are {found}" if found != wanted else is_the_program(os.path.join(place, top, "bin/vrepl"))


def deb_is_installed_and_removed(room):
    """Into a root of its own, so that it stands beside nothing; without the C library's package there."""
    root = folder_of(room, "root")
    for it in "var/lib/dpkg/info", "var/lib/dpkg/updates":
        os.makedirs(os.path.join(root, it))
    run_dist.write(os.path.join(root, "var/lib/dpkg/status"), "")
    dpkg = ["dpkg", f"--root={root}", "--force-not-root", "--force-depends", "--log=/dev/null"]
    told = os.environ | {"PATH": f"{os.environ['PATH']}:/usr/sbin:/sbin"}
    how = {"capture_output": True, "text": True, "env": told, "check": False}
    ran = subprocess.run([*dpkg, "--install", package(room, ".deb")], **how)
    found = [it for it in files_below(root) if it.startswith("usr/")]
    if ran.returncode or found != IN_DEB:
        return f"{ran.stderr} there are {found}"
    said = subprocess.run([*dpkg, "--status", "vrepl"], **how).stdout
    fault = None if f"\nVersion: {version()}\n" in said and "\nStatus: install ok installed\n" in said else said
    fault = fault or subprocess.run([*dpkg, "--verify", "vrepl"], **how).stdout or is_the_program(os.path.join(root, "usr/bin/vrepl"))
    ran = subprocess.run([*dpkg, "--purge", "vrepl"], **how)
    left = [it for it in files_below(root) if it.startswith("usr/")]
    return fault or (f"{ran.stderr} {left} is left" if ran.returncode or left else None)


def lintian_finds_no_error(room):
    ran = subprocess.run(["lintian", "--fail-on", "error,warning", package(room, ".deb")], capture_output=True, text=True, check=False)
    return ran.stdout or None if ran.returncode else None


BUILDS = "import sys; sys.path.insert(0, 'bindings/python/build'); from build_wheel_of_vrepl import *; build_wheel(sys.argv[1]), build_sdist(sys.argv[1])"
IMPORTS = (
    "import os, sys; sys.path.insert(0, 'bindings/python'); import vrepl.wire, vrepl.feed; "
    "sys.exit(not os.path.samefile(vrepl.wire.__file__, 'record/recorder/wire.py'))"
)
WRITES = "from recorder.wire import EventType, event_bytes, message_bytes; print(message_bytes(event_bytes(EventType.BEGIN, 0)).hex())"


def built_module(room, place):
    """The folder with the wheel and the archive of a checkout, and a fault or nothing."""
    made = folder_of(room, f"made of {os.path.basename(place)}", OTHER)
    return made, failed(room.run(given_to(place, OTHER), "-B", "-c", BUILDS, made, command="/usr/bin/python3", user=OTHER))


def writers_stand_once(room):
    """The module's writers are the recorder's file: in the checkout, where it takes them from there, and in what is built of it
    by any user, where they are that file's bytes; what is built of the archive is the same; and record/ by itself writes by
    them."""
    own = os.path.join(run_dist.ROOT, "record", "recorder", "wire.py")
    folders = [os.path.join(run_dist.ROOT, "bindings", "python", "vrepl"), os.path.dirname(own)]
    with_kinds = [it for at in folders for name in os.listdir(at) if name.endswith(".py") for it in [os.path.join(at, name)] if "class EventType" in read(it).decode()]
    if with_kinds != [own]:
        return f"kinds of events stand in {with_kinds}"
    checkout = room.copy("a checkout that imports")
    fault = failed(room.run(given_to(checkout, OTHER), "-B", "-c", IMPORTS, command="/usr/bin/python3", user=OTHER))
    if fault:
        return fault
    made, fault = built_module(room, room.copy("a module"))
    if fault:
        return fault
    names = files_below(made)
    with zipfile.ZipFile(os.path.join(made, names[0])) as wheel, tarfile.open(os.path.join(made, names[1])) as archive:
        top = names[1].removesuffix(".tar.gz")
        inside = [wheel.read("vrepl/wire.py"), archive.extractfile(f"{top}/record/recorder/wire.py").read()]
        unpacked = folder_of(room, "unpacked archive")
        subprocess.run(["tar", "-xzf", os.path.join(made, names[1]), "-C", unpacked], check=True)
    if inside != [read(own)] * 2:
        return "the wheel or the archive has other writers"
    again, fault = built_module(room, os.path.join(unpacked, top))
    if fault or any(not filecmp.cmp(os.path.join(made, it), os.path.join(again, it), shallow=False) for it in names):
        return fault or "what is built of the archive is another module"
    shutil.copytree(os.path.join(run_dist.ROOT, "record"), os.path.join(room.folder, "record alone"), symlinks=True, ignore=shutil.ignore_patterns("__pycache__"))
    ran = room.run(os.path.join(room.folder, "record alone"), "-B", "-c", WRITES, command="/usr/bin/python3")
    return failed(ran) or (None if ran[1] == b"040a020802\n" else f"record alone writes {ran[1]}")


def read(path):
    with open(path, "rb") as file:
        return file.read()


CHECKS = [
    *(installs_as_any_user, installs_no_program_of_other_sources, packages_are_the_same, tarball_has_the_program),
    *(deb_is_installed_and_removed, writers_stand_once),
]


def main():
    missing = [it for it in ("make", "dpkg-deb", "dpkg") if not shutil.which(it)]
    if missing:
        print(f"packages: not tried, since {', '.join(missing)} isn't installed\n0 passed, 0 failed")
        return 0
    checks = list(CHECKS)
    if shutil.which("lintian"):
        checks.append(lintian_finds_no_error)
    else:
        print("lintian_finds_no_error: not tried, since lintian isn't installed")
    count = 0
    with tempfile.TemporaryDirectory(prefix="vrepl-packages-") as folder:
        room = run_dist.Room(folder)
        for check in checks:
            try:
                why = check(room)
            except (OSError, subprocess.SubprocessError, AttributeError) as fault:
                why = str(fault)
            if why:
                print(f"packages {check.__name__}: {why}")
            count += bool(why)
    print(f"{len(checks) - count} passed, {count} failed")
    return 1 if count else 0


if __name__ == "__main__":
    sys.exit(main())
