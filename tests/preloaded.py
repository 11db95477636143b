"""Libraries in C that are loaded before a program's own: refuse_growth.c, short_calls.c and hold_calls.c."""
import functools
import os
import subprocess

TESTS = os.path.dirname(os.path.abspath(__file__))


def toolchain(path):
    """A file of the toolchain, by its path from the folder of `rt`."""
    rt = subprocess.run(["sh", "-c", "command -v rt"], stdout=subprocess.PIPE, text=True).stdout.strip()
    return os.path.join(os.path.dirname(os.path.realpath(rt)), path)


@functools.cache
def library(room, name):
    """Compiles NAME.c into a folder by the toolchain's clang, or by the machine's where that is not found."""
    clang = toolchain("../toolchain/bin/clang")
    compiler = clang if os.path.exists(clang) else "cc"
    made = os.path.join(room, f"{name}.so")
    words = ["-O1", "-shared", "-fPIC", "-nostdlib", *["-fuse-ld=lld"] * (compiler == clang)]
    subprocess.run([compiler, *words, "-o", made, os.path.join(TESTS, f"{name}.c")], check=True)
    return made
