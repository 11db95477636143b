#!/usr/bin/env python3
"""Compares what the tests hold of messages with what Google's protobuf library writes and reads.

usage: tests/run_protobuf.py

The tests of reading_tests read the samples of crates/reading_tests/src/wire/samples.rt and write them again, byte
for byte. Here that file has to be what the library writes of the same values today, and the library
has to read each sample as its value. Where python3-protobuf isn't installed nothing is compared, and
the script says so and counts nothing. The last line is 'N passed, M failed': one a sample.
"""
import importlib.util
import os
import re
import subprocess
import sys

ROOT = os.path.dirname(os.path.dirname(os.path.abspath(__file__)))
SAMPLES = os.path.join(ROOT, "crates", "reading_tests", "src", "wire", "samples.rt")
WRITER = os.path.join(ROOT, "crates", "reading_tests", "samples", "write_samples.py")


def has_library():
    try:
        return importlib.util.find_spec("google.protobuf") is not None
    except ModuleNotFoundError:
        return False


def other_python():
    """The machine's own Python, if it isn't this one and has the library."""
    own = "/usr/bin/python3"
    if os.environ.get("OWN_PYTHON") or not os.access(own, os.X_OK):
        return None
    asked = subprocess.run([own, "-c", "import google.protobuf"], stdin=subprocess.DEVNULL, stderr=subprocess.DEVNULL)
    return own if asked.returncode == 0 else None


def writer():
    spec = importlib.util.spec_from_file_location("write_samples", WRITER)
    made = importlib.util.module_from_spec(spec)
    sys.dont_write_bytecode = True
    spec.loader.exec_module(made)
    return made


def kept_samples():
    """The bytes of each constant of samples.rt, by its name."""
    with open(SAMPLES, encoding="utf-8") as file:
        found = re.findall(r"const (\w+): \[u8; \d+\] = \[([^\]]*)\];", file.read())
    return {name: bytes(int(byte, 16) for byte in re.findall(r"0x[0-9a-f]{2}", body)) for name, body in found}


def fault_of(kept, made):
    """Why the bytes aren't what the library writes and reads of a message, or nothing."""
    if kept is None:
        return "isn't in samples.rt"
    if kept != made.SerializeToString(deterministic=True):
        return "isn't what the library writes"
    return None if type(made).FromString(kept) == made else "is read as another value"


def main():
    if not has_library():
        own = other_python()
        if own:
            return subprocess.run([own, os.path.abspath(__file__)], env={**os.environ, "OWN_PYTHON": "1"}).returncode
        print("python3-protobuf is not installed: nothing was compared with it\n0 passed, 0 failed")
        return 0
    kept = kept_samples()
    samples = writer().samples()
    faults = {name: fault_of(kept.get(name), made) for name, _, made in samples}
    faults.update({name: "isn't one of write_samples.py" for name in kept if name not in faults})
    for name, fault in faults.items():
        if fault:
            print(f"{name}: {fault}")
    failed = sum(fault is not None for fault in faults.values())
    print(f"{len(faults) - failed} passed, {failed} failed")
    return 1 if failed else 0


sys.exit(main())
