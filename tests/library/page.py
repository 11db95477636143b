"""Runs the programs of docs/LIBRARY.md, each of which has to print what stands under it."""
import os
import re
import subprocess
import sys

ROOT = os.path.dirname(os.path.dirname(os.path.dirname(os.path.abspath(__file__))))
LIBRARY = os.path.dirname(os.environ["VREPL_LIBRARY"])
MANIFEST = '[package]\nname = "page"\nversion = "0.1.0"\nedition = "2021"\n\n[dependencies]\nvrepl = {{ path = "{}" }}\n\n[workspace]\n'


def run_c(code):
    with open("page.c", "w", encoding="utf-8") as file:
        file.write(code)
    subprocess.run(["cc", "-Wall", "-Wextra", "-Werror", "-I", os.path.join(ROOT, "include"), "page.c", os.path.join(LIBRARY, "libvrepl.a"), "-o", "page"], check=True)
    return ["./page"], {}


def run_python(code):
    with open("page.py", "w", encoding="utf-8") as file:
        file.write(code)
    return [sys.executable, "-B", "page.py"], {}


def run_rust(code):
    os.makedirs("page_of_rust/src", exist_ok=True)
    with open("page_of_rust/src/main.rs", "w", encoding="utf-8") as file:
        file.write(code)
    with open("page_of_rust/Cargo.toml", "w", encoding="utf-8") as file:
        file.write(MANIFEST.format(os.path.join(ROOT, "bindings", "rust", "vrepl")))
    return ["cargo", "run", "--offline", "--quiet", "--manifest-path", "page_of_rust/Cargo.toml"], {"VREPL_LIBRARY_DIR": LIBRARY}


RUN = {"c": run_c, "python": run_python, "rust": run_rust}


def main():
    with open(os.path.join(ROOT, "docs", "LIBRARY.md"), encoding="utf-8") as file:
        blocks = re.findall(r"```(\w+)\n(.*?)```\n", file.read(), re.S)
    tried = []
    for (language, code), (under, wanted) in zip(blocks[::2], blocks[1::2], strict=True):
        assert under == "text", f"a block of {under} stands under one of {language}"
        if language == "rust" and subprocess.run(["cargo", "--version"], capture_output=True, check=False).returncode:
            continue
        words, more = RUN[language](code)
        ran = subprocess.run(words, capture_output=True, text=True, env={**os.environ, **more, "CARGO_NET_OFFLINE": "true"}, check=False)
        if (ran.returncode, ran.stdout) != (0, wanted):
            sys.exit(f"the program of {language}: status {ran.returncode}, prints\n{ran.stdout}{ran.stderr}and not\n{wanted}")
        tried.append(language)
    assert {"c", "python"} <= set(tried) <= set(RUN)


main()
