"""What the program's refusal means, and where it stands, as one line."""
import json
import re
import subprocess

PLACED = ("52", "56", "81", "82", "85")
"""The numbers of which `check` says the place too."""


def said_of(command: list[str], told: str, status: int, look: list[str] | None = None) -> str:
    """Of what a command that ended with this status told: the refusal, what its number means, and its place, where there
    is one. That may be asked of another command, a `check` of the same files."""
    lines = _from_refusal(told)
    number = re.match(r"refused (\d+)", lines[0])
    if not number:
        return lines[0] or f"{command[1]} ended with status {status}"
    if look and number[1] in PLACED:
        asked = _from_refusal(_answer(look).stderr)
        lines += asked[1:] if asked[0] == lines[0] else []
    first = _answer([command[0], "explain", number[1]]).stdout.partition("\n")[0]
    meaning = first.removeprefix(number[1]).strip()
    place = [line for line in lines[1:] if line.startswith("place ")]
    return "; ".join([f"{lines[0]}: {meaning}" if meaning else lines[0], *place[:1]])


def _from_refusal(told: str) -> list[str]:
    """The lines from the refusal on, before which may stand how far the command was; all where there is none. One of JSON
    is as the lines in its place."""
    lines = _plain(told.strip()).split("\n")
    return lines[next((at for at, line in enumerate(lines) if line.startswith("refused ")), 0):]


def _plain(told: str) -> str:
    """A refusal of JSON as the lines in its place, anything else as it is."""
    if not told.startswith("{"):
        return told
    said = json.loads(told)
    words = "".join(f" {word} {value}" for word, value in said["details"].items())
    return "\n".join([f"refused {said['refused']}{words}", *([f"place {said['place']}"] if said["place"] else [])])


def _answer(command: list[str]) -> subprocess.CompletedProcess:
    try:
        return subprocess.run(command, stdin=subprocess.DEVNULL, capture_output=True, text=True, errors="replace", check=False)
    except OSError:
        return subprocess.CompletedProcess(command, 1, "", "")
