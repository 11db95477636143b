"""Scripts of steps on one board, each step of which is made again after each of its growths was refused."""
import os
import random
import subprocess

from model import Refused, making, program as model, random_case
from model.board import Board, read_script

# A script has always as many lines, so that reading it takes the same growths: behind its steps stand these,
# which are refused and take no memory.
LINES = 1000
STILL, REFUSED_STILL = b"restart 255\n", b"refused 115\n"
WANT = b"refused 72\n"

BOTH = b"".join(b"offer %d 1\nadvance %d\nopen %d 1\ncopy %d 1\n" % ((s,) * 4) for s in (0, 1))
AHEAD = b"offer 0 1\noffer 0 2\nopen 0 2\nadvance 0\nadvance 0\ncopy 0 1\ncopy 0 9\noffer 0 3\nadvance 0\nstate 0\ndump\n"
WORKED = {
    "a mark within the table": (making.ONE, [making.MOVING], making.NINE_STEPS + b"dump\n" + making.TO_THE_END),
    "a snapshot ahead": (making.ONE, [making.MOVING], AHEAD),
    "two streams": (making.TWO, [making.MOVING, making.UPPER], BOTH + b"offer 1 2\nadvance 1\nstate 1\ndump\n"),
    "two streams at one key": (making.TWO, [making.LOWER, making.SAME_KEY], BOTH + b"offer 0 2\nadvance 0\ncopy 1 1\ndump\n"),
}


class Script:
    """A script that the program answers, over files in a folder, with growths that are refused."""

    def __init__(self, program, library, place, words, files):
        self.words, self.place = [program, *words], place
        self.told = {**os.environ, "LD_PRELOAD": library, "GROWTHS": os.path.join(place, "growths")}
        self.steps, self.said, self.refused, self.spared = [], b"", [], 0
        for name, data in files.items():
            self.write(name, data)
        self.at = self.reply(STILL, [])[1]

    def write(self, name, data):
        with open(os.path.join(self.place, name), "wb") as file:
            file.write(data)

    def reply(self, step, refused):
        """What a step behind the others answers, and how many growths there were then."""
        steps = [*self.steps, step]
        self.write("script", b"".join(steps) + STILL * (LINES - len(steps)))
        told = self.told | {"REFUSE_GROWTH": ",".join(map(str, [*self.refused, *refused]))}
        with open(os.path.join(self.place, "script"), "rb") as script:
            ran = subprocess.run(self.words, stdin=script, capture_output=True, cwd=self.place, env=told, timeout=60)
        with open(self.told["GROWTHS"], encoding="ascii") as file:
            growths = int(file.read())
        still = REFUSED_STILL * (LINES - len(steps))
        if (ran.returncode, ran.stderr) != (0, b"") or not (ran.stdout.startswith(self.said) and ran.stdout.endswith(still)):
            return f"status {ran.returncode}, error {ran.stderr!r}, output {ran.stdout[: -len(still)]!r}", growths
        return ran.stdout[len(self.said) : -len(still)], growths

    def take(self, step, wanted):
        """Takes a step, again and again with its first growth refused, then its second, until none is.

        Each time it is answered `refused 72`, and the next try stands behind that one, or as it is wanted, where it does
        without the memory. Answers what else it was answered, or nothing.
        """
        tried = 0
        while True:
            tried += 1
            refused = self.at + tried
            reply, growths = self.reply(step, [refused])
            is_refused = growths >= refused
            if reply != wanted and not (is_refused and reply == WANT):
                return f"{reply!r} where growth {refused} of {growths} is refused, wanted {wanted!r}"
            if is_refused and reply == wanted:
                self.spared += 1
                continue
            self.steps.append(step)
            self.said += reply
            self.at = growths
            if not is_refused:
                return None
            self.refused.append(refused)


def sweep(program, library, place, words, files, script):
    """Answers why some reply isn't the model's, or nothing; and how many growths were refused, and how many of them were spared."""
    board = Board(*model.opened("--hex" in words, *given(words, files)))
    it, fault = Script(program, library, place, words, files), None
    for step in read_script(script):
        fault = fault or it.take(" ".join(map(str, step)).encode() + b"\n", board.reply(step))
    return fault, len(it.refused) + it.spared, it.spared


def worked():
    for title, (workflow, feeds, script) in WORKED.items():
        files = {"workflow": workflow} | {f"feed{s}": it for s, it in enumerate(feeds)}
        yield title, ["step", *files], files, script


def at_random(number):
    """Some scripts of the fuzzer's that the program takes, and how it is called."""
    found, at = 0, 0
    while found < number:
        at += 1
        case = random_case.Case(random.Random(f"steps/{at}"))
        try:
            is_taken = case.words[0] == "step" and len(model.step(case.is_hex, *given(case.words, case.files), case.stdin)) > 150
        except (Refused, KeyError):
            is_taken = False
        if is_taken:
            found += 1
            yield f"random script {at}", case.words, case.files, case.stdin


def given(words, files):
    return files["workflow"], [files[it] for it in words if it.startswith("feed")]
