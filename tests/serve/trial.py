"""What a test counts: a folder for files, the programs, and what was seen."""
import os


class Trial:
    """`program` says what the rows have to be, `live` is what is run for `vrepl live`. What `is_brief` prints no check that passes."""

    def __init__(self, folder: str, program: str | None, live: str, picture: str | None = None, is_brief: bool = False) -> None:
        self.folder, self.program, self.live, self.picture, self.passed, self.failed, self.step = folder, program, live, picture, 0, 0, ""
        self._is_brief = is_brief

    def path(self, *name: str) -> str:
        return os.path.join(self.folder, *name)

    def put(self, name: str, data: bytes) -> str:
        with open(self.path(name), "wb") as file:
            file.write(data)
        return self.path(name)

    def check(self, name: str, holds: object, why: object = "") -> None:
        """Counts a check."""
        self.passed, self.failed = self.passed + bool(holds), self.failed + (not holds)
        if not holds or not self._is_brief:
            print(f"  {self.step}: {name}" if holds else f"FAILED {self.step}: {name}: {str(why)[:900]}", flush=True)

    def note(self, text: str) -> None:
        print(f"  {self.step}: {text}", flush=True)

    def leave_out(self, name: str, package: str) -> None:
        self.note(f"{name}: not tried, since {package} isn't installed")
