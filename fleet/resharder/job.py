"""What is asked for: a file of JSON with the feeds by source shard, and the workflows by target shard."""
import json
import os
from dataclasses import dataclass

from .stop import Stop

PROGRAM = os.path.join(os.path.dirname(os.path.dirname(os.path.dirname(os.path.abspath(__file__)))), "vrepl")


@dataclass(frozen=True)
class Target:
    """A target shard: its workflow, the feeds of its streams in their order, and the folder of its results."""

    name: str
    workflow: str
    feeds: tuple[str, ...]
    shards: tuple[str, ...]
    """Those of its streams."""
    folder: str
    wanted: str | None = None
    """A dump that its own is compared with."""

    def stream_file(self, stream: int) -> str:
        return os.path.join(self.folder, f"stream-{stream}.checkpoint")

    @property
    def checkpoint(self) -> str:
        return os.path.join(self.folder, "target.checkpoint")

    @property
    def dump(self) -> str:
        return os.path.join(self.folder, "target.dump")


@dataclass(frozen=True)
class Job:
    """All targets, the program that fills them, and the engine on which it does."""

    targets: tuple[Target, ...]
    feeds: dict[str, str]
    """By source shard."""
    program: str = PROGRAM
    is_hex: bool = False
    cluster: str | None = None
    """The address of a cluster that runs; processes of this machine where there is none."""
    workers: int | None = None
    """How many processes, where they are this machine's; as many as there are cores unless given."""
    is_partial: bool = False
    """Whether these targets are some of a reshard's: then nobody looks whether each row is in one."""

    @property
    def shards(self) -> list[str]:
        """The source shards that a target reads."""
        return list(dict.fromkeys(shard for target in self.targets for shard in target.shards))


def read_job(name: str) -> Job:
    """The job that a file says. Stops where it says none. Files are named from the folder of the file on."""
    try:
        with open(name, encoding="utf-8") as file:
            return _job(json.load(file), os.path.dirname(os.path.abspath(name)))
    except OSError as fault:
        raise Stop(f"{name} can't be read: {fault.strerror}") from None
    except (ValueError, KeyError, TypeError, AttributeError) as fault:
        raise Stop(f"{name} is no job: {fault!r}; fleet/README.md has one") from None


def _job(said: dict, folder: str) -> Job:
    def path(name: str) -> str:
        return os.path.join(folder, name)

    unknown = said.keys() - {"feeds", "workflows", "results", "wanted", "program", "hex", "cluster", "workers", "partial"}
    if unknown:
        raise Stop(f"{min(unknown)} isn't among what a job says; fleet/README.md has all of it")
    feeds = {shard: path(name) for shard, name in said["feeds"].items()}
    results, wanted = path(said["results"]), said.get("wanted", {})
    if wanted.keys() - said["workflows"].keys():
        raise Stop(f"{min(wanted.keys() - said['workflows'].keys())} has a wanted dump and no workflow")
    targets = [_target(name, path(file), feeds, results, wanted.get(name) and path(wanted[name])) for name, file in said["workflows"].items()]
    if not targets:
        raise Stop("a job without workflows")
    program = path(said["program"]) if "program" in said else PROGRAM
    return Job(tuple(targets), feeds, program, bool(said.get("hex")), said.get("cluster"), said.get("workers"), bool(said.get("partial")))


def _target(name: str, workflow: str, feeds: dict[str, str], results: str, wanted: str | None) -> Target:
    if not name or name in (".", "..") or os.sep in name:
        raise Stop(f"a target's name is that of a folder too, and {name!r} is none")
    try:
        with open(workflow, encoding="utf-8") as file:
            shards = [stream["shard"] for stream in json.load(file)["streams"]]
    except OSError as fault:
        raise Stop(f"{workflow} can't be read: {fault.strerror}") from None
    except (ValueError, KeyError, TypeError) as fault:
        raise Stop(f"{workflow} is no workflow file: {fault!r}") from None
    lacking = [shard for shard in shards if shard not in feeds]
    if lacking:
        raise Stop(f"target {name} reads shard {lacking[0]}, which has no feed")
    return Target(name, workflow, tuple(feeds[shard] for shard in shards), tuple(shards), os.path.join(results, name), wanted)
