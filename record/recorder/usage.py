"""The words of a command line, among which shards and key ranges may begin with a minus."""
import re
import sys

RANGED = ("--shard", "--shards", "--filter", "--targets")
_RANGES = re.compile(r"-[0-9a-fA-F,-]*")


def given() -> list[str]:
    """The words that this process was given; what stands behind one of these options is one word with it, as `--shard=-c0`, since
    by itself it would be taken for an option."""
    words: list[str] = []
    for word in sys.argv[1:]:
        if words and words[-1] in RANGED and _RANGES.fullmatch(word):
            words[-1] += f"={word}"
        else:
            words.append(word)
    return words
