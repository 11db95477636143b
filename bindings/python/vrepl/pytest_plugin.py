"""What pytest has by this module: `vrepl_feed` writes feeds by hand, `assert_target_equals` holds a target to its feeds.

    def test_my_engine(vrepl_feed, assert_target_equals):
        feed = vrepl_feed({"t": {"id": "INT64", "v": "VARCHAR"}}).insert("t", (1, "a"), (2, "b"))
        assert_target_equals(feed.workflow("-"), [feed], dump_of(my_engine(bytes(feed))))
"""
from collections.abc import Sequence

import pytest

from . import program
from .compared import Dump
from .feed import Feed


@pytest.fixture
def vrepl_feed() -> type[Feed]:
    """Writes feeds by hand: `vrepl.Feed`."""
    return Feed


@pytest.fixture
def assert_target_equals():
    """Holds a target's dump to what a workflow's feeds make of it, and tells the first keys at which they differ."""

    def assert_equals(workflow: program.Workflow, feeds: Sequence[program.Given], dump: program.Given | Dump) -> None:
        __tracebackhide__ = True
        found = program.vdiff(workflow, program.run(workflow, *feeds), dump)
        if not found:
            told = "\n".join(f"  table {it.table}, key {it.key}: wanted {it.source}, found {it.target}" for it in found.differences)
            pytest.fail(f"{found.processed - found.matching} of {found.processed} keys differ from what the feeds make:\n{told}", pytrace=False)

    return assert_equals
