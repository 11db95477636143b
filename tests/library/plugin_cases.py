"""Cases of pytest by the plugin: two that pass and two that fail."""
TABLES = {"t": {"id": "INT64", "v": "VARCHAR"}}


def test_same_target(vrepl_feed, assert_target_equals):
    feed = vrepl_feed(TABLES).insert("t", (1, "a"), (2, "b"))
    assert_target_equals(feed.workflow("-"), [feed], b"table t\nx31\tx61\nx32\tx62\n")


def test_two_shards(vrepl_feed, assert_target_equals):
    lower, upper = vrepl_feed(TABLES).insert("t", (1, "a")), vrepl_feed(TABLES, "3e11fa47-71ca-11e1-9e33-c80aa9429563").insert("t", (2, "b"))
    assert_target_equals(lower.workflow("-80", "80-"), [lower, upper], b"table t\nx31\tx61\nx32\tx62\n")


def test_another_value(vrepl_feed, assert_target_equals):
    feed = vrepl_feed(TABLES).insert("t", (1, "a"), (2, "b"))
    assert_target_equals(feed.workflow("-"), [feed], b"table t\nx31\tx61\nx32\tx78\n")


def test_a_row_that_is_missing(vrepl_feed, assert_target_equals):
    feed = vrepl_feed(TABLES).insert("t", (1, "a"))
    assert_target_equals(feed.workflow("-"), [feed], b"table t\n")
