"""Which statements about a table leave its columns, its rows and its primary key as they are: those that make, add
or drop an index, and an ALTER TABLE of which each action is of the few kinds that are read here.

The grammar is that of "ALTER TABLE" and "CREATE INDEX" of MariaDB's knowledge base. What isn't wholly of it
isn't one of these statements.
"""
import re

from .words import Walk

_UNSURE = re.compile(r"\\|/\*M?!|\ufffd")
"""What another server reads otherwise than this one: escapes (by the SQL mode), executable comments (by the
version), and what isn't UTF-8."""
_CHOICES = {"ALGORITHM": ("DEFAULT", "INPLACE", "COPY", "NOCOPY", "INSTANT"), "LOCK": ("DEFAULT", "NONE", "SHARED", "EXCLUSIVE")}


def has_one_meaning(text: str) -> bool:
    """Whether every server of every mode cuts a statement's text alike."""
    return not _UNSURE.search(text)


def leaves_key(walk: Walk) -> bool:
    """Whether the index that is named here, behind DROP INDEX, isn't the primary key."""
    walk.skip("IF", "EXISTS")
    return not walk.is_at_end and walk.take().text.upper() != "PRIMARY"


def leaves_table(walk: Walk) -> bool:
    """Whether all actions of an ALTER TABLE, behind the table's name, leave it as it is."""
    if walk.skip("WAIT"):
        walk.take_number()
    walk.skip("NOWAIT")
    while _leaves(walk):
        if walk.is_at_end:
            return True
        if not walk.skip(","):
            break
    return False


def _leaves(walk: Walk) -> bool:
    """Steps over one action, if it is one that leaves the table as it is."""
    if walk.skip("ADD"):
        return _skip_kind(walk) and _skip_index(walk)
    if walk.skip("DROP"):
        return walk.take_one("INDEX", "KEY") and leaves_key(walk)
    if walk.skip("FORCE"):
        return True
    for word, choices in _CHOICES.items():
        if walk.skip(word):
            walk.skip("=")
            return walk.take_one(*choices)
    return _skip_options(walk)


def _skip_kind(walk: Walk) -> bool:
    """Steps over the words behind ADD that say what index it is, if it is one and not the primary key."""
    if walk.skip("CONSTRAINT"):
        if not walk.is_at("UNIQUE"):
            walk.take()
        if not walk.is_at("UNIQUE"):
            return False
    if walk.take_one("UNIQUE", "FULLTEXT", "SPATIAL"):
        walk.take_one("INDEX", "KEY")
        return True
    return walk.take_one("INDEX", "KEY")


def _skip_index(walk: Walk) -> bool:
    """Steps over an index's name, its columns and its options."""
    walk.skip("IF", "NOT", "EXISTS")
    if not (walk.is_at("(") or walk.is_at("USING")):
        walk.take()
    if walk.skip("USING") and not walk.take_one("BTREE", "HASH", "RTREE"):
        return False
    return walk.skip_parenthesis() and _skip_index_options(walk)


def _skip_index_options(walk: Walk) -> bool:
    while not (walk.is_at_end or walk.is_at(",")):
        if walk.skip("KEY_BLOCK_SIZE"):
            walk.skip("=")
            known = walk.take_number()
        elif walk.skip("USING"):
            known = walk.take_one("BTREE", "HASH", "RTREE")
        elif walk.skip("COMMENT"):
            known = walk.take_text()
        else:
            known = walk.skip("IGNORED") or walk.skip("NOT", "IGNORED")
        if not known:
            return False
    return True


def _skip_options(walk: Walk) -> bool:
    """Steps over options of the table, one at least, that say nothing of its rows."""
    while True:
        if walk.skip("COMMENT"):
            walk.skip("=")
            known = walk.take_text()
        elif walk.skip("AUTO_INCREMENT"):
            walk.skip("=")
            known = walk.take_number()
        elif walk.skip("ENGINE"):
            walk.skip("=")
            known = not walk.is_at_end and walk.take().text.strip("'").upper() == "INNODB"
        else:
            known = False
        if not known or walk.is_at_end or walk.is_at(","):
            return known
