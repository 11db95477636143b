"""What the program answers to its words, files and standard input: status, output and error."""
from . import Refused, checkpoint, refusal
from .board import Board, dump, key_text, read_script
from .check import check
from .feed import BadPosition, Feed, bytes_of_hex, is_within, read_position, show, show_json
from .told import place
from .vdiff import vdiff
from .workflow import Workflow

# Refusals of a workflow whose place the model doesn't know: tests of reading_tests hold these.
UNPLACED = ("51", "53", "54", "55", "57")


def without_place(error):
    """What is said on standard error, without the place where the model doesn't know it."""
    return refusal.without_place(error) if refusal.number_of(error) in UNPLACED else error


def opened(is_hex, workflow, feeds):
    workflow = Workflow(workflow)
    if len(feeds) != len(workflow.shards):
        raise Refused(119)
    said = []
    for shard, data in zip(workflow.shards, feeds):
        said.append(Feed(bytes_of_hex(data) if is_hex else data, workflow.keyspace, shard, workflow.columns))
    return workflow, said


def until(text, count):
    """The stream that a text of --until names, None for each, and the text of its position."""
    stream, equals, position = text.partition("=")
    if equals and int(stream) >= count:
        raise Refused(115)
    return (int(stream), position) if equals else (None, text)


def position_of(text):
    try:
        return read_position(text.encode())
    except BadPosition as bad:
        raise Refused(94, b" cause %d" % bad.args[0]) from None


def ended(feeds, texts):
    """Feeds up to the positions that are given: of each the groups that lie within the last one for it."""
    named = [until(it, len(feeds)) for it in texts]
    ends = [(stream, position_of(it)) for stream, it in named]
    for s, feed in enumerate(feeds):
        for position in [it for stream, it in ends if stream in (None, s)][-1:]:
            if not is_within(position, feed.seen):
                raise Refused(128, b" stream %d" % s)
            feed.groups = [it for it in feed.groups if is_within(it[0], position)]
    return feeds


def replies(board, steps):
    return b"".join(board.reply(it) for it in steps)


def step(is_hex, workflow, feeds, script):
    board = Board(*opened(is_hex, workflow, feeds))
    return replies(board, read_script(script))


def save(is_hex, workflow, feeds, script):
    board = Board(*opened(is_hex, workflow, feeds))
    replies(board, read_script(script))
    return checkpoint.save(board)


def save_told(is_hex, workflow, feeds, script, is_strict):
    """The status of `save`, its checkpoint, and what it says of steps that were refused."""
    board = Board(*opened(is_hex, workflow, feeds))
    said = [board.reply(it) for it in read_script(script)]
    refused = sum(it.startswith(b"refused ") for it in said)
    note = b"%d of %d steps were refused\n" % (refused, len(said)) if refused else b""
    return int(is_strict and refused > 0), checkpoint.save(board), note


def resume(is_hex, data, workflow, feeds, script):
    workflow, feeds = opened(is_hex, workflow, feeds)
    steps = read_script(script)
    return replies(checkpoint.resume(workflow, feeds, data), steps)


def join(is_hex, workflow, one, others, feeds):
    workflow, feeds = opened(is_hex, workflow, feeds)
    board = checkpoint.resume(workflow, feeds, one)
    for it in others:
        board = checkpoint.join(board, checkpoint.resume(workflow, feeds, it))
    return checkpoint.save(board)


def run_alone(is_hex, policy, texts, workflow, feeds):
    workflow, feeds = opened(is_hex, workflow, feeds)
    board = Board(workflow, ended(feeds, texts))
    for s in range(len(board.streams)):
        board.fill(s, *policy)
    return board.dump()


def run_in_threads(is_hex, policy, texts, workflow, feeds):
    """What `run` may answer in threads: the dump, if every schedule or some gives it, and the lines of refusals.

    A stream is refused 90 where its feed isn't sound, and may be refused 71 where another stream's row may
    stand. So where streams share no key there is one answer, and else it is one of those that are named here.
    """
    workflow, feeds = opened(is_hex, workflow, feeds)
    ended(feeds, texts)
    boards, unsound, at = [], [], {}
    for s in range(len(feeds)):
        board = Board(workflow, feeds)
        try:
            board.fill(s, *policy)
        except Refused as refused:
            unsound.append(refused)
        boards.append(board)
        for n in range(board.streams[s].read + 1):
            for key in board.passed(s, n):
                at.setdefault(key, set()).add(s)
    shared = {key: who for key, who in at.items() if len(who) > 1}
    if unsound and not shared:
        raise unsound[0]
    lines = {it.line for it in unsound}
    for (table, key), who in shared.items():
        lines |= {b"refused 71 table %s key %s owner %d\n" % (workflow.tables[table].name, key_text(key), s) for s in who}
    ends = [board.rows() for board in boards]
    whole = {key: row for rows in ends for key, row in rows.items()}
    may_end = not unsound and len(whole) == sum(map(len, ends))
    return dump(workflow, whole) if may_end else None, lines


def inputs(command, names, files, stdin):
    """The bytes of the files that are named; standard input is the first dump of `vdiff` that is named `-`."""
    hyphen = names.index("-", 1) if command == "vdiff" and "-" in names[1:] else None
    return [stdin if at == hyphen else files[name] for at, name in enumerate(names)]


def checked(is_hex, as_json, is_strict, text, names, feeds):
    """What `check` says; a refusal's line has the place behind it, if it has one."""
    try:
        said = opened(is_hex, text, feeds)
        return check(*said, names, [bytes_of_hex(it) if is_hex else it for it in feeds], text, as_json, is_strict)
    except Refused as refused:
        number = int(refused.line.split()[1])
        workflow = Workflow(text) if number in (81, 82, 85) else None
        datas = (bytes_of_hex(it) if is_hex else it for it in feeds)  # one by one: none is read behind the one refused
        refused.line += place(text, workflow, names, datas, refused)
        raise


def said_by(words, files, stdin):
    """What a command of these words gives, or the refusal of it."""
    command, *rest = words
    options = [it for it in rest if it.startswith("--")]
    values = dict(it[2:].split("=", 1) for it in options if "=" in it)
    is_hex = "--hex" in options
    names = [it for it in rest if not it.startswith("--")]
    given = inputs(command, names, files, stdin)
    policy = [int(values.get(name, usual)) for name, usual in (("rows", 1000), ("ahead", 100), ("chunks", 4))]
    if command == "show":
        data = bytes_of_hex(given[0]) if is_hex else given[0]
        shown = show_json if "--json" in options else show
        return shown(data, values.get("keyspace", "").encode(), values.get("shard", "").encode())
    if command == "vdiff":
        first = int(values["first"]) if "first" in values else None
        return vdiff(*given, names[1:], "--tables" in options, first, "--json" in options)
    if command == "run":
        texts = [it.removeprefix("--until=") for it in options if it.startswith("--until=")]
        return (run_alone if "--alone" in options else run_in_threads)(is_hex, policy, texts, given[0], given[1:])
    if command == "check":
        return checked(is_hex, "--json" in options, "--strict" in options, given[0], [it.encode() for it in names[1:]], given[1:])
    if command == "resume":
        return resume(is_hex, files[values["checkpoint"]], given[0], given[1:], stdin)
    if command == "join":
        also = [files[it.removeprefix("--also=")] for it in options if it.startswith("--also=")]
        return join(is_hex, *given[:2], [given[2], *also], given[3:])
    if command == "save":
        return save_told(is_hex, given[0], given[1:], stdin, "--strict" in options)
    return step(is_hex, given[0], given[1:], stdin)


def answers(words, files, stdin=b""):
    """The answers that the program may give, each as its status, standard output and standard error."""
    try:
        said = said_by(words, files, stdin)
    except Refused as refused:
        return [(1, b"", refusal.as_json(refused.line) if "--json" in words else refused.line)]
    if isinstance(said, bytes):
        return [(0, said, b"")]
    if isinstance(said[0], int):
        return [(*said, b"")[:3]]
    whole, lines = said
    return [(0, whole, b"")] * (whole is not None) + [(1, b"", it) for it in sorted(lines)]
