#!/usr/bin/python3
"""A stand-in for VTGate: answers VStream with the groups of a feed, in the form that VTGate gives them.

usage: tests/record/vtgate.py FEED KEYSPACE SHARD [TABLE=COLUMN,..]..

Prints its address, and answers until it is killed. Positions are VGTIDs of the one shard, the names of tables
begin with the keyspace, a transaction with rows comes in several answers, and the columns of a table before its
first row. Behind `current` come all groups, and before them a position alone; behind another position those
that follow the group that has it; behind none a copy of the tables, whose keys are the columns behind their
names, as of a third of the groups, with the others between its chunks and behind it.
"""
import os
import sys
from collections.abc import Callable, Iterable, Iterator
from concurrent import futures

ROOT = os.path.dirname(os.path.dirname(os.path.dirname(os.path.abspath(__file__))))
sys.path.append(os.path.join(ROOT, "record"))
sys.path.append(os.path.join(ROOT, "tests"))

from recorder.messages import EventType, Request, Response, frames  # noqa: E402

BEGINNING = "MySQL56/6d617269-6164-6200-8000-000000000000:1"


def position(keyspace: str, shard: str, gtid: str) -> Response:
    """An event by which VTGate says a position."""
    answer = Response()
    answer.events.add(type=EventType.VGTID).vgtid.shard_gtids.add(keyspace=keyspace, shard=shard, gtid=gtid)
    return answer


def alone(keyspace: str, shard: str, gtid: str) -> Response:
    """What VTGate sends of a transaction that concerns none of the tables."""
    answer = position(keyspace, shard, gtid)
    answer.events.add(type=EventType.OTHER)
    return answer


def groups_of(feed: bytes) -> list[Response]:
    """Each group as one answer, which in the feed may be several messages."""
    groups, is_whole = [], True
    for start, end in frames(feed):
        message = Response.FromString(feed[start:end])
        if is_whole:
            groups.append(message)
        else:
            groups[-1].MergeFrom(message)
        is_whole = any(event.type in (EventType.GTID, EventType.VGTID) for event in message.events)
    return groups


POSITIONS = (EventType.GTID, EventType.VGTID)


def gtid_of(group: Response) -> str:
    """A group's position, as VTGate sends it, also where the program has written it, which leaves the flavour out."""
    event = next(event for event in group.events if event.type in POSITIONS)
    gtid = event.gtid if event.type == EventType.GTID else event.vgtid.shard_gtids[0].gtid
    return gtid if "/" in gtid else f"MySQL56/{gtid}"


def answers(feed: bytes, keyspace: str, shard: str, behind: str = "current") -> Iterator[Response]:
    """What VTGate sends of a feed's groups."""
    groups = groups_of(feed)
    gtids = [gtid_of(group) for group in groups]
    if behind == "current":
        yield alone(keyspace, shard, BEGINNING)
    fields = {event.field_event.table_name: event for group in groups for event in group.events if event.type == EventType.FIELD}
    for group in groups[gtids.index(behind) + 1 if behind in gtids else 0:]:
        yield from parts(group, keyspace, shard, fields)


def parts(group: Response, keyspace: str, shard: str, fields: dict) -> Iterator[Response]:
    """A group in answers that end behind each event of rows; `fields` are the tables whose columns this stream hasn't told."""
    if len(group.events) == 1:
        yield alone(keyspace, shard, gtid_of(group))
        return
    part = Response()
    for event in group.events:
        if event.type in POSITIONS:
            part.MergeFrom(position(keyspace, shard, gtid_of(group)))
        elif event.type == EventType.ROW:
            table = event.row_event.table_name
            if table in fields:
                told = part.events.add()
                told.CopyFrom(fields.pop(table))
                told.field_event.table_name = f"{keyspace}.{table}"
            event.row_event.table_name = f"{keyspace}.{table}"
            part.events.append(event)
            yield part
            part = Response()
        elif event.type != EventType.FIELD:
            part.events.append(event)
    yield part


def serve(answered: Callable[..., Iterable[Response]], credentials=None):
    """A server at a free port of this machine, and its address. `answered` is given the request and the call's context."""
    import grpc

    method = grpc.unary_stream_rpc_method_handler(lambda asked, call: iter(answered(asked, call)), Request.FromString, Response.SerializeToString)
    server = grpc.server(futures.ThreadPoolExecutor(4))
    server.add_generic_rpc_handlers((grpc.method_handlers_generic_handler("vtgateservice.Vitess", {"VStream": method}),))
    port = server.add_secure_port("localhost:0", credentials) if credentials else server.add_insecure_port("127.0.0.1:0")
    server.start()
    return server, f"localhost:{port}" if credentials else f"127.0.0.1:{port}"


def serve_feed(path: str, keyspace: str, shard: str, keys: dict[str, list[str]]):
    """The same, for the groups that a feed has when it is asked for."""
    from record.vtgate_copy import of_feed

    def answered(asked: Request, _) -> Iterator[Response]:
        behind = asked.vgtid.shard_gtids[0].gtid
        with open(path, "rb") as file:
            feed = file.read()
        yield from answers(feed, keyspace, shard, behind) if behind else of_feed(feed, keyspace, shard, keys)

    return serve(answered)


if __name__ == "__main__":
    tables = {table: columns.split(",") for table, _, columns in (word.partition("=") for word in sys.argv[4:])}
    server, address = serve_feed(*sys.argv[1:4], tables)
    print(address, flush=True)
    server.wait_for_termination()
