#!/usr/bin/python3
"""Writes src/wire/samples.rt: a response of each event type that is read, an answer of a stream of rows and
a stream's part of a checkpoint, as Google's protobuf library writes them (Debian's python3-protobuf).
The fields are those of binlogdata.proto and query.proto, the ones that the crates don't read among
them. Run it here: ./write_samples.py > ../src/wire/samples.rt. tests/run_protobuf.py compares the two."""

from google.protobuf import descriptor_pb2, descriptor_pool, message_factory

F = descriptor_pb2.FieldDescriptorProto
ONE, MANY = F.LABEL_OPTIONAL, F.LABEL_REPEATED

MESSAGES = {
    "Row": [("lengths", 1, MANY, F.TYPE_SINT64), ("values", 2, ONE, F.TYPE_BYTES)],
    "Field": [("name", 1, ONE, F.TYPE_STRING), ("type", 2, ONE, F.TYPE_INT32),
              ("table", 3, ONE, F.TYPE_STRING), ("column_length", 7, ONE, F.TYPE_UINT32)],
    "RowChange": [("before", 1, ONE, "Row"), ("after", 2, ONE, "Row")],
    "RowEvent": [("table_name", 1, ONE, F.TYPE_STRING), ("row_changes", 2, MANY, "RowChange"),
                 ("keyspace", 3, ONE, F.TYPE_STRING), ("flags", 5, ONE, F.TYPE_UINT32)],
    "FieldEvent": [("table_name", 1, ONE, F.TYPE_STRING), ("fields", 2, MANY, "Field"),
                   ("keyspace", 3, ONE, F.TYPE_STRING)],
    "ShardGtid": [("keyspace", 1, ONE, F.TYPE_STRING), ("shard", 2, ONE, F.TYPE_STRING),
                  ("gtid", 3, ONE, F.TYPE_STRING)],
    "VGtid": [("shard_gtids", 1, MANY, "ShardGtid")],
    "VEvent": [("type", 1, ONE, F.TYPE_INT32), ("timestamp", 2, ONE, F.TYPE_INT64),
               ("gtid", 3, ONE, F.TYPE_STRING), ("statement", 4, ONE, F.TYPE_STRING),
               ("row_event", 5, ONE, "RowEvent"), ("field_event", 6, ONE, "FieldEvent"),
               ("vgtid", 7, ONE, "VGtid"), ("current_time", 20, ONE, F.TYPE_INT64)],
    "VStreamResponse": [("events", 1, MANY, "VEvent")],
    "RowsResponse": [("fields", 1, MANY, "Field"), ("pkfields", 2, MANY, "Field"), ("gtid", 3, ONE, F.TYPE_STRING),
                     ("rows", 4, MANY, "Row"), ("lastpk", 5, ONE, "Row")],
    "TablePart": [("mark", 1, ONE, F.TYPE_UINT64), ("answer", 2, ONE, "RowsResponse")],
    "StreamPart": [("shard", 1, ONE, F.TYPE_STRING), ("tables", 2, MANY, "TablePart")],
}

# the fields that no event keeps
UNREAD = {"VEvent": ("timestamp", "statement", "current_time"), "RowEvent": ("keyspace", "flags"),
          "FieldEvent": ("keyspace",), "Field": ("table", "column_length")}


def messages():
    file = descriptor_pb2.FileDescriptorProto(name="vstream.proto", package="vstream", syntax="proto3")
    for name, fields in MESSAGES.items():
        message = file.message_type.add(name=name)
        for field, number, label, kind in fields:
            one = message.field.add(name=field, number=number, label=label)
            if isinstance(kind, str):
                one.type, one.type_name = F.TYPE_MESSAGE, ".vstream." + kind
            else:
                one.type = kind
    pool = descriptor_pool.DescriptorPool()
    pool.Add(file)
    factory = message_factory.MessageFactory(pool)
    return {name: factory.GetPrototype(pool.FindMessageTypeByName("vstream." + name)) for name in MESSAGES}


def response(m):
    made = m["VStreamResponse"]()
    add = made.events.add
    add(type=2, timestamp=1700000000, current_time=1700000000123456789)
    fields = add(type=13).field_event
    fields.table_name, fields.keyspace = "ks.t", "ks"
    fields.fields.add(name="id", type=265, table="t", column_length=20)
    fields.fields.add(name="v", type=6165)
    rows = add(type=12, timestamp=1700000000).row_event
    rows.table_name, rows.keyspace, rows.flags = "ks.t", "ks", 1
    rows.row_changes.add().after.CopyFrom(m["Row"](lengths=[1, -1], values=b"1"))
    both = rows.row_changes.add()
    both.before.CopyFrom(m["Row"](lengths=[1, -1], values=b"1"))
    both.after.CopyFrom(m["Row"](lengths=[1, 2], values=b"1ab"))
    rows.row_changes.add().before.CopyFrom(m["Row"](lengths=[1, 2], values=b"1ab"))
    positions = add(type=15).vgtid
    positions.shard_gtids.add(keyspace="ks", shard="-80", gtid="MySQL56/3e11fa47-71ca-11e1-9e33-c80aa9429562:1-5")
    positions.shard_gtids.add(keyspace="ks", shard="80-")
    add(type=1, gtid="MySQL56/3e11fa47-71ca-11e1-9e33-c80aa9429562:1-5")
    add(type=5, statement="alter table t add c int")
    add(type=3)
    add(type=4)
    for ignored in (11, 14, 17, 19):
        add(type=ignored, timestamp=1700000000)
    return made


def without_unread(message):
    """The message without the fields that aren't read, in what it holds too."""
    for name in UNREAD.get(message.DESCRIPTOR.name, ()):
        message.ClearField(name)
    for field, value in message.ListFields():
        if field.type == field.TYPE_MESSAGE:
            for one in value if field.label == field.LABEL_REPEATED else [value]:
                without_unread(one)
    return message


def stream_part(m):
    made = m["StreamPart"](shard="-80")
    table = made.tables.add(mark=1)
    table.answer.fields.add(name="id", type=265)
    table.answer.fields.add(name="v", type=6165)
    table.answer.pkfields.add(name="id", type=265)
    table.answer.gtid = "U:1"
    table.answer.rows.add(lengths=[1, 2], values=b"1ab")
    table.answer.lastpk.CopyFrom(m["Row"](lengths=[1], values=b"1"))
    return made


def samples():
    """Name, line and message of each sample, in the order of the file."""
    m = messages()
    return [
        ("RESPONSE", "A response of each event type that is read.", response(m)),
        ("READ_RESPONSE", "The same response without the fields that aren't read.", without_unread(response(m))),
        ("SAMPLE_ANSWER", "An answer of a stream of rows, with one row.", stream_part(m).tables[0].answer),
        ("SAMPLE_PART", "A stream's part of a checkpoint, with this answer.", stream_part(m)),
    ]


def text_of(name, line, data):
    rows = [" ".join(f"0x{byte:02x}," for byte in data[at:at + 16]) for at in range(0, len(data), 16)]
    body = "".join(f"    {row}\n" for row in rows)
    return f"\n/// {line}\npub(crate) const {name}: [u8; {len(data)}] = [\n{body}];\n"


def text():
    head = "//! Messages as Google's protobuf library writes them; samples/write_samples.py wrote this file.\n"
    return head + "".join(text_of(name, line, made.SerializeToString(deterministic=True)) for name, line, made in samples())


if __name__ == "__main__":
    print(text(), end="")
