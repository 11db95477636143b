"""The messages of a feed (docs/FORMATS.md, 'Messages') and of the call that asks VTGate for one, as classes of
Google's protobuf library that are made as the module is read: there is no generated file. Numbers are those
of binlogdata.proto, query.proto and vtgate.proto of Vitess."""
from google.protobuf import descriptor_pb2, descriptor_pool, message_factory

_F = descriptor_pb2.FieldDescriptorProto
_ONE, _MANY = _F.LABEL_OPTIONAL, _F.LABEL_REPEATED

_MESSAGES = {
    "Row": [("lengths", 1, _MANY, _F.TYPE_SINT64), ("values", 2, _ONE, _F.TYPE_BYTES)],
    "Field": [("name", 1, _ONE, _F.TYPE_STRING), ("type", 2, _ONE, _F.TYPE_INT32), ("flags", 10, _ONE, _F.TYPE_UINT32)],
    "RowChange": [("before", 1, _ONE, "Row"), ("after", 2, _ONE, "Row"), ("data_columns", 3, _ONE, "Unread"),
                  ("json_partial_values", 4, _ONE, "Unread")],
    "RowEvent": [("table_name", 1, _ONE, _F.TYPE_STRING), ("row_changes", 2, _MANY, "RowChange")],
    "FieldEvent": [("table_name", 1, _ONE, _F.TYPE_STRING), ("fields", 2, _MANY, "Field"), ("enum_set_string_values", 25, _ONE, _F.TYPE_BOOL)],
    "VEvent": [("type", 1, _ONE, _F.TYPE_INT32), ("timestamp", 2, _ONE, _F.TYPE_INT64), ("gtid", 3, _ONE, _F.TYPE_STRING),
               ("statement", 4, _ONE, _F.TYPE_STRING), ("row_event", 5, _ONE, "RowEvent"), ("field_event", 6, _ONE, "FieldEvent"),
               ("vgtid", 7, _ONE, "VGtid"), ("last_p_k_event", 21, _ONE, "LastPKEvent"), ("keyspace", 22, _ONE, _F.TYPE_STRING),
               ("shard", 23, _ONE, _F.TYPE_STRING)],
    "VStreamResponse": [("events", 1, _MANY, "VEvent")],
    "VGtid": [("shard_gtids", 1, _MANY, "ShardGtid")],
    "ShardGtid": [("keyspace", 1, _ONE, _F.TYPE_STRING), ("shard", 2, _ONE, _F.TYPE_STRING), ("gtid", 3, _ONE, _F.TYPE_STRING),
                  ("table_p_ks", 4, _MANY, "TableLastPK")],
    "LastPKEvent": [("table_last_p_k", 1, _ONE, "TableLastPK"), ("completed", 2, _ONE, _F.TYPE_BOOL)],
    "TableLastPK": [("table_name", 1, _ONE, _F.TYPE_STRING), ("lastpk", 3, _ONE, "QueryResult")],
    "QueryResult": [("fields", 1, _MANY, "Field"), ("rows", 4, _MANY, "Row")],
    "Unread": [],
    "Rule": [("match", 1, _ONE, _F.TYPE_STRING), ("filter", 2, _ONE, _F.TYPE_STRING)],
    "Filter": [("rules", 1, _MANY, "Rule")],
    "VStreamFlags": [("heartbeat_interval", 2, _ONE, _F.TYPE_UINT32), ("stop_on_reshard", 3, _ONE, _F.TYPE_BOOL)],
    "VStreamRequest": [("tablet_type", 2, _ONE, _F.TYPE_INT32), ("vgtid", 3, _ONE, "VGtid"), ("filter", 4, _ONE, "Filter"),
                       ("flags", 5, _ONE, "VStreamFlags")],
}  # fmt: skip


def _classes() -> dict[str, type]:
    file = descriptor_pb2.FileDescriptorProto(name="recorder.proto", package="recorder", syntax="proto3")
    for name, fields in _MESSAGES.items():
        message = file.message_type.add(name=name)
        for field, number, label, kind in fields:
            one = message.field.add(name=field, number=number, label=label)
            if isinstance(kind, str):
                one.type, one.type_name = _F.TYPE_MESSAGE, ".recorder." + kind
            else:
                one.type = kind
    pool = descriptor_pool.DescriptorPool()
    pool.Add(file)
    factory = message_factory.MessageFactory(pool)
    return {name: factory.GetPrototype(pool.FindMessageTypeByName("recorder." + name)) for name in _MESSAGES}


_CLASSES = _classes()
Response, Request = _CLASSES["VStreamResponse"], _CLASSES["VStreamRequest"]
