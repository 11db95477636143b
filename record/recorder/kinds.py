"""The numbers of column types, those of Vitess's query.proto.

The first sixteen have names in a workflow file (docs/FORMATS.md, 'Workflow file'); the others stand
there by number.
"""
from enum import IntEnum


class Kind(IntEnum):
    INT8 = 257
    INT16 = 259
    INT24 = 261
    INT32 = 263
    INT64 = 265
    UINT8 = 770
    UINT16 = 772
    UINT24 = 774
    UINT32 = 776
    UINT64 = 778
    TEXT = 6163
    VARCHAR = 6165
    CHAR = 6167
    BLOB = 10260
    VARBINARY = 10262
    BINARY = 10264

    DECIMAL = 18
    YEAR = 785
    FLOAT32 = 1035
    FLOAT64 = 1036
    TIMESTAMP = 2061
    DATE = 2062
    TIME = 2063
    DATETIME = 2064
    BIT = 2073
    ENUM = 2074
    SET = 2075
    GEOMETRY = 2077


NAMED = list(Kind)[:16]
WHOLE = NAMED[:10]
TEXTS = (Kind.TEXT, Kind.VARCHAR, Kind.CHAR)
BYTES = (Kind.BLOB, Kind.VARBINARY, Kind.BINARY)
KEYS = (*WHOLE, Kind.VARCHAR, Kind.CHAR, Kind.VARBINARY, Kind.BINARY)

SIGNED = {"tinyint": Kind.INT8, "smallint": Kind.INT16, "mediumint": Kind.INT24, "int": Kind.INT32, "bigint": Kind.INT64}
UNSIGNED = {"tinyint": Kind.UINT8, "smallint": Kind.UINT16, "mediumint": Kind.UINT24, "int": Kind.UINT32, "bigint": Kind.UINT64}
OTHERS = {
    "char": Kind.CHAR, "varchar": Kind.VARCHAR, "binary": Kind.BINARY, "varbinary": Kind.VARBINARY,
    "tinytext": Kind.TEXT, "text": Kind.TEXT, "mediumtext": Kind.TEXT, "longtext": Kind.TEXT,
    "tinyblob": Kind.BLOB, "blob": Kind.BLOB, "mediumblob": Kind.BLOB, "longblob": Kind.BLOB,
    "decimal": Kind.DECIMAL, "float": Kind.FLOAT32, "double": Kind.FLOAT64, "year": Kind.YEAR,
    "timestamp": Kind.TIMESTAMP, "date": Kind.DATE, "time": Kind.TIME, "datetime": Kind.DATETIME,
    "bit": Kind.BIT, "enum": Kind.ENUM, "set": Kind.SET,
    **dict.fromkeys(("geometry", "point", "linestring", "polygon", "multipoint", "multilinestring",
                     "multipolygon", "geometrycollection"), Kind.GEOMETRY),
}  # fmt: skip


def kind_of(data_type: str, unsigned: bool) -> Kind | None:
    """The kind of a column by information_schema's DATA_TYPE, or None where Vitess has no number for it."""
    return (UNSIGNED if unsigned else SIGNED).get(data_type) or OTHERS.get(data_type)
