"""What record/feed stops at: for each the statements that lead there, and what its line has to say.

They run one behind the other on one server. A stop that ends every recording of a log that has it is
followed by RESET MASTER, as a server is given a new log.
"""
from dataclasses import dataclass


@dataclass(frozen=True)
class Case:
    name: str
    made: str
    """Statements that run first."""
    line: str
    """What the line has to have in it; without one a feed has to be written."""
    tables: str = "s.t"
    behind: str = ""
    """Statements that run afterwards."""
    words: tuple[str, ...] = ()
    purge: str = ""
    """The log before which all are purged."""


MAKE = "CREATE OR REPLACE TABLE s.t (id INT PRIMARY KEY, v VARCHAR(10)); "
ROWS = MAKE + "INSERT INTO s.t VALUES (1, 'a'), (2, 'b'); "
RESET = "RESET MASTER; "
REFUSED = "the log's copies: refused"
DROP = "DROP TABLE s.t; " + RESET

CASES = [
    Case("no_such_table", "CREATE DATABASE s; ", "no such table as s.nothing: ", "s.nothing"),
    Case("no_primary_key", "CREATE TABLE s.bare (v INT); ", "no primary key in s.bare: ", "s.bare"),
    Case("view", "CREATE VIEW s.seen AS SELECT 1 AS id; ", "a view in s.seen: ", "s.seen"),
    Case("another_engine", "CREATE TABLE s.isam (id INT PRIMARY KEY) ENGINE=MyISAM; ", "engine MyISAM in s.isam: ", "s.isam"),
    Case("system_versioning", "CREATE TABLE s.past (id INT PRIMARY KEY) WITH SYSTEM VERSIONING; ", "system versioning in s.past: ", "s.past"),
    Case("unique_hash", "CREATE TABLE s.h (id INT PRIMARY KEY, w TEXT, UNIQUE u (w)); ", "unique index u over a hash in s.h: ", "s.h"),
    Case("key_that_ignores_case", "CREATE TABLE s.k1 (k VARCHAR(9) COLLATE utf8mb4_general_ci PRIMARY KEY); ",
         "key column k of collation utf8mb4_general_ci, whose equality or order isn't that of bytes, in s.k1: ", "s.k1"),
    Case("key_of_a_date", "CREATE TABLE s.k2 (k DATE PRIMARY KEY); ", "key column k of type DATE in s.k2: ", "s.k2"),
    Case("key_by_its_beginning", "CREATE TABLE s.k3 (k VARBINARY(90), PRIMARY KEY (k(3))); ",
         "key column k by its first 3 characters in s.k3: ", "s.k3"),
    Case("type_without_a_number", "CREATE TABLE s.u (id INT PRIMARY KEY, v UUID); ",
         "type uuid of column v, which Vitess has no number for, in s.u: ", "s.u"),
    Case("cascade", "CREATE TABLE s.up (id INT PRIMARY KEY); CREATE TABLE s.f1 (id INT PRIMARY KEY, up INT REFERENCES s.up (id) ON DELETE CASCADE); ",
         "foreign key `f1_ibfk_1` ON DELETE CASCADE in s.f1: ", "s.f1"),
    Case("set_null", "CREATE TABLE s.f2 (id INT PRIMARY KEY, up INT, CONSTRAINT `a``)b` FOREIGN KEY (up) REFERENCES s.up (id) ON DELETE RESTRICT"
         " ON UPDATE SET NULL); ", "ON UPDATE SET NULL in s.f2: ", "s.f2"),
    Case("restrict_is_recorded", "CREATE TABLE s.f3 (id INT PRIMARY KEY, up INT REFERENCES s.up (id)); ", "", "s.f3", RESET),
    Case("two_tables_of_a_name", MAKE + "CREATE DATABASE s2; CREATE TABLE s2.t LIKE s.t; ", "two tables t of several schemas: ", "s.t s2.t", RESET),
    Case("settings", "SET GLOBAL binlog_format=MIXED; ",
         "binlog_format is MIXED: SET GLOBAL binlog_format=ROW", behind="SET GLOBAL binlog_format=ROW; "),
    Case("settings_of_images", "SET GLOBAL binlog_row_image=MINIMAL; ",
         "binlog_row_image is MINIMAL: SET GLOBAL", behind="SET GLOBAL binlog_row_image=FULL; "),
    Case("ddl_without_rows", MAKE + "ALTER TABLE s.t ADD w INT FIRST; TRUNCATE s.t; INSERT INTO s.t VALUES (1, 2, 'c'); ",
         ""),
    Case("alter_of_a_table_of_its_name", DROP + ROWS + "ALTER TABLE s2.t ADD w INT; ", f"{REFUSED} 152 file ", behind=DROP),
    Case("alter", ROWS + "ALTER TABLE s.t ADD w INT; ",
         f"{REFUSED} 148 file ", behind=DROP),
    Case("alter_in_a_schema", ROWS + "USE s; ALTER ONLINE TABLE `t` /* why */ ROW_FORMAT=DYNAMIC; ", f"{REFUSED} 152 file ", behind=DROP),
    Case("alter_of_more_than_an_index", ROWS + "ALTER TABLE s.t ADD INDEX (v), ALTER v SET DEFAULT 'x'; ", f"{REFUSED} 152 file ", behind=DROP),
    Case("ignored_rows", ROWS + "INSERT INTO s.t VALUES (3, 'a'); ALTER IGNORE TABLE s.t ADD UNIQUE (v); ",
         f"{REFUSED} 152 file ", behind=DROP),
    Case("another_primary_key", "CREATE OR REPLACE TABLE s.t (id INT PRIMARY KEY, n INT NOT NULL); INSERT INTO s.t VALUES (1, 2);"
         " ALTER TABLE s.t DROP PRIMARY KEY, ADD PRIMARY KEY (id, n); ", f"{REFUSED} 152 file ", behind=DROP),
    Case("primary_key_as_an_index", ROWS + "ALTER TABLE s.t ADD UNIQUE (id); DROP INDEX `primary` ON s.t; ALTER TABLE s.t ADD PRIMARY KEY (id); ",
         f"{REFUSED} 152 file ", behind=DROP),
    Case("rename", ROWS + "CREATE TABLE s.n LIKE s.t; RENAME TABLE s.t TO s.o, s.n TO s.t; ",
         f"{REFUSED} 152 file ", behind="DROP TABLE s.o; " + DROP),
    Case("renamed_with_its_rows", "CREATE OR REPLACE TABLE s.o (id INT PRIMARY KEY); INSERT INTO s.o VALUES (1); RENAME TABLE s.o TO s.t; ",
         f"{REFUSED} 152 file ", behind=DROP),
    Case("set_statement", ROWS + "SET STATEMENT lock_wait_timeout=9 FOR ALTER TABLE s.t ORDER BY v; ",
         f"{REFUSED} 151 file ", behind=DROP),
    Case("drop", ROWS + "USE s; DROP TABLE IF EXISTS nothing, t; " + MAKE, f"{REFUSED} 152 file ", behind=DROP),
    Case("drop_schema", "CREATE DATABASE d; CREATE TABLE d.t (id INT PRIMARY KEY); INSERT INTO d.t VALUES (1); DROP DATABASE d;"
         " CREATE DATABASE d; CREATE TABLE d.t (id INT PRIMARY KEY); ", f"{REFUSED} 152 file ", "d.t", RESET),
    Case("truncate", ROWS + "TRUNCATE TABLE s.t; ", f"{REFUSED} 152 file ", behind=DROP),
    Case("row_image", ROWS + "SET binlog_row_image=MINIMAL; UPDATE s.t SET v='c'; ",
         ": SET GLOBAL binlog_row_image=FULL, let clients connect anew, and go on with --anew-behind", behind=DROP),
    Case("blank_in_a_padded_key", "CREATE TABLE s.pad (k VARCHAR(9) COLLATE utf8mb4_bin PRIMARY KEY); INSERT INTO s.pad VALUES ('a'), ('b '); ",
         "a key of s.pad with a blank at its end or a control character, b'b ', behind ", "s.pad", RESET),
    Case("blank_in_a_snapshot", "", "b'b ', in the snapshot: ", "s.pad", "DROP TABLE s.pad; " + RESET, ("--from-snapshot",)),
    Case("long_row", "CREATE TABLE s.l (id INT PRIMARY KEY, v LONGBLOB, w LONGBLOB); INSERT INTO s.l VALUES (1, REPEAT('a', 9000000), REPEAT('b', 9000000)); ",
         f"{REFUSED} 150 file ", "s.l", "DROP TABLE s.l; " + RESET),
    Case("statement_format", ROWS + "SET binlog_format=STATEMENT; UPDATE s.t SET v='c' WHERE id=1; ",
         f"{REFUSED} 151 file ", behind=DROP),
    Case("analyzed_statement", ROWS + "SET binlog_format=STATEMENT; ANALYZE UPDATE s.t SET v='c' WHERE id=1; ",
         f"{REFUSED} 151 file ", behind=DROP),
    Case("table_with_its_rows", "SET binlog_format=STATEMENT; CREATE OR REPLACE TABLE s.t (id INT PRIMARY KEY) SELECT 7 AS id; ",
         f"{REFUSED} 152 file ", behind=DROP),
    Case("prepared_xa", ROWS + "XA START 'x'; DELETE FROM s.t; XA END 'x'; XA PREPARE 'x'; ", "an XA transaction is prepared before binlog.000001:"),
    Case("committed_xa", "XA COMMIT 'x'; ", "", behind=DROP),
    Case("prepared_xa_in_a_snapshot", ROWS + "XA START 'x'; DELETE FROM s.t WHERE id=1; XA END 'x'; XA PREPARE 'x'; ",
         "XA transaction 78 of s.t is prepared in the snapshot: XA COMMIT", words=("--from-snapshot",), behind="XA ROLLBACK 'x'; "),
    Case("ended_xa_before_a_snapshot", "XA START 'z','b',7; DELETE FROM s.t WHERE id=1; XA END 'z','b',7; XA PREPARE 'z','b',7; XA COMMIT 'z','b',7; "
         "CREATE TABLE s.a (id INT PRIMARY KEY); XA START 'y','b',7; INSERT INTO s.a VALUES (1); XA END 'y','b',7; XA PREPARE 'y','b',7; ", "",
         words=("--from-snapshot",)),
    Case("ended_xa_of_another_table", "XA COMMIT 'y','b',7; INSERT INTO s.t VALUES (8, 'h'); ", "", words=("--append",)),
    Case("prepared_xa_behind_a_purged_log", "XA START 'w'; INSERT INTO s.a VALUES (2); XA END 'w'; XA PREPARE 'w'; ",
         "XA transaction 77 is prepared, and what it changes was purged from the log before binlog.000002: ", words=("--from-snapshot",), purge="binlog.000002"),
    Case("ended_xa_behind_a_purged_log", "XA ROLLBACK 'w'; ", "", words=("--from-snapshot",), behind="DROP TABLE s.a; " + DROP),
    Case("position_that_goes_back", ROWS + "SET gtid_domain_id=3, gtid_seq_no=9; DELETE FROM s.t WHERE id=1; SET gtid_seq_no=4; DELETE FROM s.t; ",
         ": numbers of a domain have to rise (gtid_strict_mode=1); go on with --anew-behind", behind=DROP),
    Case("purged_log", ROWS, f"{REFUSED} 159 file ", purge="binlog.000002"),
    Case("purged_log_with_a_snapshot", "INSERT INTO s.t VALUES (3, 'c'); ", "", words=("--from-snapshot",)),
    Case("purged_log_behind_a_feed", "", "the log was purged or begun anew at binlog.000002:", words=("--append",), purge="binlog.000003"),
    Case("rows_before_the_log", RESET, "a table that was there before the log, s.t, before binlog.000001:"),
    Case("more_rows_than_the_log", "INSERT INTO s.t VALUES (6, 'f'); ",
         f"{REFUSED} 159 file "),
    Case("empty_feed", RESET + MAKE, ""),
    Case("rows_behind_an_empty_feed", "INSERT INTO s.t VALUES (4, 'd'); ", "", words=("--append",)),
    Case("layout_changed_behind_a_feed", "ALTER TABLE s.t ADD w INT; ",
         "another table, or other columns, than the feed has in s.t: ", words=("--append",)),
    Case("feed_over_two_logs", MAKE + RESET + "FLUSH BINARY LOGS; " + ROWS, ""),
    Case("nothing_new", "FLUSH BINARY LOGS; FLUSH BINARY LOGS; ", "", words=("--append",)),
    Case("nothing_new_twice", "", "", words=("--append",)),
    Case("fewer_transactions_than_the_feed", RESET + MAKE, "the log was purged or begun anew at binlog.000004:", words=("--append",)),
    Case("other_transactions_than_the_feed", RESET + MAKE + "FLUSH BINARY LOGS; " + ROWS + "INSERT INTO s.t VALUES (5, 'e'); ",
         "the log was purged or begun anew at binlog.000004:", words=("--append",)),
    Case("feed_of_one_log", RESET + ROWS, ""),
    Case("other_gtids_at_the_feeds_end", RESET + "SET gtid_domain_id=3; " + ROWS, "another log than the feed's at binlog.000001:", words=("--append",)),
    Case("log_begun_anew", RESET + "DO SLEEP(1.1); " + RESET + ROWS, "another log than the feed's in binlog.000001, which was begun anew",
         words=("--append",)),
]  # fmt: skip
