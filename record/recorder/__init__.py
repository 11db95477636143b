"""The recorder: from a MariaDB server's tables and binary log to a feed, a workflow file and a query.

Modules, from the lowest up; each has one idea:

    stop          why a recording ends early, as one line
    ending        signals, standard output and error, and a command's one line and status
    usage         the words of a command line
    files         one lock a file, and new files that take their place whole
    kinds         the numbers of column types
    wire          the messages of a feed as bytes, which the module `vrepl` of Python writes by this file too
    messages      what of a message is asked alone
    protos        the messages of a feed, as classes of Google's protobuf library
    gtids         GTID sets, as the program reads them
    position      sets of transactions, from MariaDB's domains to GTID sets
    events        the binary log's events, from bytes to values
    server        connections, and the stream of events that a server sends
    logins        the words that say which server is meant
    labels        the labels of ENUM and SET columns
    catalogue     tables, columns and keys, and the tables that can't be recorded
    untold        what no log says, told where a recording or a workflow begins
    prepared      XA transactions that are prepared where a snapshot stands
    groups        rows and columns as the groups of a feed
    note          the note beside a feed, and the feed's end that it tells of
    locks         one writer a feed, and a compaction to which one lends it
    program       the program, and what it answers
    feedfile      the feed's file: made whole, and grown in its place
    held          rows by table and key, held in a file
    snapshot      the rows of one consistent snapshot
    oldfeed       what a feed that is there says: its rows, and its groups under other columns
    behind        the group that brings a feed's rows to a snapshot's
    elsewhere     another server's log, gone on with by GTID
    plans         workflow files, and all that a reshard needs
    logcopies     a server's log files, copied beside a feed
    refusals      what the program doesn't tell of a log, and what to do where it refuses one
    spelling      the program's messages with positions in other words
    progress      how far a recording is
    recording     all of these, one behind the other, by the program's `transcribe` over such copies
    forever       a recording that goes on with each transaction as it commits
    filters       a workflow's filters as conditions of SQL
    compacting    a feed without its past, and its note
    moments       the positions at which rows are compared, and the beginning of a feed that is up to one
    checkpoints   the rows of one stream in a checkpoint
    comparing     a snapshot's rows held to those of the feeds at its position
    vstream       what VTGate sends of one shard, as a feed
    vcopy         the rows of a keyspace by VStream's own copy, as a feed's first group
    vcall         the call that asks VTGate, and whether the other side is still there
    growing       a feed that grows in place
    vtgate        these five, one behind the other, until a signal ends it
"""
