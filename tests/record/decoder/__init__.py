"""A second reader of a server's log, in Python, to which the feeds of the program are held (`reading`). What it makes of a log is its own
word: it has nothing of the program's, and of record/feed the connection, the catalogue and the writers of messages.

Modules, from the lowest up:

    numbers       decimal numbers and floats, from the log's bytes to the server's text
    cells         a column's value in the log, to the bytes that the server prints
    words         a statement's text as words
    alterations   which statements about a table leave it as it is
    statements    what a statement of the log is, and which tables it changes the layout of
    bodies        table maps, row events and statements, from bytes to values
    changes       what a transaction changes
    rowcode       rows of row events to row changes, by code for the columns of one table
    transactions  events to whole transactions of the recorded tables
    reading       all of these: a feed of a server's log
"""
