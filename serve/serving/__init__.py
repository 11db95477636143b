"""A target that lives: the program's session over feeds that grow, served to people, to Prometheus and to a database.

It stands on the recorder (record/recorder): its stops, logins, positions, and what it knows of a workflow's tables.
Modules, from the lowest up; each has one idea:

    ending     a command's one line and status
    cells      cells of the session as bytes, and as what a person reads
    plan       a workflow's tables as the target has them
    login      the database that a URL names
    words      the words of serve/target
    waiting    waiting, until the end is asked for
    session    the program as a process that is asked: a request, an answer
    growth     a feed's file as it grows, and how far something is behind its end
    state      what is known of the target: what the page, `/state` and Prometheus tell
    tables     the tables of the target's database, and what a row is there
    database   rows and positions in one transaction, and rows that are held to the board's
    filling    the database's side of the loop
    keeping    the loop: feeds are read on, rows written, checkpoints saved, the program begun again
    reached    whether all streams have applied a position
    metrics    what Prometheus is told
    web        the requests that are answered
    page.html  the page, in one file
    switching  what an operator does to switch over to a target
"""
