"""The fleet: a keyspace resharded by many processes, on one machine or on several, over Dask's `distributed`.

Modules, from the lowest up; each has one idea:

    stop       why nothing is begun, and why a target ends, as one line
    job        what is asked for: the file of feeds, workflows and the folder for results
    words      the command lines of the program
    refusals   what a refusal means, and where it stands
    rules      what the targets pass of each shard's rows, whether each is in one, and how many these are
    files      files that are replaced as a whole, and results that are found again
    tasks      what a worker does: one stream of a target, and a target's streams joined
    cluster    the engine: processes of this machine, or a cluster that runs
    targets    all tasks of a job, and what came of them
    counts     whether the targets have as many rows as the sources
    progress   how far all tasks are
    telling    a line a task, and the table at the end
"""
