"""The engine: processes of this machine, or a cluster that runs."""
import logging
import os
import shutil
from collections.abc import Iterator
from contextlib import contextmanager
from tempfile import TemporaryDirectory

import dask
from distributed import Client, LocalCluster
from distributed.diagnostics.plugin import UploadFile

from .job import Job
from .stop import Stop

HERE = os.path.dirname(os.path.abspath(__file__))
NOWHERE_ELSE = "127.0.0.1:0"
"""Each process has a page about itself too, which without an address of its own would be there for the whole network."""
ALONE = {"threads_per_worker": 1, "processes": True, "host": "127.0.0.1", "silence_logs": logging.CRITICAL,
         "dashboard_address": NOWHERE_ELSE, "worker_dashboard_address": NOWHERE_ELSE}  # fmt: skip


@contextmanager
def client_of(job: Job) -> Iterator[Client]:
    """A client of the job's engine. One task a process at a time; the loopback alone where the processes are this
    machine's, and these end with it. The workers of a cluster that runs are sent this package, those too that come later."""
    logging.getLogger("distributed").setLevel(logging.CRITICAL)
    with dask.config.set({"distributed.worker.daemon": True, "distributed.comm.timeouts.connect": "30s"}):
        if job.cluster:
            with _reached(job.cluster) as client, TemporaryDirectory(prefix="reshard-") as own:
                sent = shutil.make_archive(os.path.join(own, __package__), "zip", os.path.dirname(HERE), os.path.basename(HERE))
                client.register_worker_plugin(UploadFile(sent))
                yield client
            return
        count = job.workers or len(os.sched_getaffinity(0))
        with TemporaryDirectory(prefix="reshard-") as own, LocalCluster(n_workers=count, local_directory=own, **ALONE) as local, Client(local) as client:
            yield client


def _reached(address: str) -> Client:
    try:
        return Client(address, timeout=10)
    except (OSError, ValueError) as fault:
        raise Stop(f"no cluster answers at {address}: {fault}") from None
