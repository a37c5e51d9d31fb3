#!/usr/bin/env python3
"""Distances of a folder of maps by three processes of Dask, of which one is killed on the way.

    many_maps.py FOLDER SCRATCH, with occupancy grids as numpy.save writes them
"""
import logging
import os
import pathlib
import signal
import sys

import numpy
from distributed import Client, LocalCluster, as_completed

sys.path.insert(0, str(pathlib.Path(__file__).resolve().parent.parent / "clients/python"))
import clearmap

PROCESSES = 3


def distances_of(path):
    """The distances of one map, in whichever process this runs."""
    return clearmap.distances(numpy.load(path), low=65)


def kill_one(client, processes):
    """Kills a process that has maps to do."""
    busy = [worker for worker, keys in client.processing().items() if keys]
    if not busy:
        sys.exit("many_maps.py: all maps were done before a process could be killed")
    os.kill(processes[busy[0]], signal.SIGKILL)


def answers_of(client, paths):
    """The distances of all maps, in the order of their names."""
    processes = client.run(os.getpid)
    futures = client.map(distances_of, paths)
    next(as_completed(futures))
    kill_one(client, processes)
    answers = client.gather(futures)
    client.wait_for_workers(PROCESSES)
    alive = client.run(os.getpid)
    new = set(alive.values()) - set(processes.values())
    print(f"{PROCESSES} processes, {len(new)} of them new")
    return answers


def main(folder, scratch):
    paths = sorted(map(str, pathlib.Path(folder).glob("*.npy")))
    words = {"n_workers": PROCESSES, "threads_per_worker": 1, "local_directory": scratch}
    with LocalCluster(**words, dashboard_address=None, silence_logs=logging.CRITICAL) as cluster:
        with Client(cluster) as client:
            answers = answers_of(client, paths)
    alone = map(distances_of, paths)
    equal = sum(numpy.array_equal(*pair) for pair in zip(answers, alone))
    print(f"{len(paths)} maps, {len(answers)} answers, {equal} as one process has them")


if __name__ == "__main__":
    if len(sys.argv) != 3:
        sys.exit("many_maps.py: name the maps' folder and one to work in: many_maps.py maps work")
    main(*sys.argv[1:])
