#!/usr/bin/env python3
"""Acts as clearmap-publish, but is killed at one of the writes to Redis: for the tests.

    killed_at.py COUNT OPTION ..

It ends by SIGKILL right before its sending of that number, counted from 1. Each tile is a write of
its own."""
import os
import signal
import sys

import clearmap_publish
import redis.connection
import store

COUNT = int(sys.argv[1])
send = redis.connection.Connection.send_packed_command
sent = 0


def counted(self, *words, **named):
    """Sends what it is given, or ends."""
    global sent
    sent += 1
    if sent == COUNT:
        os.kill(os.getpid(), signal.SIGKILL)
    send(self, *words, **named)


redis.connection.Connection.send_packed_command = counted
store.BATCH = 1
sys.argv[1:] = sys.argv[2:]
sys.exit(clearmap_publish.main())
