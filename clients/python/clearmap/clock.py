"""The time since this machine was started, which nobody sets: the ages of followed versions."""
import time


def now() -> float:
    """Seconds, which go on while the machine sleeps, where its system counts them."""
    try:
        return time.clock_gettime(time.CLOCK_BOOTTIME)
    except (AttributeError, OSError):
        return time.monotonic()
