"""Has the tests' own worker end with the status of amo_worker if there is no memory, also if it
lacks for a module."""

import os
import sys

NO_MEMORY = 71


def end_without_memory(kind, error, trace):
    """Prints an error that nothing has caught, and ends the process if there was no memory."""
    sys.__excepthook__(kind, error, trace)
    sys.stderr.flush()
    if issubclass(kind, MemoryError):
        os._exit(NO_MEMORY)


sys.excepthook = end_without_memory
