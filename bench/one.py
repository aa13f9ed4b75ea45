"""Prints what a daemon serves beside the peers where all servers and their clients share one processor, by the mean of many short turns."""

import os

from serve import words
from turns import compare

CLIENTS = (4, 64)


def main():
    peers, program = words()
    os.sched_setaffinity(0, {max(os.sched_getaffinity(0))})
    for clients in CLIENTS:
        compare(program, peers, clients)


if __name__ == "__main__":
    main()
