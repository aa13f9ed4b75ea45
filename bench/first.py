"""Prints what a daemon serves beside the peers from the first request of its clients on, by the mean of many short turns."""

from serve import words
from turns import CLIENTS, compare


def main():
    peers, program = words()
    for clients in CLIENTS:
        compare(program, peers, clients, before=0)


if __name__ == "__main__":
    main()
