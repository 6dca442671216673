#!/usr/bin/env python3
"""Runs commands in turn, so many times each, with a file as their input, and prints for each command, a line each, the least processor
seconds of its runs. The kernel counts them in microseconds. What a command writes, and its status, are not looked at.
usage: in_turn.py RUNS INPUT COMMAND.."""
import os
import shlex
import sys


def seconds(words, path):
    """The processor seconds of one run of a command."""
    child = os.fork()
    if child == 0:
        try:
            os.dup2(os.open(path, os.O_RDONLY), 0)
            nowhere = os.open(os.devnull, os.O_WRONLY)
            os.dup2(nowhere, 1)
            os.dup2(nowhere, 2)
            os.execvp(words[0], words)
        finally:
            os._exit(127)
    _, status, used = os.wait4(child, 0)
    if os.WIFEXITED(status) and os.WEXITSTATUS(status) == 127:
        sys.exit(f"{words[0]}: cannot be run")
    return used.ru_utime + used.ru_stime


def main():
    runs, path, commands = int(sys.argv[1]), sys.argv[2], [shlex.split(command) for command in sys.argv[3:]]
    rounds = [[seconds(words, path) for words in commands] for _ in range(runs)]
    for own in zip(*rounds):
        print(f"{min(own):.6f}")


main()
