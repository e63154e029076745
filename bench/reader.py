#!/usr/bin/env python3
"""Reads its input as the programs do, and spends time of the processor on each byte, but does nothing with it.

    reader.py NANOSECONDS

So it shows what a pipe costs a reader of that pace, whatever it does.
"""

import os
import sys
import time

ROOM = 1 << 18


def main():
    pace = float(sys.argv[1]) / 1e9
    room = [bytearray(ROOM)]
    while got := os.readv(0, room):
        end = time.process_time() + got * pace
        while time.process_time() < end:
            pass


if __name__ == "__main__":
    main()
