#!/usr/bin/env python3
"""Prints the first port from one to another of this machine at which somebody listens; ends with 1 where there is none.

    taken.py FIRST LAST
"""
import sys

from office import answers

port = next((port for port in range(int(sys.argv[1]), int(sys.argv[2]) + 1) if answers(port)), None)
if port is None:
    sys.exit(1)
print(port)
