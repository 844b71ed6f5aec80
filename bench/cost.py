#!/usr/bin/env python3
"""What a job costs, from outside: runs two commands in turn, a short one and a long one that does the job more often, and
prints the seconds of processor time and of wall time of one job and the MB of peak memory that the long one has more.
Each is the difference of the least of all rounds. Words: rounds, how many jobs more the long command does, a folder that
is removed before each run or -, the short command, --, the long command. What the commands print is dropped; each must
end with status 0. Without a short command the long one is taken by itself."""
import sys

from runs import least, parted, removed, run

rounds, jobs, folder = int(sys.argv[1]), int(sys.argv[2]), sys.argv[3]
commands = [command for command in parted(sys.argv[4:]) if command]

costs = [[] for _ in commands]
for _ in range(rounds):
    for place, command in enumerate(commands):
        removed(folder)
        costs[place].append(run(command))
few = least(costs[0]) if len(commands) == 2 else [0, 0, 0, 0]
processor, _, wall, memory = (more - less for more, less in zip(least(costs[-1]), few))
print(f"{processor / jobs:.9f} {wall / jobs:.9f} {memory:.2f}")
