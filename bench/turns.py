#!/usr/bin/env python3
"""What jobs cost, beside one another: runs some commands by turns, each with few jobs and with many, and prints for each the
seconds of processor time, of its user part alone, and of wall time of one job, and the MB of peak memory that many jobs have
more. Each is the difference of the least of all rounds. Words: rounds, how many jobs are few, how many are many, a folder that
is emptied before each run or -, then the commands, parted by --; the number of jobs follows the words of a command. What the
commands print is dropped; each must end with status 0."""
import sys

from runs import emptied, least, parted, run

rounds, few, many = (int(word) for word in sys.argv[1:4])
folder = sys.argv[4]
commands = parted(sys.argv[5:])

costs = {}
for _ in range(rounds):
    for jobs in (few, many):
        for place, command in enumerate(commands):
            emptied(folder)
            costs.setdefault((place, jobs), []).append(run([*command, str(jobs)]))
for place in range(len(commands)):
    less, more = least(costs[place, few]), least(costs[place, many])
    processor, user, wall, memory = (long - short for long, short in zip(more, less))
    jobs = many - few
    print(f"{processor / jobs:.9f} {user / jobs:.9f} {wall / jobs:.9f} {memory:.2f}")
