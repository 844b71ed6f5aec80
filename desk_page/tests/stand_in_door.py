#!/usr/bin/env python3
"""A stand-in for the door of `deliver`: beside what a desk answers, what was granted and the files of a volume, as docs/FORMATS.md
has it. One receiver has the grant, who is called Hale.

    stand_in_door.py PORT BATCH LEADKEY OUT    the volume stands in the folder OUT; Ctrl-C ends it
"""
import os
import re
import sys

import stand_in
from stand_in_matter import Matter
from stand_in_rules import Refused

ID, GRANTED_TO = "R-1", "Hale"
PART = r"([A-Za-z0-9_.-]+)"


def has_grant(matter, caller):
    return matter.staff[caller - 1][0] == GRANTED_TO


def see_granted(matter, caller, _words, _body):
    images = sorted(name for _, _, names in os.walk(matter.out) for name in names if name.endswith(".TIF"))
    number = lambda name: int(re.search(r"(\d+)\.TIF", name)[1])
    return [dict(first=number(images[0]), id=ID, last=number(images[-1]))] if has_grant(matter, caller) else []


def see_file(matter, caller, words, _body):
    name, *parts = words
    path = os.path.join(matter.out, *parts)
    if name != ID or not has_grant(matter, caller) or not os.path.isfile(path):
        raise Refused("NoProduction")
    with open(path, "rb") as file:
        return file.read()


RECEIVERS = {"Receiver"}
stand_in.ROUTES += [("GET", "/granted", RECEIVERS, see_granted, {})]
stand_in.ROUTES += [("GET", "/granted/" + "/".join([PART] * count), RECEIVERS, see_file, {}) for count in (3, 4, 5)]

if __name__ == "__main__":
    if len(sys.argv) != 5:
        sys.exit("usage: stand_in_door.py PORT BATCH LEADKEY OUT")
    of_batch = Matter(sys.argv[3], sys.argv[2], 1)
    of_batch.out = sys.argv[4]
    stand_in.serve(of_batch, sys.argv[1])
