#!/usr/bin/env python3
"""The keyboard alone does all of it: each action that the page offers, made by Chromium's events of keys and nothing else, and its
effect at the desk or in the page. In each state each control has a name in Chromium's tree; Tab goes through all of them in order;
what has the focus is in sight after each key, and the focus comes back where a dialog is closed. At the end: each control that any
state has was used. Over the program, where it is given, else over the stand-in; the receiver's page over their door.

The way in        a key, refused and taken; Leave
The list          arrows, J, K, U, O with a number; each filter (F), who I am; each order and its turn, the fields of name, date and
                  author (I); found only
Pages             next, before, read on and back; larger, smaller, each kind of size, moved over; turned; words
The call          responsive, treatment, designation; by keys and by the form; taken back; look again; marked
Boxes             made, moved, sized, given a basis, put, left; chosen on the page and in the list; moved again; dropped; of words
                  that are chosen
Fields, entry     held back, freed, all listed; the log entry put
Many              those marked, a family; asked, called, refused, opened, stopped, taken back
Second review     confirmed, sent back, left; another of the family; what another changed
Find              words, hits by arrows and by . and ,; those found listed; cleared, stopped; a link
Redact by term    proposed in one and in all; taken and left one by one, a page, a document, all; opened, shown; put, refused,
                  undone, stopped
Screens           range, screens, checked, saved, a row opened, stopped
People            who is there; a person taken in (no desk renames or takes out anybody, so that the page offers neither)
Production        each field of it; in the way: opened, families taken in; the plan and its lists, saved; its pages, sample and
                  ticks; frozen; those that stand looked at; stopped
Receiver          a production, its volume, its digest compared; files of each kind looked at; saved as an archive and into a
                  folder; stopped

    keyboard.py SCRATCH SHOTS [PROGRAM]     pictures of all states go into the folder SHOTS
"""
import os
from contextlib import closing, contextmanager

import keyboard_decide as decide
import keyboard_find as find
import keyboard_list as lists
import keyboard_many as many
import keyboard_produce as produce
import keyboard_receiver as receive
from by_keys import Hands
from door import Door, StandInDoor
from frame import given, window
from office import Office
from person import check, finish

MET, USED = set(), set()  # controls, by role and name


@contextmanager
def hands(office, shots):
    """Somebody at the keyboard; what was met and used is kept."""
    with window(office, kind=Hands, shots=shots) as person:
        try:
            yield person
        finally:
            keep(person.met, person.used)


def keep(met, used):
    MET.update(met)
    USED.update(used)


def folder_in(scratch, name):
    os.mkdir(folder := os.path.join(scratch, name))
    return folder


def review(office, shots):
    lists.decide(office)
    with hands(office, shots) as person:
        lists.try_way_in(person, office)
        lists.try_list(person, office)
        lists.try_pages(person)
        decide.try_call(person, office)
        decide.try_boxes(person, office)
        decide.try_words(person, office)
        decide.try_fields(person, office)
        decide.try_entry(person, office)
        many.try_many(person, office)
        many.try_key_list(person)
        find.try_find(person, office)
        find.try_terms(person, office)
        find.try_screens(person, office)
    with hands(office, shots) as person:
        many.try_second(person, office)
    with hands(office, shots) as person:
        produce.try_people(person, office, shots)
        produce.try_production(person, office)
        receive.try_amiss(person, office)


def main():
    scratch, shots, program = given()
    with closing(Office(folder_in(scratch, "batch"), program, desks=2)) as office:
        review(office, shots)
    door = Door if program else StandInDoor
    with closing(door(folder_in(scratch, "door"), program, desks=2 if program else 1)) as office:
        line = office.deliver()
        with hands(office, shots) as person:
            receive.try_receiver(person, office, line)
            receive.try_empty(person, office)
    keep(*find.try_stop(scratch, shots))
    left = sorted(MET - USED)
    check(f"each of {len(MET)} kinds of controls was used", left == [], left)
    finish("the keyboard alone")


main()
