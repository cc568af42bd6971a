#!/usr/bin/env python3
"""A version of the spooler, as a child of the learner: a letter is a command, which the spooler answers by a line.

    spool.py PROGRAM        PROGRAM is the built spooler; it is started anew at each reset
"""
import os
import sys

sys.dont_write_bytecode = True
sys.path.insert(1, os.path.dirname(os.path.dirname(os.path.abspath(__file__))))
import adapter


class Spooler(adapter.ChildAdapter):
    arguments = ("PROGRAM",)
    # The longest time for an answer: far more than it takes, so this only tells a version that hangs.
    seconds = 10

    def __init__(self, program):
        self.command = [program]

    def request(self, letter):
        return letter.upper()


Spooler.main()
