#!/usr/bin/env python3
"""Says whether git takes the letters since the last reset, put together, as a name of a branch or tag: `?` asks git."""
import subprocess

import adapter


class Refname(adapter.Adapter):
    def reset(self):
        self.name = ""

    def step(self, letter):
        if letter == "?":
            done = subprocess.run(["git", "check-ref-format", "--allow-onelevel", self.name])
            return "yes" if done.returncode == 0 else "no"
        self.name += letter
        return "ok"


Refname.main()
