#!/usr/bin/env python3
"""Says whether the letters since the reset, put together, match a pattern: `?` is answered by `yes` or `no`, others by `ok`."""
import re

import adapter


class Matcher(adapter.Adapter):
    arguments = ("PATTERN",)

    def __init__(self, pattern):
        self.pattern = re.compile(pattern)

    def reset(self):
        self.text = ""

    def step(self, letter):
        answer = "ok"
        if letter == "?":
            answer = "yes" if self.pattern.fullmatch(self.text) else "no"
        else:
            self.text += letter
        return answer


Matcher.main()
