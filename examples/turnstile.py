#!/usr/bin/env python3
"""A turnstile that holds two coins at most, as a child program. In `turnstile.sh` it stands without a base class."""
import adapter


class Turnstile(adapter.Adapter):
    def reset(self):
        self.coins = 0

    def step(self, letter):
        held = self.coins
        if letter == "coin":
            self.coins = min(held + 1, 2)
            return "taken" if held < 2 else "returned"
        if letter == "push":
            self.coins = max(held - 1, 0)
            return "turned" if held > 0 else "locked"


Turnstile.main()
