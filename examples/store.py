#!/usr/bin/env python3
"""The transactions of a store, as one client sees them: what was watched and then set by another makes `exec` do nothing."""
import adapter


class Store(adapter.Adapter):
    def reset(self):
        self.is_queueing, self.watch = False, "none"

    def step(self, letter):
        if letter == "other-set":
            self.watch = "broken" if self.watch == "kept" else self.watch
        elif self.is_queueing != (letter in ("exec", "discard")):
            return "refused"
        elif letter == "multi":
            self.is_queueing = True
        elif letter == "watch":
            self.watch = "kept" if self.watch == "none" else self.watch
        elif letter in ("exec", "discard"):
            is_spoiled = letter == "exec" and self.watch == "broken"
            self.reset()
            return "nothing" if is_spoiled else "ok"
        else:
            return None
        return "ok"


Store.main()
