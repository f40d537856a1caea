"""Counts runs of programs by the way in which they ended."""

from collections import Counter

from tests.support.parts import Counts


class Runs(Counts):
    def add(self, name, runs, *wanted):
        """Counts the runs, of which each way that is wanted has to be met."""
        met = Counter()
        for way, said in runs:
            met[way] += 1
            self.note(f"{name}: {way}", said)
        print(f"  {name}: " + (", ".join(f"{count} {way}" for way, count in met.items()) or "none"), flush=True)
        for way in wanted:
            self.note(name, [] if met[way] else [f"no run ended so: {way}"])
