"""What was checked, and what was found wrong."""


class Tally:
    SHOWN = 20  # faults printed of one group

    def __init__(self, name):
        self.name, self.checked, self.faults = name, 0, []

    def check(self, good, what, *more):
        """Counts a check; what it found is kept if it is not good."""
        self.checked += 1
        if not good:
            self.faults.append(f"{what}" + "".join(f"\n    {str(x)[:1500]}" for x in more))
        return good

    def end(self, words):
        """Says what was checked, or what is wrong."""
        for fault in self.faults[:self.SHOWN]:
            print(f"{self.name}: FAULT {fault}")
        if len(self.faults) > self.SHOWN:
            print(f"{self.name}: and {len(self.faults) - self.SHOWN} faults more")
        print(f"{self.name}: {words}" if not self.faults else f"{self.name}: {len(self.faults)} of {self.checked} checks failed", flush=True)
        return not self.faults
