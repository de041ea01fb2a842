"""A count of checks, what a part measured, and the failure that ends a part."""


class Failure(Exception):
    """Something that a part waits for did not come: the part cannot go on."""


class Checks:
    """Counts what holds and prints what does not; keeps what was measured until it is printed."""

    def __init__(self):
        self.passed = self.failed = 0
        self.part, self.notes = "", []

    def true(self, what, holds):
        """One check: this holds."""
        if holds:
            self.passed += 1
        else:
            self.failed += 1
            print(f"failed: {self.part}: {what}", flush=True)
        return holds

    def equal(self, what, found, expected):
        """One check: what was found is what was expected."""
        return self.true(f"{what}: {found}, expected {expected}", found == expected)

    def between(self, what, found, least, most):
        """One check: a number within its bounds, which is noted too."""
        self.note(f"{what} {found if isinstance(found, int) else f'{found:.2f}'}")
        return self.true(f"{what}: {found:.3f}, expected {least:.2f} to {most:.2f}", least <= found <= most)

    def note(self, text):
        """Something that was measured, or left out."""
        self.notes.append(text)
