#!/usr/bin/env python3
"""An adapter in Python: a coffee machine as a class, and the labels of its specification.

Words: none for the machine, or `twice` for one with a fault: it gives its tea two times.
"""

import sys


class CoffeeMachine:
    """The program under test. It knows nothing of labels."""

    def __init__(self, teas: int) -> None:
        self.teas = teas

    def insert_coin(self) -> list[str]:
        """What the machine gives for a coin; after the first one it keeps them."""
        given, self.teas = ["tea"] * self.teas, 0
        return given


def main() -> None:
    machine = CoffeeMachine(teas=2 if sys.argv[1:] == ["twice"] else 1)
    for line in sys.stdin:
        if line == "?coin\n":
            for drink in machine.insert_coin():
                print(f"!{drink}\n", end="", flush=True)
        else:
            # a label that isn't an input: say so, and the session ends
            sys.exit(f"coffee.py: no input: {line!r}")


if __name__ == "__main__":
    main()
