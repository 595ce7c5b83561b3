"""Checks counted one by one; `finish` prints 'N passed, M failed' as the last line and ends the program."""
import sys


class Count:
    def __init__(self, name):
        self.name, self.passed, self.failed = name, 0, 0

    def check(self, held, what):
        """Counts one check; of one that fails, says what it was."""
        if held:
            self.passed += 1
        else:
            self.failed += 1
            print(f'{self.name}: {what}')

    def finish(self):
        print(f'{self.passed} passed, {self.failed} failed')
        sys.exit(1 if self.failed else 0)
