"""What is told of the test cases, and their count."""

from words import to_transcript


class Report:
    """Counts test cases, and tells each that failed."""

    def __init__(self, tell=print):
        self.tell = tell
        self.passed = 0
        self.failed = 0

    def row_passed(self):
        self.passed += 1

    def row_failed(self, row, got, times=1):
        """Tells a test case with what was got, so many times, in place of the wanted answer, as a transcript has it."""
        self.fault(f"{row.place}: {row.command}\n  wanted  {row.wanted}\n  got     {got}", times)

    def answer(self, row, got):
        """Counts a test case by the program's answer."""
        if got == row.answer:
            self.row_passed()
        else:
            self.row_failed(row, to_transcript(got))

    def fault(self, text, times=1):
        """Tells something that failed, so many times."""
        self.tell(text)
        self.failed += times

    def close(self):
        """Tells the count, and answers the exit status."""
        self.tell(f"{self.passed} passed, {self.failed} failed")
        return 1 if self.failed else 0
