"""How many allocations were refused, of which commands."""


class Table:
    """The refused allocations of each command word."""

    def __init__(self):
        self._rows = {}

    def add(self, word, refused):
        commands, allocations = self._rows.get(word, (0, 0))
        self._rows[word] = (commands + 1, allocations + refused)

    def allocations(self):
        """All of them."""
        return sum(allocations for _, allocations in self._rows.values())

    def tell(self, tell):
        """Tells them, with all of them first."""
        commands = sum(row[0] for row in self._rows.values())
        tell(f"{self.allocations()} allocations refused in {commands} commands")
        for word in sorted(self._rows):
            tell(f"  {word:14} {self._rows[word][1]:8} in {self._rows[word][0]:5}")
