"""Counts what agrees and what differs, for the tools that hold one thing against another."""


class Tally:
    """How many of the things that were compared agree, and how many differ."""

    def __init__(self) -> None:
        self.agree = self.differ = 0

    def count(self, agrees: bool) -> bool:
        """Counts one, and answers whether it agrees."""
        self.agree += agrees
        self.differ += not agrees
        return agrees

    def said(self) -> str:
        """Both numbers, as the tools end with them."""
        return f"{self.agree} agree, {self.differ} differ"
