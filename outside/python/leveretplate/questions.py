"""The numbered questions of document 01 and of the customer's requests, and the refusal of a call that fails one."""

QUESTIONS: dict[int, str] = {
    1: "Is the number of blocks from 1 to 6?",
    2: "Is each size at least 2, with at most 16 indices in all?",
    3: "Is there a division for each block, each at least 1?",
    4: "Are there at most 60,000 grid points?",
    5: "Has the start a number for each index, each block adding up to its division?",
    6: "Has the label table one label for each grid point?",
    7: "Is every label an index of the grid, or 0 for a label that is not yet known?",
    8: "Has the answer buffer room for the largest simplex, and a list of positions room for every grid point?",
    9: "Has the path ended within the budget?",
    10: "Has the loss table a loss for each player and profile?",
    11: "Is each loss from 1 to 1,000?",
    12: "Has the label buffer one byte for each grid point?",
    13: "Are map, number of blocks, sizes and divisions there, with one of the tables announced and no unknown bit?",
    14: "Are the remaining bytes of the slip exactly the fields announced?",
    15: "Is the game 1, 2 or 3, with these sizes?",
    16: "Are the labels known that the path needs?",
    17: "Has the trail buffer room for the trail? Of a reader: is there such a record, each up to it that of a move?",
    18: "Is the factor from 2 to 10, and the number of levels from 1 to 8?",
    19: "Are the points at least one, whole, not more than the largest simplex has, and on the grid?",
    20: "Is the walk at a place, come from one linked to it, with places from 1 to the bound, and the table's labels?",
    21: "Is this a shelf, on which each sheet replaces at most one earlier sheet that no other replaces?",
    22: "Is there room for one more sheet among the 1,000?",
    23: "Is the sheet on the shelf and, to be replaced, not yet replaced?",
}


class Refused(Exception):
    """A refusal: the number of the first question that is answered no, and the question in words.

    With number 9 `places` says how many places were visited. With number 16 it says how many were visited before the
    one that needs a label, and `position` which label that is, counted from 0 in the order of the table.

    >>> print(Refused(4))
    refused 4: Are there at most 60,000 grid points?
    >>> print(Refused(16, places=1, position=0))
    refused 16: Are the labels known that the path needs? (places 1, position 0)
    """

    def __init__(self, number: int, places: int | None = None, position: int | None = None):
        self.number = number
        self.question = QUESTIONS[number]
        self.places = places
        self.position = position
        super().__init__(number, places, position)

    def __str__(self) -> str:
        facts = [f"{name} {value}" for name, value in (("places", self.places), ("position", self.position))
                 if value is not None]
        return f"refused {self.number}: {self.question}" + (f" ({', '.join(facts)})" if facts else "")
