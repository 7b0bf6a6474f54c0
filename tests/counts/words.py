"""The words of the counts of `make_listing_counts.py`, in the order in which they are printed."""
from counts.pairs import SORTS

SHOWN = ["no grade and a fixed pair", "no grade and no pair", "a grade and a fixed pair"]
SHOWN += ["a fixed pair and a student without a mentor", "the grade 0 and a repair of distance 1"]
SHOWN_MOVES = ["a move for the better", "a move for the worse", "a fixed pair", "a student without a mentor"]
SHOWN_MOVES += ["a repair that moves students and leaves others"]
SHORT_WORDS = ["books refused as one-sided", "books with rotations", "books with somebody alone on each side"]
SHORT_WORDS += ["books with both", "students alone", "mentors alone"]
SHORT_WORDS += ["searches that a mentor who is alone ends before a willing one"]
BESIDE = [
    [f"stable matchings beside {r}", f"students whom {r} leaves and these move", f"students whom {r} moves less far"]
    for r in ("repair up", "repair down")
]
PAIRS = [f"two pairs {letters}" for letters in [*SORTS, "F"]]
PAIRS += ["the same pair twice", "the same fixed pair twice"]
WORDS = ["books", "matchings", "stable matchings", "answers U", "answers D", "answers F"]
WORDS += [f"answers by mentor {letter}" for letter in "UDF"]
WORDS += [word for beside in BESIDE for word in beside]
WORDS += [f"answers to {asked}" for asked in PAIRS] + ["stable matchings beside candidates"]
WORDS += ["refusals", "rotations", "sets", "sheets"] + [f"sheets with {kind}" for kind in SHOWN]
WORDS += [f"sheets with moves and {kind}" for kind in SHOWN_MOVES]
WORDS += ["moves for the better", "moves for the worse", "bytes of lines with moves"]
WORDS += ["weighted matchings", "weighted answers U", "weighted answers D", "weighted answers F"]
WORDS += [f"weighted answers by mentor {letter}" for letter in "UDF"]
WORDS += ["weighted totals", "weighted grades"]
WORDS += [f"weighted answers to {asked}" for asked in PAIRS] + ["weighted totals of two pairs"]
WORDS += [f"weighted sheets with {kind}" for kind in SHOWN]
