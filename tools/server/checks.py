"""Rows of what is tried: each that goes wrong is reported, and all are counted."""

TRIED = []
WRONG = []
# how much is shown of what came
MOST_SHOWN = 1500


def check(title, is_well, came):
    TRIED.append(title)
    if not is_well:
        WRONG.append(title)
        print(f"WRONG {title}: {came!r}"[:MOST_SHOWN], flush=True)


def conclusion():
    """The last line of a report, and the status."""
    return f"{len(TRIED) - len(WRONG)} rows well, {len(WRONG)} wrong", 1 if WRONG else 0
