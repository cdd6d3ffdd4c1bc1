"""Words that the lines about BuildKit share."""

# What is named in place of a rule where a difference is one of the trees that a step works on.
INHERITED = "its inputs differ"


def more_paths(count: int, at_least: bool = False) -> str:
    """Returns how many paths are not shown, in words."""
    return f"and {'at least ' if at_least else ''}{count:,} more path{'' if count == 1 else 's'}"
