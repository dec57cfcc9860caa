"""What tries report that have to do without pytest: a line for each try, and how many passed."""

_counts = {True: 0, False: 0}


def report(what: str, is_well: object, why: object = "") -> bool:
    """Counts a try and says how it went. Returns whether it passed."""
    _counts[bool(is_well)] += 1
    if is_well:
        print(f"passed: {what}", flush=True)
    else:
        print(f"FAILED: {what}{f': {why}' if why else ''}", flush=True)
    return bool(is_well)


def summary() -> int:
    """Prints how many tries passed and failed, and returns the status for both."""
    print(f"{_counts[True]} passed, {_counts[False]} failed")
    return int(_counts[False] > 0)
