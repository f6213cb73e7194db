"""The tests of `jskw check` that are skipped since something is missing, and the last line, which counts them."""
import checks

skipped = []


def skip(what, lacks):
    """Says that a test is skipped, and what is missing."""
    skipped.append(what)
    print(f"== skipped: {what}: no {lacks}")


def counts():
    """The last line."""
    line = f"{checks.count - len(checks.failed)} passed, {len(checks.failed)} failed"
    return line + (f", {len(skipped)} skipped" if skipped else "")
