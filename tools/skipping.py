"""How a check says what it left out, in a line that .ci/run shows again at its end."""


def skipped(what, remedy):
    """Says that `what` was not tried, and what to do to have it tried."""
    print(f"skipped: {what}: {remedy}", flush=True)
