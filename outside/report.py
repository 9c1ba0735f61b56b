"""What a test prints of its results."""


def report(results):
    """A line for each name with whether it is good, and the sum; gives the status to end with."""
    for name, good in results:
        print(("ok      " if good else "FAILED  ") + name)
    failed = sum(not good for _, good in results)
    print(f"{len(results) - failed} passed, {failed} failed")
    return 1 if failed or not results else 0
