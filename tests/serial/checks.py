"""What the checks of the serial line have in common: a comparison, and the line that is printed for each."""
import concurrent.futures


class Wrong(Exception):
    """What does not hold, in words."""


def same(what, found, wanted):
    if found != wanted:
        raise Wrong(f"{what}: {found}\nand not: {wanted}")


def text_of(path):
    with open(path, encoding="utf-8") as file:
        return file.read()


def tried(what, function, *arguments):
    """Whether a check holds, and the line that says so."""
    try:
        told = function(*arguments)
    except Exception as error:  # whatever it is, the other checks are told too
        reason = str(error) if isinstance(error, Wrong) else repr(error)
        return False, f"FAILED: {what}\n    " + reason.replace("\n", "\n    ")
    return True, f"passed: {what}" + (f" ({told})" if told else "")


def all_hold(checks):
    """Makes all checks at once and prints their lines in order. Each is a name, a function and its arguments."""
    with concurrent.futures.ThreadPoolExecutor(len(checks)) as pool:
        results = list(pool.map(lambda check: tried(*check), checks))
    for _, line in results:
        print(line)
    return all(holds for holds, _ in results)
