"""How tests look at things. Each function `test_..` of a module yields a pair for each thing that it looks at: what it is, and
None where it is so, or how it differs."""

import pathlib
import sys

TOP = pathlib.Path(__file__).resolve().parents[2]


class Skipped(Exception):
    """A test cannot be tried here; the text says why."""


def holds(is_so, otherwise):
    """None where it is so."""
    return None if is_so else otherwise


def same(expected, got):
    """None where both are the same, else both of them."""
    return holds(expected == got, f"expected {expected!r}\n    got      {got!r}")


def begins(front, got):
    """None where the text begins so."""
    return holds(got.startswith(front), f"expected {front!r}\n    got      {got!r}")


def tests_of(modules, chosen):
    """The tests whose names have one of these words, or all."""
    for module in modules:
        for name, test in vars(module).items():
            if name.startswith("test_") and (not chosen or any(word in name for word in chosen)):
                yield name[len("test_") :].replace("_", " "), test


def chosen_tests(modules):
    """The tests that the command line names, or all. Ends with 2 where a word names none."""
    words = sys.argv[1:]
    unknown = [word for word in words if not any(tests_of(modules, [word]))]
    if unknown:
        usage = f"usage: {sys.argv[0]} [NAME..]"
        if unknown[0] in ("-h", "--help"):
            print(usage)
            sys.exit(0)
        print(f"there is no test with {unknown[0]} in its name\n{usage}", file=sys.stderr)
        sys.exit(2)
    return tests_of(modules, words)


def look(*modules):
    """Runs the tests that the command line names, or all; prints what differs, and counts. Ends with 1 where something did."""
    passed = failed = 0
    for name, test in chosen_tests(modules):
        try:
            for what, differs in test():
                passed += differs is None
                failed += differs is not None
                if differs is not None:
                    print(f"FAILED {name}: {what}\n    {differs}")
        except Skipped as reason:
            print(f"skipped: {reason}")
        except Exception as error:  # noqa: BLE001
            failed += 1
            print(f"FAILED {name}: {type(error).__name__}: {error}")
    print(f"{passed} passed, {failed} failed")
    sys.exit(1 if failed else 0)
