"""The browsers that tests of several pages share: each is started once, and ends behind the tests of its file."""

import sys

import kit

sys.path.insert(0, str(kit.CLIENTS))

import drivers  # noqa: E402

open_browsers = {}


def browser(kind, small_quota=False):
    """The browser of a kind, or a skip where it is not here."""
    if (kind, small_quota) not in open_browsers:
        try:
            open_browsers[kind, small_quota] = kind(small_quota)
        except drivers.NotDriven as missing:
            open_browsers[kind, small_quota] = missing
    found = open_browsers[kind, small_quota]
    if isinstance(found, drivers.NotDriven):
        raise kit.Skip(str(found))
    return found


def close():
    """Ends them all; check.py calls it behind a file of tests."""
    for found in open_browsers.values():
        if not isinstance(found, drivers.NotDriven):
            found.close()
    open_browsers.clear()


def in_each_browser(check, names=None):
    """Tests of a check, one for each browser and, where there are some, each name: `check(kind)` or `check(kind, name)`."""
    tests = {}
    for kind in drivers.BROWSERS:
        for name in names or [None]:
            title = f"test_{name or check.__name__.removeprefix('check_')}_in_{kind.name}"
            tests[title] = named(title, check, [kind] if name is None else [kind, name])
    return tests


def named(title, check, words):
    def test():
        return check(*words)
    test.__name__ = title
    test.__module__ = check.__module__
    return test
