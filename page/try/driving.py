"""How the page is driven, and what differs."""
import csv
import json
import time


class Tries:
    """What was tried, and what differs."""

    def __init__(self, name):
        self.name = name
        self.differences = 0

    def want(self, what, told, expected=True):
        """Compares, and prints a difference."""
        if told == expected:
            return True
        self.differences += 1
        print(f"{self.name}: {what}: {str(told)[:300]!r}, expected {str(expected)[:300]!r}")
        return False


def show(browser, paths, input_name="files"):
    """Gives drawings to the page, and waits until it is done."""
    browser.value("(element('name').textContent = '', element('status').textContent = '')")
    browser.choose(input_name, paths)
    browser.wait("busy === 0 && element('status').textContent !== ''")


def column(browser, key):
    """A column of the table as it is."""
    return browser.value(f"[...document.querySelectorAll('tbody [data-key={key}]')].map((cell) => cell.textContent)")


def wait_for_name(browser, name):
    """Waits until this drawing is shown, and nothing is asked any more."""
    browser.wait(f"busy === 0 && element('name').textContent === {json.dumps(name)}")


def saved(browser, button, name):
    """The file of this name that the page saves."""
    path, end = browser.downloads / name, time.monotonic() + 20
    path.unlink(missing_ok=True)
    browser.value(f"element('{button}').click()")
    while not (path.exists() and path.stat().st_size) and time.monotonic() < end:
        time.sleep(0.1)
    return path


def saved_names(browser):
    """The first column of the CSV that the page saves."""
    with open(saved(browser, "save", "drawings.csv"), encoding="utf-8-sig", newline="") as file:
        return [row[0] for row in csv.reader(file)]
