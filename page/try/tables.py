"""Tries of the table: its rows, their order, its filter, and the keyboard."""
import pathlib

from driving import column, saved_names, show, wait_for_name
from expected import rows_of


def shown_as(row):
    """A row of the program's table as the page shows it."""
    size = f"{row['width']} x {row['lines']}" if row["width"] else ""
    return {"name": pathlib.Path(row["file"]).name, "verdict": row["verdict"], "needs": row["needs"],
            "players": row["players"], "fault": row["fault"], "at": row["at"], "notes": row["notes"], "size": size}


def try_table(browser, tries, program, paths):
    """Many drawings: the rows as the program's table has them, and their order."""
    show(browser, paths)
    wanted = [shown_as(row) for row in rows_of(program, paths)]
    shown = {key: column(browser, key) for key in wanted[0]}
    shown["fault"] = [text.split(" ")[0] for text in shown["fault"]]
    tries.want("rows", len(shown["name"]), len(paths))
    for key, values in shown.items():
        tries.want(f"the column {key}", dict(zip(shown["name"], values)), {row["name"]: row[key] for row in wanted})
    for key in ("name", "verdict"):
        browser.value(f"document.querySelector('thead [data-key={key}] button').focus()")
        browser.press("Enter")
        tries.want(f"sorted by {key}", column(browser, key), sorted(column(browser, key)))
        order = browser.value(f"document.querySelector('thead [data-key={key}]').ariaSort")
        tries.want("aria-sort", order, "ascending")
        browser.press("Enter")
        tries.want(f"sorted by {key}, downwards", column(browser, key), sorted(column(browser, key), reverse=True))
    tries.want("a value that would calculate", browser.value("csvValue('=1,\"2')"), "\"'=1,\"\"2\"")
    tries.want("what is saved", saved_names(browser), ["name", *column(browser, "name")])
    return wanted


def try_filter(browser, tries, rows):
    """Which rows each button of the filter shows, and how many it names. The CSV has all rows, in the same order."""
    cleared, refused = ([row for row in rows if row["verdict"] == word] for word in ("cleared", "refused"))
    kinds = {"all": rows, "refused": refused, "cleared": cleared, "unanswered": []}
    order = column(browser, "name")
    for kind, wanted in kinds.items():
        button = f"document.querySelector('[data-filter={kind}]')"
        tries.want(f"{kind}: its count", browser.value(f"{button}.textContent.split(': ')[1]"), str(len(wanted)))
        tries.want(f"{kind}: whether it can be chosen", browser.value(f"!{button}.disabled"),
                   kind == "all" or len(wanted) > 0)
        if not wanted:
            continue
        browser.value(f"{button}.click()")
        names = {row["name"] for row in wanted}
        tries.want(f"{kind}: what is shown", column(browser, "name"), [name for name in order if name in names])
        tries.want(f"{kind}: what is pressed", browser.value(
            "[...document.querySelectorAll('#filter [aria-pressed=true]')].map((each) => each.dataset.filter)"), [kind])
    tries.want("what is saved of a filtered table", saved_names(browser), ["name", *order])
    return column(browser, "name")


def try_steps(browser, tries, names):
    """By the keyboard from row to row of a filtered table, and from drawing to drawing."""
    tries.want("stops of the tab key", browser.value("document.querySelectorAll('#rows [tabindex=\"0\"]').length"), 1)
    browser.value("document.querySelector('#rows [tabindex=\"0\"]').focus()")
    for key, at in (("Home", 0), ("ArrowDown", 1), ("ArrowDown", 2), ("ArrowUp", 1), ("End", -1), ("ArrowDown", -1),
                    ("Home", 0), ("ArrowUp", 0)):
        browser.press(key)
        tries.want(f"{key}: the row", browser.value("document.activeElement.textContent"), names[at])
    tries.want("stops after that", browser.value(
        "[...document.querySelectorAll('#rows [tabindex=\"0\"]')].map((each) => each.textContent)"), [names[0]])
    browser.press("Enter")
    wait_for_name(browser, names[0])
    tries.want("what has the focus", browser.value("document.activeElement.id"), "name")
    tries.want("none before the first", browser.value("element('previous').disabled"))
    for key, at in (("p", 0), ("n", 1), ("n", 2), ("p", 1)):
        browser.press(key)
        wait_for_name(browser, names[at])
    browser.value("element('next').click()")
    wait_for_name(browser, names[2])
    tries.want("its place", browser.value("element('step-place').textContent"), f"3 of {len(names)} shown in the table")
    current = "[...document.querySelectorAll('#rows [aria-current=true] button')].map((each) => each.textContent)"
    tries.want("the row of the drawing", browser.value(current), [names[2]])
    browser.value("document.querySelector('[data-filter=all]').click()")


def try_many(browser, tries):
    """Thousands of files that are too long, which are answered one after the other."""
    browser.value("(window.one = checks.study(new Blob(['x']), false), window.many = Promise.all(Array.from("
                  "{ length: 20000 }, () => checks.study({ size: LONGEST_FILE + 1 }, false))), true)")
    tries.want("files that are too long", browser.value(
        "many.then((all) => all.every(({ answer }) => answer === 'too long'))"))
