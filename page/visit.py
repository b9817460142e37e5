"""A visit of the page: what a person does there, and what is seen."""

import re
import tempfile
import time

from devtools import Page


class Wrong(Exception):
    """The page isn't as it has to be."""


def is_true(condition, words):
    if not condition:
        raise Wrong(words)


def is_same(found, wanted, words):
    is_true(found == wanted, f"{words}: {str(found)[:300]!r}, wanted {str(wanted)[:300]!r}")


class Visit:
    """A visit of the page, with a folder into which it saves."""

    def __init__(self, browser, url, **how):
        self.page, self.folder = Page(browser, url, **how), tempfile.mkdtemp(dir=browser.folder)
        how = {"behavior": "allowAndName", "downloadPath": self.folder, "eventsEnabled": True}
        browser.call("Browser.setDownloadBehavior", **how)

    def value(self, expression):
        return self.page.value(expression)

    def text(self, selector):
        return self.value(f"document.querySelector('{selector}').textContent")

    def is_done(self, seconds=30):
        """Waits until the page is at rest, and answers how it ended."""
        state = "document.getElementById('page').dataset.state"
        self.page.wait(f"['ready', 'failed'].includes({state})", seconds)
        return self.value(state)

    def open(self, file, seconds=30):
        self.value("document.getElementById('page').dataset.state = 'chosen'")
        self.page.choose_file("#file", file)
        return self.is_done(seconds)

    def fields(self):
        form = "[...document.getElementById('settings').elements].filter((it) => it.name)"
        return self.value(f"Object.fromEntries({form}.map((it) => [it.name, it.type === 'checkbox' ? it.checked : it.value]))")

    def set_field(self, name, value):
        field = f"document.getElementById('settings').elements['{name}']"
        return f"{field}.checked = {str(value).lower()}" if isinstance(value, bool) else f"{field}.value = '{value}'"

    def set_fields(self, fields):
        """Sets the family, which fills in the others, and then those, with one event."""
        event = "document.getElementById('settings').elements['{}'].dispatchEvent(new Event('change', {{ bubbles: true }}))"
        self.value(f"{self.set_field('family', fields['family'])}; {event.format('family')}")
        self.is_done()
        self.value("; ".join(self.set_field(*it) for it in fields.items()) + "; " + event.format("own"))
        self.is_done()

    def saved(self, name, seconds=30):
        """What the page saves where its button is clicked."""
        button = f"document.querySelector('[data-save={name}]')"
        self.value(f"{button}.scrollIntoView({{ block: 'center' }})")
        x, y = self.value(f"(({{ x, y, width, height }}) => [x + width / 2, y + height / 2])({button}.getBoundingClientRect())")
        before = len(self.downloads())
        self.page.click(x, y)
        until = time.monotonic() + seconds
        while len(self.downloads()) == before:
            is_true(time.monotonic() < until, f"the {name} isn't saved")
            time.sleep(0.02)
        with open(f"{self.folder}/{self.downloads()[-1]}", "rb") as it:
            return it.read()

    def downloads(self):
        """The names of the files that are saved whole."""
        self.value("1")
        told = [it["params"] for it in self.page.browser.events if it["method"] == "Browser.downloadProgress"]
        return [it["guid"] for it in told if it["state"] == "completed"]

    def focused(self):
        """What has the focus: its id or name, of a button its text."""
        return self.value("(({ id, name, textContent, tagName }) => id || name || (tagName === 'BUTTON' ? textContent : tagName))"
                          "(document.activeElement)")

    def tab_to(self, wanted, most=60):
        """Presses Tab until what is wanted has the focus; answers what had it on the way."""
        way = []
        for _ in range(most):
            self.page.key("Tab")
            way.append(self.focused())
            if way[-1] == wanted:
                return way
        raise Wrong(f"Tab doesn't come to {wanted}: {way}")

    def chosen(self, name):
        """The line that is chosen in a list."""
        return self.text(f"#{name} [aria-selected=true]")

    def close(self):
        """Nothing may have gone wrong unseen, no request may have gone anywhere, and nothing may be kept."""
        for it in self.page.told("Runtime.exceptionThrown"):
            details = it["exceptionDetails"]
            raise Wrong(f"an exception: {details.get('exception', {}).get('description') or details}")
        for it in self.page.told("Log.entryAdded"):
            raise Wrong(f"the browser says: {it['entry']['text']}")
        self.page.close()


def memory_of(browser):
    """The megabytes that the browser and its processes have in memory, each page of theirs once."""
    found, pids = 0, [browser.process.pid]
    while pids:
        pid = pids.pop()
        try:
            with open(f"/proc/{pid}/task/{pid}/children", encoding="ascii") as it:
                pids += [int(word) for word in it.read().split()]
            with open(f"/proc/{pid}/smaps_rollup", encoding="ascii") as it:
                found += int(re.search(r"Pss: +(\d+) kB", it.read()).group(1))
        except OSError:
            pass
    return found // 1024
