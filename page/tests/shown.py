# SPDX-License-Identifier: BSD-3-Clause
"""What the tests of the page share: files, pages that tools/report makes of them, and what a user sees and does."""
import http.server
import tempfile
import threading
from pathlib import Path

from aclc_tools.program import TOP
from tool import DATA, EXAMPLES, tool

PICTURES = TOP / "page" / "tests" / "out"
OFFICE, EDITED = EXAMPLES / "office.rules", EXAMPLES / "edited.rules"
TEXTS = "[...document.querySelectorAll('.table .row:not(.head)')].map(it => it.innerText.replace(/\\s+/g, ' ').trim())"
VIEW = "document.getElementById('view').innerText"
LEAD = "document.querySelector('#view .lead').innerText"
SIDE = "document.getElementById('side').innerText"


class Files:
    """The files of the tests, and the pages that are made of them."""

    def __init__(self):
        self.room = tempfile.TemporaryDirectory()
        self.folder, self.pages = Path(self.room.name), {}

    def write(self, name, content):
        """A file of these bytes, or of this text."""
        path = self.folder / name
        path.write_bytes(content.encode() if isinstance(content, str) else content)
        return path

    def page(self, name, code, *words):
        """The address of a page of a report, which is made once."""
        if name not in self.pages:
            page = self.folder / f"{name}.html"
            done = tool("report", *words, "-o", page)
            if done[0] != code:
                raise AssertionError(f"report ends with {done[0]}: {done[2]}")
            self.pages[name] = page.as_uri()
        return self.pages[name]


FILES = Files()


class PageFolder(http.server.SimpleHTTPRequestHandler):
    """Serves the page's folder, and says nothing."""

    def __init__(self, *words):
        super().__init__(*words, directory=str(TOP / "page"))

    def log_message(self, *_):
        pass


class Shown:
    """A page in a browser."""

    browser_class = None

    @classmethod
    def setUpClass(cls):
        PICTURES.mkdir(exist_ok=True)
        cls.browser = cls.browser_class()
        cls.browser.start()
        cls.addClassCleanup(cls.browser.__exit__)

    def open(self, url):
        """Opens a page; before the next one, or at the end of the test, it has said nothing and asked nobody."""
        self.doCleanups()
        self.browser.open(url)
        self.addCleanup(self.check, url)

    def check(self, url):
        """The console has no message, and there was no request."""
        self.assertEqual(self.browser.messages, [])
        self.assertEqual(self.browser.others(url), [])

    def tab(self, name):
        """Goes to a view, and gives its text."""
        self.browser.evaluate(f"document.getElementById('tab-{name}').click()")
        self.picture(name)
        return self.browser.evaluate(VIEW)

    def picture(self, name):
        """Keeps a picture of what is seen."""
        self.browser.picture(PICTURES / f"{self.browser.name}-{self.id().rpartition('.')[2]}-{name}.png")

    def rows(self):
        """The texts of the rows that are drawn."""
        return self.browser.evaluate(TEXTS)

    def click(self, row):
        """Clicks a row of the table, which are counted from 1."""
        self.browser.evaluate(f"document.querySelector('.row[aria-rowindex=\"{row + 1}\"]').click()")

    def type(self, identifier, text):
        """Types into a field."""
        self.browser.evaluate(f"(() => {{ const it = document.getElementById('{identifier}'); it.value = {text!r}; "
                              "it.dispatchEvent(new Event(it.tagName === 'SELECT' ? 'change' : 'input')); })()")

    def serve(self):
        """Opens the page's files as a server has them, whose modules may be called; its address."""
        server = http.server.ThreadingHTTPServer(("127.0.0.1", 0), PageFolder)
        threading.Thread(target=server.serve_forever, daemon=True).start()
        self.addCleanup(server.server_close)
        self.addCleanup(server.shutdown)
        self.browser.open(f"http://127.0.0.1:{server.server_port}/index.html")
        return server
