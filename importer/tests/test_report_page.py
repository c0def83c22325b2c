"""Tests the page of a report: what it says, that it needs no other file, and how a browser shows it on a phone."""
import html
import html.parser
import os
import re
import shutil
import subprocess
import tarfile
import tempfile
import unittest

from tcpwit_importer.capture.connections import connections_of
from tcpwit_importer.capture.packets import packets_of
from tcpwit_importer.capture.segments import ACK, FIN
from tcpwit_importer.commands.ladder import Numbers
from tcpwit_importer.files import opened
from tcpwit_importer.problem import Notes

from .test_judge import WithCaptures, laxer, no, run
from .test_recordings import DATA
from .wire import SECOND, Talk, pcap

BROWSERS = ("chromium", "chromium-browser", "google-chrome")
# The width of a phone's screen, in the units of style sheets.
PHONE = 390


def browser():
    """The path of a browser that runs without a screen; None if there is none."""
    return next(filter(None, map(shutil.which, BROWSERS)), None)


class Elements(html.parser.HTMLParser):
    """The elements of a page: their names and attributes, and the text of cells, notes and headings."""

    def __init__(self, page):
        super().__init__()
        self.found, self.texts, self.open = [], [], []
        self.feed(page)
        self.close()

    def handle_starttag(self, tag, attrs):
        self.found.append((tag, dict(attrs)))
        if tag not in ("meta", "br"):
            self.open.append(tag)

    def handle_endtag(self, tag):
        assert self.open.pop() == tag, tag

    def handle_data(self, data):
        if data.strip():
            self.texts.append(data)

    def values(self, tag, name):
        """The values of an attribute."""
        return [attributes[name] for found, attributes in self.found if found == tag and name in attributes]


class WithPages(WithCaptures):
    def page(self, files, answer, *words, status=1, name="kept"):
        """The elements of a report's page."""
        report = f"{self.folder}/{name}"
        found = run(*files, *self.lab(answer, status), "--report", report, *words)
        self.assertEqual(found[0], status, found)
        with open(f"{report}/index.html", encoding="utf-8") as file:
            self.text_of_page = file.read()
        elements = Elements(self.text_of_page)
        self.assertEqual(elements.open, [])
        return elements


class Pages(WithPages):
    def test_a_table_of_connections(self):
        talk = Talk(zero=("10.9.0.1", 4001), at=150 * SECOND)
        self.talk.frames[0] += talk.frames[0][1:2]
        page = self.page(self.files(hosts=(0,)), laxer(input_line=13), "--host", "client", status=0)
        self.assertIn("2 connections: 1 yes, 0 no, 1 not judged. ", " ".join(page.texts))
        row = page.texts.index("1")
        self.assertEqual(page.texts[row:row + 6],
                         ["1", "10.9.0.1:4000 -> 10.9.0.2:80", "0.000000 s", "7", "yes (none)",
                          "packet 1 (0.000000 s) retransmits data (old-data)"])
        row = page.texts.index("2")
        self.assertEqual(page.texts[row:row + 6],
                         ["2", "10.9.0.1:4001 -> 10.9.0.2:80", "50.003000 s", "1", "not judged",
                          "it began before the capture, which has segments of one direction only"])

    def test_the_levels_of_a_connection(self):
        page = self.page(self.files(hosts=(0,)), laxer(input_line=13), "--host", "client", status=0)
        row = page.texts.index("full")
        self.assertEqual(page.texts[row:row + 8],
                         ["full", "no", "packet 1 (0.000000 s) sends 9 bytes (congestion).", "recovery", "no",
                          "packet 1 (0.000000 s) retransmits data (old-data).", "none", "yes"])
        self.assertIn("ip.addr == 10.9.0.1 && tcp.port == 4000 && ip.addr == 10.9.0.2 && tcp.port == 80", page.texts)

    def test_levels_that_refuse_the_same(self):
        answer = no(input_line=13)
        for level in answer["levels"]:
            level["sentence"] = "line 13: it is wrong."
        page = self.page(self.files(hosts=(0,)), answer, "--host", "client")
        self.assertIn("full, none", page.texts)

    def test_it_needs_no_other_file(self):
        page = self.page(self.files(), no(input_line=13))
        self.assertNotIn("http", self.text_of_page)
        self.assertNotIn("url(", self.text_of_page)
        self.assertFalse({tag for tag, _ in page.found} & {"script", "link", "img", "iframe", "object"})
        for name in page.values("a", "href"):
            if name.startswith("#"):
                self.assertIn(name[1:], page.values("section", "id"))
            else:
                self.assertTrue(os.path.exists(f"{self.folder}/kept/{name}"), name)

    def test_the_packets_around(self):
        for number in range(20):
            self.talk.send(0, payload=b"more")
        # The line of packet 20.
        run(*self.files(hosts=(0,)), "--host", "client", *self.lab())
        lines = [line.split() for line in self.text("given").splitlines()]
        line = [at for at, words in enumerate(lines, 1) if words[2:3] in (["O"], ["I"])][19]
        answer = no(input_line=line)
        since = int(lines[line - 1][0]) - 17 * 2000 + 1
        answer["levels"][-1]["sentence"] = (f"line {line}: it is late; owed since {since}, due by {since}, with the "
                                            f"slack by {since}, and late at {since}.")
        page = self.page(self.files(hosts=(0,)), answer, "--host", "client")
        counts = [text for text in page.texts[page.texts.index("Around packet 20"):] if re.fullmatch(r"\d\d?", text)]
        # Those around, and the one after which the duty begins.
        self.assertEqual(counts, ["3", *map(str, range(10, 25))])
        self.assertIn("2 packets not shown", page.texts)
        self.assertIn("6 packets not shown", page.texts)
        self.assertIn("after this, the duty begins that is late", page.texts)

    def test_names_are_escaped(self):
        name = f"{self.folder}/<b>&.pcap"
        pcap(name, self.talk.frames[0])
        self.page([name], no(input_line=13), "--host", "client")
        self.assertIn("&lt;b&gt;&amp;.pcap</h1>", self.text_of_page)
        self.assertNotIn("<b>", self.text_of_page)


@unittest.skipUnless(shutil.which("tshark"), "tshark isn't installed")
class Tshark(unittest.TestCase):
    def compare(self, name):
        fields = ("frame.number", "tcp.seq", "tcp.ack", "tcp.window_size", "tcp.len", "tcp.flags.ack")
        words = ["tshark", "-n", "-r", name, "-Y", "tcp", "-T", "fields", *[word for field in fields
                                                                            for word in ("-e", field)]]
        out = subprocess.run(words, check=True, stdout=subprocess.PIPE, stderr=subprocess.DEVNULL, text=True).stdout
        expected = {}
        for number, seq, ack, win, size, acknowledges in map(str.split, out.splitlines()):
            ack = f" Ack={ack}" if acknowledges in ("1", "True") else ""
            expected[int(number)] = f"Seq={seq}{ack} Win={win} Len={size}"
        with opened(name, "") as file:
            packets = list(packets_of(name, file, Notes()))
        for connection in connections_of({name: packets}):
            own = list(connection.packets())
            numbers = Numbers(connection, own)
            for packet in own:
                self.assertEqual(numbers.info(packet).split("] ")[1], expected[packet.count], packet.place)

    def test_numbers(self):
        with tempfile.TemporaryDirectory() as folder:
            with tarfile.open(os.path.join(DATA, "recordings.tar.xz")) as archive:
                archive.extractall(folder, [member for member in archive if member.name.endswith(".pcap")])
            for name in ("loopback/run.pcap", "netcat-ipv6/host1.pcap", "offload-60kB/host0.pcap",
                         "refused/host0.pcap"):
                with self.subTest(name):
                    self.compare(f"{folder}/{name}")


@unittest.skipUnless(browser(), "no Chromium is installed")
class Browser(WithPages):
    # Shows the page in a frame of a width, and says in the title how wide the frame and the page in it are, how many
    # arrows it has, and how a cell is displayed. A browser's window may not be as narrow as a phone.
    FRAME = """<title></title><iframe style="width: {}px; border: 0" srcdoc="{}"></iframe><script>onload = () => {{
        const page = document.querySelector("iframe").contentDocument, root = page.documentElement;
        const cell = page.defaultView.getComputedStyle(page.querySelector(".connections td"));
        document.title = [root.clientWidth, root.scrollWidth, page.querySelectorAll(".lane > div").length,
                          cell.display].join(" ");
    }};</script>"""

    def shown(self, width):
        """The widths of the window and the page, how many arrows there are, and how a cell is displayed."""
        framed = f"{self.folder}/kept/framed.html"
        with open(framed, "w", encoding="utf-8") as file:
            file.write(self.FRAME.format(width, html.escape(self.text_of_page)))
        words = [browser(), "--headless", "--no-sandbox", "--disable-gpu", "--hide-scrollbars",
                 f"--user-data-dir={self.folder}/browser", "--window-size=1400,900", "--dump-dom", f"file://{framed}"]
        out = subprocess.run(words, check=True, stdout=subprocess.PIPE, stderr=subprocess.DEVNULL, text=True,
                             timeout=120).stdout
        window, page, arrows, display = re.search("<title>(.*)</title>", out)[1].split()
        return int(window), int(page), int(arrows), display

    def test_on_a_phone_and_on_a_desk(self):
        self.talk = Talk(zero=("fd00:1111:2222:3333:4444:5555:6666:7777", 40000),
                         one=("fd00:1111:2222:3333:4444:5555:6666:8888", 8080))
        self.talk.send(0, FIN | ACK, b"hello")
        self.page(self.files(), no(input_line=13))
        for width, display in ((PHONE, "block"), (1200, "table-cell")):
            # Nothing is wider than the screen.
            self.assertEqual(self.shown(width), (width, width, 4, display))


if __name__ == "__main__":
    unittest.main()
