"""What the pages and the downloads say of a small store, value by value."""

import csv
import io
import re
import unittest
from xml.etree import ElementTree

import timestore

from timestore_browse import chart, values
from timestore_browse.markup import element, join

from .base import MOST_RECORD, STRANGE, BrowseTest, fill, rows

DAY = "1970-01-01 00:00:00"


class Pages(BrowseTest):
    def setUp(self) -> None:
        super().setUp()
        self.server = self.serve()

    def test_relations(self) -> None:
        page = self.page(self.server, "/")
        self.assertEqual(rows(page), [
            ["1", "2", "2", "4", f"{DAY}.000100", f"{DAY}.000130"],
            ["2", "1", "1", "1", f"{DAY}.000140", f"{DAY}.000140"],
            ["65535", "1", "1", "1", f"{DAY}.000150", f"{DAY}.000150"],
        ])  # fmt: skip
        self.assertIn("6 commits, the last one at ", page)
        self.assertIn('href="/relations/65535"', page)

    def test_records_at_each_time(self) -> None:
        wanted = {
            99: [],
            100: [["7", "a"]],
            109: [["7", "a"]],
            110: [["7", "b"], ["8", "x|y"]],
            120: [["8", "x|y"]],
            129: [["8", "x|y"]],
            130: [["7", "c"], ["8", "x|y"]],
            150: [["7", "c"], ["8", "x|y"]],
        }
        for time, records in wanted.items():
            self.assertEqual(rows(self.page(self.server, f"/relations/1?at={time}")), records, time)
        self.assertEqual(rows(self.page(self.server, f"/relations/1?at={DAY}.000110".replace(" ", "+"))), wanted[110])
        self.assertEqual(rows(self.page(self.server, "/relations/1")), wanted[130])

    def test_records_at_each_step(self) -> None:
        """The slider has a step for each change of the relation, and works by its button too."""
        for step, records in enumerate(([["7", "a"]], [["7", "b"], ["8", "x|y"]], [["8", "x|y"]], [["7", "c"], ["8", "x|y"]])):
            page = self.page(self.server, f"/relations/1?step={step}")
            self.assertEqual(rows(page), records)
            self.assertEqual(rows(self.page(self.server, f"/relations/1/rows?step={step}")), records)
            self.assertIn(f'<input type="range" id="step" name="step" min="0" max="3" value="{step}"', page)
        self.assertIn('<button id="show">Show</button>', page)
        self.assertEqual(rows(self.page(self.server, "/relations/1?step=9")), records)

    def test_record(self) -> None:
        page = self.page(self.server, "/relations/1/records/7")
        self.assertEqual(rows(page), [
            ["3", f"{DAY}.000130", "still", "", "4", "c"],
            ["–", f"{DAY}.000120", f"{DAY}.000130", "10 µs", "3", "no value"],
            ["2", f"{DAY}.000110", f"{DAY}.000120", "10 µs", "2", "b"],
            ["1", f"{DAY}.000100", f"{DAY}.000110", "10 µs", "1", "a"],
        ])  # fmt: skip
        self.assertEqual(rows(self.page(self.server, f"/relations/65535/records/{MOST_RECORD}")), [["1", f"{DAY}.000150", "still", "", "6", "Zoë"]])
        self.assertIn("It has no value, and had none.", self.page(self.server, "/relations/1/records/9"))
        self.assertIn("It has no records, and had none.", self.page(self.server, "/relations/3"))

    def test_picture(self) -> None:
        """The picture is XML, has a box for each span, and each span's part of the lane is to scale."""
        page = self.page(self.server, "/relations/1/records/7")
        picture = ElementTree.fromstring(re.search(r"<svg.*</svg>", page, re.DOTALL)[0])  # type: ignore[index]
        boxes = [box.get("class", "") for box in picture.iter("rect") if "box" in box.get("class", "")]
        self.assertEqual(boxes, ["box version shade1", "box version shade0", "box gap", "box version shade1"])
        lane = [(float(part.get("x", "")), float(part.get("width", ""))) for part in picture.findall("rect")]
        committed = chart.WIDTH_LEAST * chart.SHARE
        for (x, width), (start, end) in zip(lane, ((0, 0.2), (0.2, 0.4), (0.4, 0.6), (0.6, 1 / chart.SHARE)), strict=True):
            self.assertAlmostEqual(x, start * committed, delta=0.1)
            self.assertAlmostEqual(width, (end - start) * committed, delta=0.2)
        self.assertEqual([link.get("href") for link in picture.iter("a")], ["#v1", "#v2", "#v3"])
        self.assertEqual([title.text for title in picture.iter("title")][2], f"from {DAY}.000120: no value")

    def test_ticks(self) -> None:
        """The times above the lane are shorter the nearer they are, and none stands twice."""

        def ticks(start: int, last: int) -> list[str]:
            found = chart.timeline([chart.Span(start, last + 1, (b"a",), 1, ())], "record 7", last)
            return re.findall(r'text-anchor="[a-z]+">([^<]*)<', found)

        day, second = 86_400_000_000, 1_000_000
        self.assertEqual(ticks(0, 0), [DAY])
        self.assertEqual(ticks(100, 102), [f"{DAY}.000100", ".000101", ".000102"])
        self.assertEqual(ticks(0, 8 * second), [DAY, "00:00:02", "00:00:04", "00:00:06", "00:00:08"])
        self.assertEqual(ticks(0, 8 * day), [DAY, "1970-01-03", "1970-01-05", "1970-01-07", "1970-01-09"])

    def test_changes(self) -> None:
        def between(start: int, end: int) -> list[list[str]]:
            return rows(self.page(self.server, f"/relations/1/changes?from={start}&to={end}"))

        self.assertEqual(between(99, 100), [["7", "added", "1", "no value", "a"]])
        self.assertEqual(between(100, 110), [["7", "changed", "1", "a", "b"], ["8", "added", "1", "no value", "x|y"]])
        self.assertEqual(between(110, 120), [["7", "deleted", "1", "b", "no value"]])
        self.assertEqual(between(120, 150), [["7", "added", "1", "no value", "c"]])
        self.assertEqual(between(100, 150), [["7", "changed", "3", "a", "c"], ["8", "added", "1", "no value", "x|y"]])
        self.assertEqual(between(130, 150), [])
        self.assertEqual(between(150, 100), [])
        with timestore.Store(self.folder) as store, store.begin(now=160) as txn:
            txn.put(1, 7, b"a")
        self.assertEqual(self.ask(self.server, "/copy", "POST").status, 303)
        self.assertEqual(between(100, 160), [["7", "changed, and back", "4", "a", "a"], ["8", "added", "1", "no value", "x|y"]])

    def test_commits(self) -> None:
        found = rows(self.page(self.server, "/commits"))
        wanted = ((150, 6, 1), (140, 5, 1), (130, 4, 1), (120, 3, 1), (110, 2, 2), (100, 1, 1))
        self.assertEqual(found, [[f"{DAY}.000{time}", str(label), str(records)] for time, label, records in wanted])
        page = self.page(self.server, "/commits/110")
        self.assertEqual(rows(page), [["7", "changed", "1", "a", "b"], ["8", "added", "1", "no value", "x|y"]])
        self.assertIn("Its label is <strong>2</strong>", page)
        self.assertEqual(self.ask(self.server, "/commits/111").status, 404)

    def test_strange_fields(self) -> None:
        """Text is escaped, other bytes are hexadecimal, and an empty field is seen."""
        for path in ("/relations/2", "/relations/2/rows", "/relations/2/records/1", "/relations/2/changes?from=139&to=140", "/commits/140"):
            page = self.page(self.server, path)
            self.assertNotIn("alert('x')", page)
            self.assertNotIn("<script>", page)
            self.assertIn("&lt;script&gt;alert(&#x27;x&#x27;)&lt;/script&gt;&amp;&quot;", page)
        self.assertEqual(rows(self.page(self.server, "/relations/2")), [["1", "<script>alert('x')</script>&\"|0xff00|say \"hi\",\nok|0x30783431|(empty)"]])

    def test_times_that_are_none(self) -> None:
        reply = self.ask(self.server, "/relations/1?at=<b>soon")
        self.assertEqual(reply.status, 400)
        self.assertIn("&lt;b&gt;soon", reply.body)
        self.assertNotIn("<b>soon", reply.body)
        self.assertEqual(self.ask(self.server, "/relations/1?step=-1").status, 404)


class Downloads(BrowseTest):
    def setUp(self) -> None:
        super().setUp()
        self.server = self.serve()

    def csv(self, path: str) -> tuple[str, str]:
        """A download and the name of its file."""
        reply = self.ask(self.server, path)
        self.assertEqual((reply.status, reply.headers["Content-Type"]), (200, "text/csv; charset=utf-8; header=present"))
        name = re.fullmatch(r'attachment; filename="([a-z0-9.-]+)"', reply.headers["Content-Disposition"])
        assert name is not None  # else the header is wrong
        return reply.body, name[1]

    def test_records(self) -> None:
        self.assertEqual(self.csv("/relations/1.csv?at=110"), ("record,fields,field1,field2\r\n7,1,b,\r\n8,2,x,y\r\n", "relation-1-at-110.csv"))
        self.assertEqual(self.csv("/relations/3.csv"), ("record,fields\r\n", "relation-3-at-150.csv"))

    def test_quotes(self) -> None:
        """Quotes are doubled, and fields with a comma, a quote or a line end stand in quotes."""
        body, _ = self.csv("/relations/2.csv")
        head = "record,fields,field1,field2,field3,field4,field5\r\n"
        self.assertEqual(body, head + '1,5,"<script>alert(\'x\')</script>&""",0xff00,"say ""hi"",\nok",0x30783431,\r\n')
        read = list(csv.reader(io.StringIO(body, newline=""), strict=True))[1][2:]
        self.assertEqual([bytes.fromhex(text[2:]) if text.startswith("0x") else text.encode() for text in read], list(STRANGE))

    def test_history(self) -> None:
        head = "record,from,from_utc,to,to_utc,label,fields,field1"
        seven = f"7,100,{DAY}.000100,110,{DAY}.000110,1,1,a\r\n7,110,{DAY}.000110,120,{DAY}.000120,2,1,b\r\n7,130,{DAY}.000130,,,4,1,c\r\n"
        self.assertEqual(self.csv("/relations/1/records/7.csv"), (f"{head}\r\n{seven}", "relation-1-record-7.csv"))
        whole, name = self.csv("/relations/1/history.csv")
        self.assertEqual(name, "relation-1-history.csv")
        eight = f"8,110,{DAY}.000110,,,2,2,x,y\r\n"
        self.assertEqual(whole, f"{head},field2\r\n" + seven.replace("a\r", "a,\r").replace("b\r", "b,\r").replace("c\r", "c,\r") + eight)

    def test_changes(self) -> None:
        body = "record,kind,changes,before1,after1,after2\r\n7,changed,3,a,c,\r\n8,added,1,,x,y\r\n"
        self.assertEqual(self.csv("/relations/1/changes.csv?from=100&to=150"), (body, "relation-1-changes-100-150.csv"))


class Vacuumed(BrowseTest):
    def test_archive_and_floor(self) -> None:
        """What is in the archive is shown, and what was let go is told as such."""
        with timestore.Store(self.folder) as store:
            store.archive(120)
            store.reclaim()
        server = self.serve()
        self.assertEqual(rows(self.page(server, "/relations/1?at=110")), [["7", "b"], ["8", "x|y"]])
        with timestore.Store(self.folder) as store:
            store.floor_of(1, 115)
        self.ask(server, "/copy", "POST")
        self.assertEqual(rows(self.page(server, "/"))[0], ["1", "2", "2", "3", f"{DAY}.000115 or earlier: history before was let go", f"{DAY}.000130"])
        reply = self.ask(server, "/relations/1?at=110")
        self.assertEqual(reply.status, 410)
        self.assertIn(f"History before {DAY}.000115 UTC was let go.", reply.body)
        self.assertEqual(rows(self.page(server, "/relations/1?at=115")), [["7", "b"], ["8", "x|y"]])
        self.assertEqual(rows(self.page(server, "/relations/1/records/7"))[-1], ["1", f"{DAY}.000115", f"{DAY}.000120", "5 µs", "", "b"])
        self.assertEqual(rows(self.page(server, "/commits/110")), [])


class Named(BrowseTest):
    def test_names_of_a_relation(self) -> None:
        """Names are those of the last commit, escaped as all else."""
        with timestore.Store(self.folder) as store, store.begin(now=160) as txn:
            txn.put(9, 1, b"let<ters", b"fir&st:text")
        server = self.serve(names_in=9)
        self.assertEqual(rows(self.page(server, "/"))[0][0], "1 let<ters")
        page = self.page(server, "/relations/1")
        self.assertIn("<h1>Relation 1, let&lt;ters</h1>", page)
        self.assertEqual(rows(page), [["7", "fir&stc"], ["8", "fir&stx|y"]])
        self.assertIn('<span class="name">fir&amp;st</span><span class="text">c</span>', page)
        self.assertIn("<h1>Record 7 of relation 1, let&lt;ters</h1>", self.page(server, "/relations/1/records/7"))
        self.assertIn("<h1>Relation 2</h1>", self.page(server, "/relations/2"))


class Empty(BrowseTest):
    def test_no_commit(self) -> None:
        for name in ("status", "heap", "archive"):
            (self.folder / name).unlink()
        timestore.make(self.folder, 16)
        server = self.serve()
        self.assertIn("Nothing was committed yet.", self.page(server, "/"))
        self.assertIn("It has no records, and had none.", self.page(server, "/relations/0"))
        self.assertEqual(rows(self.page(server, "/commits")), [])
        self.assertEqual(self.ask(server, "/relations/0/changes").status, 200)
        with timestore.Store(self.folder) as store:
            fill(store)
        self.assertIn("The store has changed since this copy was made.", self.page(server, "/"))


class Values(unittest.TestCase):
    def test_text_or_hexadecimal(self) -> None:
        wanted = {
            b"": "", b"Ada": "Ada", "Zoë €".encode(): "Zoë €", b"a\nb\tc": "a\nb\tc",
            b"\xff": "0xff", b"a\x00": "0x6100", b"\r\n": "0x0d0a", b"\x7f": "0x7f", b"0x": "0x3078",
            "\u202eevil".encode(): "0xe280ae6576696c", "\u2028".encode(): "0xe280a8", b"\xc3": "0xc3", b"\xed\xa0\x80": "0xeda080",
        }  # fmt: skip
        self.assertEqual({field: values.spelled(field) for field in wanted}, wanted)

    def test_times(self) -> None:
        self.assertEqual(values.instant(1_777_818_600_000_000), "2026-05-03 14:30:00")
        self.assertEqual(values.instant(1_777_818_600_000_001), "2026-05-03 14:30:00.000001")
        self.assertEqual(values.instant(2**63 - 1), "9223372036854775807 µs")
        for text in ("2026-05-03 14:30:00", "2026-05-03T14:30:00Z", "2026-05-03T16:30+02:00", " 1777818600000000 "):
            self.assertEqual(values.time_of(text), 1_777_818_600_000_000, text)
        for text in ("", "soon", "-1", "1969-12-31", "9" * 30, "2026-05-03T25:00"):
            with self.assertRaises(values.BadTime, msg=text):
                values.time_of(text)

    def test_lasting(self) -> None:
        wanted = {0: "0 µs", 5: "5 µs", 1_000: "1 ms", 61_000_000: "1 min 1 s", 90_000_000_000: "1 d 1 h", 86_400_000_000: "1 d", 86_460_000_000: "1 d"}
        self.assertEqual({micros: values.lasting(micros) for micros in wanted}, wanted)

    def test_elements(self) -> None:
        self.assertEqual(element("a", "<&", title="\"'", hidden=True, rel=None, class_="x"), "<a title=\"&quot;&#x27;\" hidden class=\"x\">&lt;&amp;</a>")
        self.assertEqual(join("a<", [element("b", 1), None, "c"]), "a&lt;<b>1</b>c")

    def test_gaps(self) -> None:
        rows_of = [timestore.Row(7, 100, 110, (b"a",)), timestore.Row(7, 110, 120, (b"a", b"b"))]
        found = [(it.start, it.end, it.version, it.news) for it in chart.spans(rows_of, 130)]
        self.assertEqual(found, [(100, 110, 1, (b"a",)), (110, 120, 2, (b"b",)), (120, 131, 0, ())])
