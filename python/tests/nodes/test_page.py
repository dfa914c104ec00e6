"""The page: whom it answers, what it tells and shows, and how it looks in a browser."""

import io
import json
import os
import random
import re
import socket
import struct
import subprocess
import sys
import threading
import time
import unittest
from collections.abc import Iterator
from contextlib import ExitStack, redirect_stderr
from http.client import HTTPConnection, HTTPResponse
from http.server import BaseHTTPRequestHandler, ThreadingHTTPServer
from pathlib import Path
from tempfile import TemporaryDirectory
from typing import Any, NamedTuple
from unittest.mock import patch

from browser import CHROMIUM, DRIVER, Browser
from chrrep import Atom, ColumnsWarning, Id, OrderWarning
from chrrep.link import Batch, Heard, Member, PageUnusable, connect, join
from chrrep.link.page import Page, behind, feeds_of, json_text, members_of, tables_of
from chrrep.texts import LINE_LIMIT
from engines import LOOPBACK
from kills import PACKAGE
from programs import COINS, MARKED, PATHS

SECONDS = 60.0
HOSTILE = "<img src=x onerror=\"document.title='taken'\">\n\nevent: fault\ndata: \"</script>&amp;\u2028'"


class Answer(NamedTuple):
    status: int
    kind: str
    body: bytes


class Served(unittest.TestCase):
    def setUp(self) -> None:  # noqa: N802
        self.stack = ExitStack()
        self.addCleanup(self.stack.close)
        self.room = Path(self.stack.enter_context(TemporaryDirectory()))
        self.url = f"sqlite:///{self.room}/log.sqlite"

    def serve(self, program: str = PATHS) -> tuple[Member, Page]:
        member = self.stack.enter_context(join(self.url, program))
        return member, self.stack.enter_context(Page(member, 0))

    def ask(
        self, page: Page, method: str, path: str, body: bytes | None = None, headers: dict[str, str] | None = None
    ) -> Answer:
        with self.open(page, method, path, body, headers) as answer:
            return Answer(answer.status, answer.headers.get("Content-Type", ""), answer.read())

    def open(
        self, page: Page, method: str, path: str, body: bytes | None = None, headers: dict[str, str] | None = None
    ) -> HTTPResponse:
        connection = HTTPConnection(LOOPBACK, page.port, timeout=SECONDS)
        self.addCleanup(connection.close)
        connection.putrequest(method, path, skip_host=headers is not None and "Host" in headers)
        for name, value in {"Content-Length": str(len(body or b"")), **(headers or {})}.items():
            connection.putheader(name, value)
        connection.endheaders(body)
        return connection.getresponse()

    def tell(self, page: Page, line: str | bytes, token: str | None = None) -> Answer:
        body = line.encode() if isinstance(line, str) else line
        return self.ask(page, "POST", "/tell", body, {"X-Token": page.token if token is None else token})


def events_of(answer: HTTPResponse) -> Iterator[tuple[str, Any]]:
    name = ""
    while line := answer.readline():
        field, _, value = line.decode().rstrip("\n").partition(": ")
        if field == "event":
            name = value
        elif field == "data":
            yield name, json.loads(value)


class Requests(Served):
    def test_only_requests_to_this_machine_are_answered(self) -> None:
        _, page = self.serve()
        self.assertEqual(page._server.server_address[0], LOOPBACK)
        good = [f"{host}:{page.port}" for host in ("127.0.0.1", "localhost", "LOCALHOST", "[::1]")]
        other = [f"example.org:{page.port}", f"127.0.0.1.example.org:{page.port}", f"localhost:{page.port + 1}"]
        for host in good:
            self.assertEqual(self.ask(page, "GET", "/", headers={"Host": host}).status, 200, host)
        for host in [*other, "localhost", "127.0.0.1", "", f"[::2]:{page.port}", f"x@localhost:{page.port}"]:
            for method, path in (("GET", "/"), ("GET", "/store"), ("GET", "/events"), ("POST", "/tell")):
                answer = self.ask(page, method, path, b"", {"Host": host, "X-Token": page.token})
                self.assertEqual((answer.status, page.token.encode() in answer.body), (403, False), (host, path))
        with socket.create_connection((LOOPBACK, page.port), timeout=SECONDS) as bare:
            bare.sendall(b"GET / HTTP/1.0\r\n\r\n")
            self.assertTrue(bare.recv(65_536).startswith(b"HTTP/1.0 403 "))

    def test_only_who_has_the_token_tells(self) -> None:
        member, page = self.serve()
        for token in ("", "x", page.token[:-1], page.token + "x", "\u00e9"):
            self.assertEqual(self.tell(page, "path(1,2,3)", token).status, 403)
        self.assertEqual(self.ask(page, "POST", "/tell", b"path(1,2,3)").status, 403)
        self.assertEqual(self.ask(page, "GET", "/tell").status, 404)
        self.assertEqual(member.show(), ())
        text = self.ask(page, "GET", "/").body.decode()
        self.assertIn('<div id="tables"><section><p class="none">loading<', text)
        found = re.search('<meta name="token" content="([^"]+)">', text)
        assert found
        answer = self.tell(page, "path(berlin,paris,1050)", found[1])
        self.assertEqual(answer[::2], (200, b"told 1:1"))
        self.assertEqual(member.show(), (("path", "berlin", "paris", 1050),))
        # another page has another one
        self.assertNotEqual(self.serve()[1].token, page.token)

    def test_no_other_page_asks(self) -> None:
        """What a browser asks for on behalf of another page is refused, but for the page itself."""
        member, page = self.serve()
        own, port = page.url.removesuffix("/"), page.port
        other = [{"Sec-Fetch-Site": site} for site in ("cross-site", "same-site", "x", "")]
        origins = ["http://example.org", "null", "", f"https://127.0.0.1:{port}", f"http://127.0.0.1:{port + 1}"]
        other += [{"Origin": origin} for origin in (*origins, f"127.0.0.1:{port}", f"{own}.example.org")]
        other += [{"Sec-Fetch-Site": "cross-site", "Origin": own}, {"Sec-Fetch-Site": "none", "Origin": origins[0]}]
        for headers in other:
            for method, path in (("GET", "/events"), ("GET", "/store"), ("POST", "/tell"), ("GET", "/x")):
                with self.open(page, method, path, b"path(1,2,3)", {"X-Token": page.token, **headers}) as refused:
                    self.assertEqual(refused.status, 403, (headers, path))
                    self.assertEqual(refused.read(), b"Only the page that this node serves may ask for this.")
            self.assertEqual(self.ask(page, "GET", "/", headers=headers).status, 200)
        self.assertEqual((member.show(), page.watcher._lookers), ((), []))
        ours: list[dict[str, str]] = [{}, {"Sec-Fetch-Site": "same-origin"}, {"Sec-Fetch-Site": "none"}]
        ours += [{"Origin": own}, {"Origin": f"http://localhost:{port}", "Sec-Fetch-Site": "same-origin"}]
        for headers in ours:
            with self.open(page, "GET", "/events", headers=headers) as events:
                self.assertEqual((events.status, next(events_of(events))[0]), (200, "program"))
            answer = self.ask(page, "POST", "/tell", b"path(1,2,3)", {"X-Token": page.token, **headers})
            self.assertEqual(answer.status, 200, headers)

    def test_no_other_page_is_given_anything(self) -> None:
        _, page = self.serve()
        rows = [("GET", "/", 200), ("GET", "/store", 200), ("GET", "/events", 200), ("GET", "/x", 404)]
        rows += [("POST", "/tell", 403), ("PUT", "/tell", 501), ("GET", "/store?find=%ff", 400)]
        for method, path, status in rows:
            with self.open(page, method, path) as answer:
                self.assertEqual(answer.status, status, path)
                self.assertEqual(answer.headers["Cross-Origin-Resource-Policy"], "same-origin", path)
                self.assertEqual(answer.headers["X-Content-Type-Options"], "nosniff", path)

    def test_requests_that_are_none(self) -> None:
        """Each has an answer, and nothing is written on standard error."""
        _, page = self.serve()
        host, token = f"Host: 127.0.0.1:{page.port}\r\n", f"X-Token: {page.token}\r\n"
        rows = [
            (f"GET http://[bad HTTP/1.1\r\n{host}\r\n", 400),
            (f"POST http://[bad HTTP/1.1\r\n{host}{token}\r\n", 400),
            (f"GET /store?find=%ff HTTP/1.1\r\n{host}\r\n", 400),
            (f"GET /store?find=%C3%A3 HTTP/1.1\r\n{host}\r\n", 200),
            (f"POST /tell HTTP/1.1\r\n{host}{token}Content-Length: {'7' * 5000}\r\n\r\n", 400),
            (f"POST /tell HTTP/1.1\r\n{host}{token}Content-Length: {'0' * 5000}\r\n\r\n", 400),
            (f"POST /tell HTTP/1.1\r\n{host}{token}Content-Length: \u00b2\r\n\r\n", 400),
        ]
        with redirect_stderr(io.StringIO()) as said:
            for request, status in rows:
                with socket.create_connection((LOOPBACK, page.port), timeout=SECONDS) as connection:
                    connection.sendall(request.encode("latin-1"))
                    with connection.makefile("rb") as answer:
                        self.assertTrue(answer.readline().startswith(f"HTTP/1.0 {status} ".encode()), request[:60])
                        answer.read()
            with socket.create_connection((LOOPBACK, page.port), timeout=SECONDS) as connection:
                # it breaks off in the middle
                connection.sendall(b"GET / HT")
                connection.setsockopt(socket.SOL_SOCKET, socket.SO_LINGER, struct.pack("ii", 1, 0))
            self.assertEqual(self.ask(page, "GET", "/store").status, 200)
        self.assertEqual(said.getvalue(), "")

    def test_a_line_that_is_too_long_is_answered(self) -> None:
        _, page = self.serve()
        for size in (LINE_LIMIT + 1, 6 * LINE_LIMIT):
            answer = self.tell(page, b"x" * size)
            said = f"A line has 1 to {LINE_LIMIT} bytes, of UTF-8."
            self.assertEqual((answer.status, answer.body), (400, said.encode()))
        self.assertEqual(self.tell(page, b" " * (LINE_LIMIT - 11) + b"path(1,2,3)").body, b"told 1:1")

    def test_the_page_runs_no_scripts_but_its_own(self) -> None:
        _, page = self.serve()
        with self.open(page, "GET", "/") as answer:
            policy, text = answer.headers["Content-Security-Policy"], answer.read().decode()
        self.assertTrue(policy.startswith("default-src 'none'; "), policy)
        nonce = re.search("script-src 'nonce-([^']+)'", policy)
        assert nonce
        self.assertEqual(text.count(f'nonce="{nonce[1]}"'), 2)
        self.assertEqual(re.findall("{{|}}|innerHTML|https?://|src=", text), [])

    def test_lines_that_are_refused(self) -> None:
        member, page = self.serve()
        rows: list[tuple[str | bytes, int, str]] = [
            ("Path", 422, "refused: character 1: Path begins no fact: "),
            ("path(1,oat milk,2)", 422, 'refused: character 8, argument 2 of path: .* in double quotes, "oat milk"$'),
            ("path(1,2)", 422, "refused: UnknownSymbol: .* declared with 3 arguments, and not with 2"),
            ("path(1,2,9223372036854775808)", 422, "refused: Shape: .* does not fit 64 bits"),
            ("paths(1,2,3)", 422, "is 'path' meant"),
            ("", 400, "A line has 1 to"),
            (b"path(\xff,1,2)", 400, "UTF-8"),
        ]
        for line, status, said in rows:
            answer = self.tell(page, line)
            self.assertEqual((answer.status, answer.kind), (status, "text/plain; charset=utf-8"), line)
            self.assertRegex(answer.body.decode(), said)
        for length in ("x", "-1", "1048577", "99999999999"):
            headers = {"X-Token": page.token, "Content-Length": length}
            self.assertEqual(self.ask(page, "POST", "/tell", None, headers).status, 400, length)
        self.assertEqual(self.ask(page, "GET", "/../etc/passwd").status, 404)
        self.assertEqual(self.ask(page, "PUT", "/tell").status, 501)
        self.assertEqual(member.show(), ())
        self.assertEqual(self.tell(page, " path(1,2,3), path(1,2,1) \n").status, 200)
        self.assertEqual(member.show(), (("path", 1, 2, 1),))

    def test_names_where_a_rule_compares_by_order_are_told_of(self) -> None:
        member, page = self.serve()
        with self.assertWarns(OrderWarning):
            said = self.tell(page, "path(oslo,rome,far), path(oslo,rome,near)").body.decode()
        compares = "rule 1 (shorter) compares argument 3 of path by order, and 'far' is told there: names have an order"
        self.assertTrue(said.startswith(f"told 1:1; {compares}, "), said)
        self.assertEqual((said.count(";"), "\n" in said), (1, False))
        self.assertEqual(self.tell(page, "path(oslo,rome,off)").body, b"told 1:2")
        member.upgrade(f"% chr_columns path(from, to, km)\n{PATHS}")
        with self.assertWarns(OrderWarning):
            again = self.tell(page, "path(a,b,c)").body
        self.assertIn(b"told 1:3; rule 1 (shorter) compares argument 3 (km) of ", again)

    def test_names_are_escaped(self) -> None:
        member, page = self.serve()
        with self.open(page, "GET", "/events") as answer:
            events = events_of(answer)
            self.assertEqual([next(events)[0] for _ in range(3)], ["program", "members", "told"])
            member.tell(("path", HOSTILE, 1, 2))
            seen = {}
            while "change" not in seen or "told" not in seen:
                name, value = next(events)
                self.assertIn(name, ("told", "change", "members"))
                seen[name] = value
        self.assertEqual(seen["change"], {"came": [["path", [HOSTILE], "1", "2"]], "went": []})
        self.assertEqual(seen["told"], [["1:1", f"path({json.dumps(HOSTILE, ensure_ascii=False)},1,2)"]])
        store = self.ask(page, "GET", "/store")
        self.assertEqual(store.kind, "application/json")
        self.assertEqual(set(store.body) & set(b"<>&'"), set())
        self.assertEqual(json.loads(store.body)["tables"][0]["rows"], [["path", [HOSTILE], "1", "2"]])
        self.assertEqual(json.loads(json_text(HOSTILE)), HOSTILE)


class Events(Served):
    def test_what_others_tell_comes(self) -> None:
        member, page = self.serve()
        other = self.stack.enter_context(join(self.url))
        other.tell(("path", "berlin", "paris", 9))
        with self.open(page, "GET", "/events") as answer:
            events = events_of(answer)
            program = {
                "verdict": "accepted: rules 1, cases 541",
                "log": "log chrrep, origin 1",
                "example": "path(1,2,3)",
                "text": PATHS,
            }
            self.assertEqual(next(events), ("program", program))
            self.until(events, "told", [["2:1", "path(berlin,paris,9)"]])
            other.tell(("path", "berlin", "paris", 12))
            self.until(events, "told", [["2:2", "path(berlin,paris,12)"]])
            other.tell(("path", "berlin", "paris", 3))
            came, went = (["path", ["berlin"], ["paris"], length] for length in ("3", "9"))
            self.until(events, "change", {"came": [came], "went": [went]})
            end = self.until(events, "members", None)
            while end["operations"] < 3:
                end = self.until(events, "members", None)
            here = end["members"][0]
            self.assertEqual((here["origin"], here["here"], here["behind"], here["position"]), (1, True, 0, "2:3"))
        # who comes later is told the last ones too
        with self.open(page, "GET", "/events") as answer:
            lines = [f"path(berlin,paris,{length})" for length in (9, 12, 3)]
            self.until(events_of(answer), "told", [[f"2:{at}", line] for at, line in enumerate(lines, 1)])
        self.assertEqual(member.refused, 0)

    def until(self, events: Iterator[tuple[str, Any]], name: str, value: object) -> Any:
        """The first event of this name and value."""
        for found in events:
            if found[0] == name and value in (None, found[1]):
                return found[1]
        raise AssertionError(f"no event {name} came")

    def test_the_page_goes_over_to_another_program(self) -> None:
        member, page = self.serve()
        other = self.stack.enter_context(join(self.url))
        self.tell(page, "path(1,2,3)")
        with self.open(page, "GET", "/events") as answer:
            events = events_of(answer)
            self.until(events, "program", None)
            other.upgrade(MARKED + "mark(X) <=> X < 0 | true.\n")
            program = self.until(events, "program", None)
            self.assertTrue(program["verdict"].startswith("accepted: rules 2, "), program)
            self.assertEqual(self.tell(page, "mark(7)").body, b"told 1:2")
            self.until(events, "change", {"came": [["mark", "7"]], "went": []})
        self.assertEqual(member.show(), (("mark", 7), ("path", 1, 2, 3)))

    def test_entries_that_no_node_can_take_are_shown_as_they_are(self) -> None:
        member, page = self.serve()
        member.tell(("path", "berlin", 1, 2))
        texts = ["7", "nonsense", '[["path",1e999,1,2]]']
        texts += ['[["path",[1],1,2]]', "[[]]", '[{"path":1}]', '[["path",null]]']
        with connect(self.url) as link, self.open(page, "GET", "/events") as answer:
            events = events_of(answer)
            self.until(events, "told", [["1:1", "path(berlin,1,2)"]])
            with self.assertLogs("chrrep.link", "WARNING"):
                link.append(Batch(Id(link.origin, 1), texts, link.writer, 1, 0, len(texts), {}))
                shown = dict(self.until(events, "told", None))
            self.assertEqual(list(shown), [f"2:{number}" for number in range(1, len(texts) + 1)])
            self.assertEqual([shown[f"2:{number}"] for number in (1, 2, 3)], texts[:3])
            member.tell(("path", 1, 2, 3))
            self.until(events, "told", [["1:2", "path(1,2,3)"]])
        self.assertEqual(member.refused, len(texts))

    def test_a_looker_that_is_too_slow_begins_anew(self) -> None:
        _, page = self.serve()
        with page.watcher.looking() as looker:
            assert looker
            for _ in range(1001):
                page.watcher._tell(("told", []))
            self.assertEqual(len(page.watcher._lookers), 0)
            self.assertTrue(page.watcher.is_looking(looker))
            while not looker.empty():
                looker.get()
            self.assertFalse(page.watcher.is_looking(looker))

    def test_nobody_takes_all_places(self) -> None:
        _, page = self.serve()
        with ExitStack() as stack:
            answers = [stack.enter_context(self.open(page, "GET", "/events")) for _ in range(40)]
            for answer in answers[-16:]:
                self.assertEqual((answer.status, next(events_of(answer))[0]), (200, "program"))
            # who has looked longest is cut off, and may come again
            for answer in answers[:24]:
                self.assertEqual([name for name, _ in events_of(answer)], ["program", "members", "told"])
            self.assertEqual(len(page.watcher._lookers), 16)
            again = stack.enter_context(self.open(page, "GET", "/events"))
            self.assertEqual((again.status, next(events_of(again))[0]), (200, "program"))

    def test_lookers_are_told_that_the_page_ends(self) -> None:
        """At once, and not when they are looked at the next time."""
        _, page = self.serve()
        with patch("chrrep.link.page._ALIVE_SECONDS", 10 * SECONDS), self.open(page, "GET", "/events") as answer:
            events = events_of(answer)
            self.until(events, "told", None)
            page.close()
            self.assertEqual(list(events), [])

    def test_a_log_that_goes_away_is_told(self) -> None:
        member, page = self.serve()
        with self.open(page, "GET", "/events") as answer, self.assertLogs("chrrep.link", "WARNING"):
            (self.room / "log.sqlite").rename(self.room / "elsewhere")
            fault = self.until(events_of(answer), "fault", None)
        self.assertRegex(fault, "LogUnusable: the log's file is gone")
        told = self.tell(page, "path(1,2,3)")
        self.assertEqual((told.status, told.body.count(b"\n")), (503, 0))
        self.assertIn(b"LogUnusable: the log's file is gone", told.body)
        self.assertEqual(self.ask(page, "GET", "/store").body, b'{"tables":[]}')


class Tables(unittest.TestCase):
    def test_atoms_by_symbols(self) -> None:
        atoms: list[Atom] = [("b", 1), ("a",), ("b", "berlin"), ("b", 1, 2), ("b", 12), ("a",)]
        found = [(one.symbol, one.arguments, one.all, one.found, one.rows) for one in tables_of(atoms)]
        ones = [("b", 1), ("b", 12), ("b", "berlin")]
        wanted = [("a", 0, 2, 2, [("a",)] * 2), ("b", 1, 3, 3, ones), ("b", 2, 1, 1, [("b", 1, 2)])]
        self.assertEqual(found, wanted)
        self.assertEqual([one.rows for one in tables_of(atoms, "BER b")], [[("b", "berlin")]])
        found_one = [(one.found, one.rows) for one in tables_of(atoms, "b(1", 1)]
        headings = [one.headings for one in tables_of(atoms, headings=lambda symbol: (f"{symbol[0]}{symbol[1]}",))]
        self.assertEqual(headings, [("a0",), ("b1",), ("b2",)])
        self.assertEqual(found_one, [(2, [("b", 1)]), (1, [("b", 1, 2)])])
        self.assertEqual(tables_of(atoms, "nothing"), [])

    def test_rows_are_in_the_order_of_what_is_shown(self) -> None:
        rows: list[Atom] = [
            ("a", -5, "x"), ("a", 9, -1), ("a", 9, 10), ("a", 10, 0), ("a", 2**62, 0), ("a", 2**62 + 1, 0),
            ("a", "", 1), ("a", "Oslo", 2), ("a", "oslo", 1), ("a", "oslo", "a"), ("a", "paris", -7), ("a", "rome", 0),
        ]  # fmt: skip
        for _ in range(20):
            jumbled = random.sample(rows, len(rows))
            (table,) = tables_of(jumbled)
            self.assertEqual((table.rows, table.ordered), (rows, True))
            self.assertEqual(tables_of(jumbled, most=3)[0].rows, rows[:3])
        # of very many, to put them in order takes too long
        with patch("chrrep.link.page.ORDERED", len(rows) - 1):
            (table,) = tables_of(jumbled)
            self.assertEqual((table.rows, table.ordered), (jumbled, False))
            self.assertEqual(tables_of(jumbled, "oslo")[0].rows, rows[7:10])

    def test_how_far_members_are_behind(self) -> None:
        end = {1: 10, 2: 5}
        positions: list[dict[int, int]] = [{}, {1: 10, 2: 5}, {1: 4, 2: 5, 3: 9}]
        self.assertEqual([behind(position, end) for position in positions], [15, 0, 6])
        heard = [Heard(1, {1: 3}, 2.0), Heard(2, {1: 10}, 12.0), Heard(3, {}, 700.0)]
        found = members_of(heard, 1, {1: 10, 2: 4}, end)
        wanted = [(1, True, 10, 1, "1:10, 2:4", "now", False), (2, False, 5, 5, "1:10", "12 s ago", True)]
        self.assertEqual([tuple(one[name] for name in ORDER) for one in found], wanted)


ORDER = ("origin", "here", "told", "behind", "position", "heard", "silent")


class Ports(Served):
    def test_a_port_that_is_taken(self) -> None:
        member, page = self.serve()
        with self.assertRaisesRegex(PageUnusable, f"^port {page.port} of this machine is taken by another program: "):
            Page(member, page.port)
        for port in (-1, 65_536):
            with self.assertRaisesRegex(PageUnusable, f"^port {port} .*is not to be had"):
                Page(member, port)
        # the member goes on
        self.assertEqual(member.tell(("path", 1, 2, 3)).number, 1)
        page.close()
        with Page(member, page.port) as again:
            self.assertEqual(self.ask(again, "GET", "/").status, 200)

    def test_the_command_serves_a_page(self) -> None:
        program = self.room / "coins.chr"
        program.write_text(COINS)
        command = self.command("--page", "0", str(program))
        assert command.stderr and command.stdin and command.stdout
        said = [command.stderr.readline().decode() for _ in range(2)]
        found = re.fullmatch(r"chrrep.link: the page is http://127.0.0.1:(\d+)/\n", said[1])
        assert found, said
        connection = HTTPConnection(LOOPBACK, int(found[1]), timeout=SECONDS)
        self.addCleanup(connection.close)
        connection.request("GET", "/store")
        self.assertEqual(connection.getresponse().read(), b'{"tables":[]}')
        taken = self.command("--page", found[1], str(program))
        out, err = taken.communicate(b"coin\n", timeout=SECONDS)
        self.assertEqual((taken.returncode, out), (3, b""))
        lines = err.decode().splitlines()
        self.assertRegex(lines[-1], f"^chrrep.link: PageUnusable: port {found[1]} of this machine is taken")
        self.assertEqual(len(lines), 2)
        command.stdin.write(b"coin\n?\n")
        command.stdin.close()
        self.assertRegex(command.stdout.readline(), b"^told ")
        self.assertEqual(command.stdout.readline(), b"coin\n")
        command.terminate()
        self.assertEqual((command.wait(SECONDS), command.stdout.read(), command.stderr.read()), (143, b"", b""))
        both = self.command("--page", "0", "--upgrade", str(program))
        self.assertEqual((both.wait(SECONDS), both.communicate()[0]), (2, b""))

    def command(self, *words: str) -> "subprocess.Popen[bytes]":
        env = {**os.environ, "PYTHONPATH": str(PACKAGE), "PYTHONDONTWRITEBYTECODE": "1"}
        command = subprocess.Popen(
            [sys.executable, "-m", "chrrep.link", *words],
            env=env,
            stdin=subprocess.PIPE,
            stdout=subprocess.PIPE,
            stderr=subprocess.PIPE,
        )
        # closes its pipes, and waits for it
        self.addCleanup(command.__exit__, None, None, None)
        self.addCleanup(command.kill)
        return command


class FolderPages(Served):
    """Pages of members of a folder."""

    def setUp(self) -> None:  # noqa: N802
        super().setUp()
        self.url = f"dir:///{self.room}/shop"

    def test_what_others_tell_comes(self) -> None:
        member, page = self.serve()
        other = self.stack.enter_context(join(self.url))
        self.assertEqual(self.tell(page, "path(berlin,paris,9)").status, 200)
        with self.open(page, "GET", "/events") as answer:
            events = events_of(answer)
            name, program = next(events)
            self.assertEqual((name, program["text"]), ("program", PATHS))
            self.assertEqual(program["log"], f"folder {self.room}/shop, origin {member.origin}")
            self.assertEqual(program["verdict"], "accepted: rules 1, cases 541")
            self.wait_for_store(page, '"9"')
            ids = [other.tell(("path", "berlin", "paris", length)) for length in (12, 2**53 + 1, 3)]
            told: list[list[str]] = []
            changes: list[Any] = []
            feeds: dict[str, Any] = {"told": 0}
            while len(told) < 4 or feeds["told"] < 4:
                name, value = next(events)
                told += value if name == "told" else []
                changes += [value] if name == "change" else []
                feeds = value if name == "feeds" else feeds
            said = [f"path(berlin,paris,{length})" for length in (12, 2**53 + 1, 3)]
            wanted = [[f"{id.origin}:{id.number}", line] for id, line in zip(ids, said)]
            self.assertEqual([line for line in told if not line[1].endswith(",9)")], wanted)
            came, went = (["path", ["berlin"], ["paris"], length] for length in ("3", "9"))
            self.assertEqual((changes[-1]["came"], changes[-1]["went"]), ([came], [went]))
            self.assertEqual((feeds["at_rest"], feeds["all"], feeds["left"]), (1, 2, {}))
            rows = {one["origin"]: (one["here"], one["heard"], one["silent"]) for one in feeds["feeds"]}
            self.assertEqual(rows, {member.origin: (True, "now", False), other.origin: (False, "now", False)})
            # what is left alone is named
            (self.room / "shop" / "feeds" / "note.txt").write_text("no feed")
            while not feeds["left"]:
                name, value = next(events)
                feeds = value if name == "feeds" else feeds
            self.assertEqual(feeds["left"], {"note.txt": "it is no feed"})
        store = json.loads(self.ask(page, "GET", "/store").body)
        self.assertEqual(store["tables"][0]["rows"], [["path", ["berlin"], ["paris"], "3"]])

    def wait_for_store(self, page: Page, length: str) -> None:
        end = time.monotonic() + SECONDS
        while length.encode() not in self.ask(page, "GET", "/store").body:
            self.assertLess(time.monotonic(), end)
            time.sleep(0.02)

    def test_feeds_by_their_times(self) -> None:
        times = {
            "0-00000007-1.feed": (1, 1_000_000_000_000), "0-000000ff-1.feed": (1, 1_090_000_000_000),
            "0-00000008-1.feed": (1, 1_101_000_000_000), "bad.feed": (0, 0), "note.txt": (1, 0),
        }  # fmt: skip
        rows = [
            (one["origin"], one["here"], one["heard"], one["silent"], one["left"])
            for one in feeds_of(times, {"0-000000ff-1.feed": "damaged", "note.txt": "x"}, 8, 1100.0)
        ]
        wanted = [
            (8, True, "now", False, ""), (255, False, "10 s ago", False, "damaged"), (7, False, "1 min ago", True, ""),
            (None, False, "18 min ago", True, ""),
        ]  # fmt: skip
        self.assertEqual(rows, wanted)


@unittest.skipUnless(CHROMIUM and DRIVER, "there is no Chromium with its driver: chromium, chromium-driver")
class Browsers(Served):
    """The environment's CHRREP_PICTURES names a folder for pictures of the page."""

    def test_the_page_in_a_browser(self) -> None:
        program = f"% chr_columns path(from, to, km)\n{PATHS}:- chr_constraint closed/1.\n"
        member, page = self.serve(program)
        other = self.stack.enter_context(join(self.url))
        other.tell_many([[atom] for atom in ROUTES])
        with Browser(1280, 800) as browser:
            browser.go(page.url)
            # the row of headings is one of them
            browser.wait_for("document.querySelectorAll('#tables tr').length == 7")
            self.assertIn("accepted: rules 1", browser.run("return document.getElementById('verdict').textContent"))
            self.assertEqual(browser.run("return document.getElementById('line').placeholder"), "path(1,2,3)")
            self.assertEqual(browser.run("return document.getElementById('program').textContent"), program)
            self.assertNotIn("loading", browser.run("return document.getElementById('tables').textContent"))
            self.assertEqual(browser.run(CELLS.format("th")), ["from", "to", "km"])
            self.assertEqual(browser.run(CELLS.format("td:first-child"))[1:], FROM)
            self.assertEqual(browser.run("return document.querySelectorAll('tr.came, tr.went').length"), 0)
            browser.type("#line", "path(berlin,rome,1480)\n")
            browser.wait_for("document.getElementById('answer').textContent == 'told 1:1'")
            browser.wait_for("document.querySelector('tr.came') && document.querySelector('tr.went')")
            shown = "return [...document.querySelectorAll('tr.%s td')].map(cell => cell.textContent)"
            self.assertEqual(browser.run(shown % "came"), ["berlin", "rome", "1480"])
            self.assertEqual(browser.run(shown % "went"), ["berlin", "rome", "1500"])
            # what another tells comes by itself
            other.tell(("path", "lisbon", "madrid", 625))
            browser.wait_for("document.getElementById('told').textContent.includes('path(lisbon,madrid,625)')")
            browser.wait_for("document.querySelectorAll('tr.came').length == 2")
            other.catch_up()
            read = "['1 (here)|1|0|now', '2|7|0|now']"
            browser.wait_for(f"{MEMBERS}.join() == {read}.join()")
            # what went stands where it stood
            here = [FROM[0], "berlin", "berlin", "lisbon", *FROM[2:]]
            self.assertEqual(browser.run(CELLS.format("td:first-child"))[1:], here)
            lengths = browser.run(CELLS.format("tr td:nth-child(3)"))
            self.assertEqual(lengths, ["1050", "1480", "1500", "625", "520", "1420", "430"])
            browser.run("document.querySelector('summary').click()")
            for width, height in ((1280, 860), (390, 860)):
                browser.resize(width, height)
                time.sleep(0.3)
                self.assertLessEqual(browser.run("return document.documentElement.scrollWidth"), width)
                if folder := os.environ.get("CHRREP_PICTURES"):
                    browser.picture(Path(folder) / f"page-{width}.png")
            browser.type("#find", "paris rome")
            browser.wait_for("document.querySelectorAll('#tables section').length == 1")
            browser.wait_for("document.querySelector('#tables small').textContent == '1 of 6 facts'")
            browser.type("#line", "path(1,2)\n")
            browser.wait_for("document.getElementById('answer').className == 'bad'")
        self.assertEqual(member.count("path"), 6)

    def test_the_page_of_a_folder_in_a_browser(self) -> None:
        self.url = f"dir:///{self.room}/shop"
        member, page = self.serve(f"% chr_columns path(from, to, km)\n{PATHS}:- chr_constraint closed/1.\n")
        other = self.stack.enter_context(join(self.url))
        other.tell_many([[atom] for atom in ROUTES])
        with Browser(1280, 800) as browser:
            browser.go(page.url)
            browser.wait_for("document.querySelectorAll('#tables tr').length == 7")
            self.assertIn(f"origin {member.origin}", browser.run("return document.getElementById('log').textContent"))
            browser.type("#line", "path(berlin,rome,1480)\n")
            browser.wait_for("document.getElementById('answer').textContent.startsWith('told ')")
            browser.wait_for("document.querySelector('tr.came') && document.querySelector('tr.went')")
            other.tell(("path", "lisbon", "madrid", 625))
            browser.wait_for("document.getElementById('told').textContent.includes('path(lisbon,madrid,625)')")
            self.assertEqual(browser.run("return document.getElementById('who').textContent"), "Feeds")
            browser.wait_for("document.getElementById('end').textContent == '8 facts told, 7 at rest'")
            (self.room / "shop" / "feeds" / "note.txt").write_text("no feed")
            browser.wait_for("document.getElementById('members').textContent.includes('note.txt: it is no feed')")
            browser.wait_for(f"{MEMBERS}.length == 2 && {MEMBERS}.join().includes('{member.origin} (here)|')")
            for width, height in ((1280, 860), (390, 860)):
                browser.resize(width, height)
                time.sleep(0.3)
                self.assertLessEqual(browser.run("return document.documentElement.scrollWidth"), width)
                if folder := os.environ.get("CHRREP_PICTURES"):
                    browser.picture(Path(folder) / f"folder-{width}.png")

    def test_a_page_that_was_cut_off_connects_again(self) -> None:
        """After a fault of its node, and after something else has answered in its place."""
        path, elsewhere = self.room / "log.sqlite", self.room / "elsewhere"
        with Browser(800, 600) as browser, ExitStack() as first:
            member = first.enter_context(join(self.url, PATHS))
            page = first.enter_context(Page(member, 0))
            member.tell(("path", 1, 2, 3))
            browser.go(page.url)
            browser.wait_for(f"{STATE} == 'live' && document.querySelectorAll('#tables td').length == 3")
            with self.assertLogs("chrrep.link", "WARNING"):
                path.rename(elsewhere)
                browser.wait_for(f"{STATE}.includes(\"the log's file is gone\")")
            elsewhere.rename(path)
            first.close()
            with ThreadingHTTPServer((LOOPBACK, page.port), Refusing) as other:
                Refusing.asked.clear()
                threading.Thread(target=other.serve_forever).start()
                self.assertTrue(Refusing.asked.wait(SECONDS))
                other.shutdown()
            again = self.stack.enter_context(join(self.url))
            self.stack.enter_context(Page(again, page.port))
            browser.wait_for(f"{STATE} == 'live'")
            again.tell(("path", 4, 5, 6))
            browser.wait_for("document.querySelectorAll('#tables td').length == 6")

    def test_names_are_text_in_a_browser(self) -> None:
        program = f"% </pre><script>document.title='taken'</script>\n% chr_columns <img src=x>\n{PATHS}"
        with self.assertWarns(ColumnsWarning):
            member, page = self.serve(program)
        member.tell(("path", HOSTILE, "<script>document.title='taken'</script>", 1))
        with Browser(800, 600) as browser:
            browser.go(page.url)
            browser.wait_for("document.querySelectorAll('#tables td').length == 3")
            self.assertEqual(browser.run("return document.querySelector('#tables td').textContent"), HOSTILE)
            browser.wait_for(f"document.getElementById('program').textContent == {json.dumps(program)}")
            self.assertEqual(browser.run(CELLS.format("th")), ["X", "Y", ""])
            self.assertEqual(browser.run("return document.querySelectorAll('main img, main script').length"), 0)
            self.assertEqual(browser.run("return document.title"), "chrrep")


class Refusing(BaseHTTPRequestHandler):
    """Something else at the port of a page."""

    asked = threading.Event()

    def do_GET(self) -> None:  # noqa: N802
        self.send_error(404)
        if self.path == "/events":
            self.asked.set()

    def log_message(self, format: str, *words: Any) -> None:
        pass


CELLS = "return [...document.querySelectorAll('#tables {}')].map(cell => cell.textContent)"
FROM = ["berlin", "berlin", "oslo", "paris", "S\u00e3o Paulo"]
STATE = "document.getElementById('state').textContent"
MEMBERS = """[...document.querySelectorAll('#members tr')].slice(1)
    .map(row => [...row.children].map(cell => cell.textContent).join('|'))"""
ROUTES: list[tuple[str | int, ...]] = [
    ("path", "berlin", "paris", 1050),
    ("path", "berlin", "rome", 1500),
    ("path", "paris", "rome", 1420),
    ("path", "oslo", "stockholm", 520),
    ("path", "S\u00e3o Paulo", "Rio de Janeiro", 430),
    ("closed", "paris"),
]
