"""A page to look at a member: served on loopback, by the standard library, without a network.

`/` is the page, `/events` what happens as it comes (server-sent events), `/store?find=WORDS` the store as tables, and
`/tell` takes a line of atoms, from whoever has the token that the page was given. What a browser asks for on behalf of
another page is refused, but for `/`.
"""

import json
import logging
import queue
import secrets
import socket
import sys
import threading
import time
from collections import deque
from collections.abc import Callable, Iterable, Iterator, Mapping, Sequence
from contextlib import contextmanager, suppress
from http import HTTPStatus
from http.server import BaseHTTPRequestHandler, ThreadingHTTPServer
from pathlib import Path
from typing import Any, NamedTuple, Protocol, cast
from urllib.parse import SplitResult, parse_qs, urlsplit

from ..closing import Closing
from ..columns import Orders
from ..names import NameClash, named_atoms_of, named_text
from ..prompt import example_of, fault_words
from ..refusals import ChrrepError, Refused
from ..texts import LINE_LIMIT, Atom, Change
from .any_member import AnyMember
from .faults import LinkLost, PageUnusable
from .feeds import times_of
from .folder import FolderMember
from .log import Entry, Heard, Position, one_line
from .member import Member

LOOPBACK = "127.0.0.1"
ROWS = 300
"""Atoms of a table that are shown at most; a search finds the others."""
ORDERED = 20_000
"""Atoms of a table that are put in the order of what is shown, at most; more stand as `show` gives them."""
MARKS = 1000
"""Atoms of a change that are marked at most."""

_HOSTS = ("127.0.0.1", "localhost", "[::1]")
_SITES = ("same-origin", "none")
"""Whom a browser asks for: the page itself, or its user."""
_LOOKERS = 16
_QUEUED = 1000
_PAUSE_SECONDS = 0.1
_FOLLOW_SECONDS = 0.5
_MEMBERS_SECONDS = 1.0
_ALIVE_SECONDS = 10.0
_SILENT_SECONDS = 10.0
_FEEDS = 30
"""Feeds of a folder that are shown at most: those that were written last."""
_FORGOTTEN_SECONDS = 600.0
_DRAIN_SECONDS = 5.0
_RECENT = 50
_PAGE = Path(__file__).with_name("page.html")
_LOG = logging.getLogger("chrrep.link")


class Table(NamedTuple):
    """The atoms of one symbol, with what stands over their columns, and whether they are in the order of what is
    shown."""

    symbol: str
    arguments: int
    all: int
    found: int
    rows: list[Atom]
    headings: tuple[str, ...] = ()
    ordered: bool = True


def tables_of(
    atoms: Iterable[Atom],
    find: str = "",
    most: int = ROWS,
    headings: Callable[[tuple[str, int]], tuple[str, ...]] = lambda symbol: (),
) -> list[Table]:
    """The atoms by symbols, and of each symbol the first that have all words that are looked for."""
    words = find.lower().split()
    by_symbol: dict[tuple[str, int], list[Atom]] = {}
    for atom in atoms:
        by_symbol.setdefault((str(atom[0]), len(atom) - 1), []).append(atom)
    tables = []
    for (symbol, arguments), all_rows in sorted(by_symbol.items()):
        rows = [atom for atom in all_rows if _has(atom, words)] if words else all_rows
        is_ordered = len(rows) <= ORDERED
        if is_ordered:
            rows.sort(key=_in_order)
        if rows:
            shown = Table(symbol, arguments, len(all_rows), len(rows), rows[:most])
            tables.append(shown._replace(headings=headings((symbol, arguments)), ordered=is_ordered))
    return tables


def _in_order(atom: Atom) -> list[tuple[bool, int, str, str]]:
    """By the first argument that differs: numbers as such, and behind them names by their letters, small or capital."""
    return [(True, 0, it.lower(), it) if isinstance(it, str) else (False, it, "", "") for it in atom[1:]]


def _has(atom: Atom, words: list[str]) -> bool:
    text = named_text([atom]).lower()
    return all(word in text for word in words)


def json_text(value: object) -> bytes:
    """JSON that no browser takes for anything else, whatever names are in it."""
    text = json.dumps(value, separators=(",", ":"))
    for sign in "<>&'":
        text = text.replace(sign, f"\\u{ord(sign):04x}")
    return text.encode()


def _sent(atom: Atom) -> list[object]:
    """An atom for the page: names in lists, and numbers as text, which a browser would round."""
    symbol, *arguments = atom
    return [symbol, *([value] if isinstance(value, str) else str(value) for value in arguments)]


def behind(position: Position, end: Position) -> int:
    """How many operations of a log have not been read at a position."""
    return sum(max(0, number - position.get(origin, 0)) for origin, number in end.items())


def members_of(heard: Iterable[Heard], here: int, position: Position, end: Position) -> list[dict[str, object]]:
    """The members for the page, this one at its position."""
    positions = {one.origin: (one.position, one.seconds) for one in heard if one.seconds < _FORGOTTEN_SECONDS}
    positions[here] = (position, 0.0)
    return [
        {
            "origin": origin,
            "here": origin == here,
            "told": end.get(origin, 0),
            "behind": behind(read, end),
            "position": ", ".join(f"{other}:{number}" for other, number in sorted(read.items())),
            "heard": "now" if seconds < 5 else f"{seconds:.0f} s ago",
            "silent": seconds > _SILENT_SECONDS,
        }
        for origin, (read, seconds) in sorted(positions.items())
    ]


def feeds_of(
    times: Mapping[str, tuple[int, int]], left: Mapping[str, str], here: int, now: float
) -> list[dict[str, object]]:
    """The feeds of a folder for the page, those that were written last first, and that of the origin here."""
    feeds = [(time_ns / 1e9, name) for name, (_, time_ns) in times.items() if name.endswith(".feed")]
    return [
        {
            "origin": origin,
            "here": origin == here,
            "heard": _ago(now - time),
            "silent": now - time > _SILENT_SECONDS,
            "name": name,
            "left": left.get(name, ""),
        }
        for time, name in sorted(feeds, reverse=True)
        for origin in [_origin_in(name)]
    ]


def _origin_in(name: str) -> int | None:
    """The origin of a feed, which its name has behind what stands for the program."""
    with suppress(ValueError, IndexError):
        return int(name.split("-")[1], 16)
    return None


def _ago(seconds: float) -> str:
    """How long something is ago, or now where a clock was set back."""
    if seconds < 5:
        return "now"
    for unit, size in (("d", 86_400), ("h", 3600), ("min", 60)):
        if seconds >= size:
            return f"{seconds // size:.0f} {unit} ago"
    return f"{seconds:.0f} s ago"


class Seen(Protocol):
    """Who shares facts with a member, for its page."""

    @property
    def place(self) -> str:
        """What they share, and whose page it is."""

    def event(self) -> "Event":
        """What is to be shown of them."""


class LogSeen:
    """Who shares a log, and how far each is behind."""

    def __init__(self, member: Member) -> None:
        self._member = member
        self._seen_at = 0.0
        self._heard: Sequence[Heard] = ()

    @property
    def place(self) -> str:
        """Which log it is, and whose page."""
        return f"log {self._member.link.log}, origin {self._member.origin}"

    def event(self) -> "Event":
        """What is to be shown of the members."""
        link = self._member.link
        if time.monotonic() > self._seen_at + _MEMBERS_SECONDS:
            self._seen_at = time.monotonic()
            self._heard = link.members()
        end = link.newest()
        members = members_of(self._heard, self._member.origin, link.position(), end)
        return "members", {"members": members, "operations": sum(end.values())}


class FolderSeen:
    """The feeds of a folder, and what of it is left alone."""

    def __init__(self, member: FolderMember) -> None:
        self._member = member
        self._times: object = None
        self._status: dict[str, Any] = {}

    @property
    def place(self) -> str:
        """Which folder it is, and whose page."""
        return f"folder {self._member.path}, origin {self._member.origin}"

    def event(self) -> "Event":
        """What is to be shown of the feeds. The node is asked only where one was written."""
        times = times_of(self._member.feeds)
        if times != self._times:
            self._times, self._status = times, self._member.status()
        left = self._status["left"]
        feeds = feeds_of(times, left, self._member.origin, time.time())
        others = {name: cause for name, cause in left.items() if not name.endswith(".feed")}
        counts = {"told": self._status["told"], "at_rest": self._status["at_rest"], "all": len(feeds)}
        return "feeds", {"feeds": feeds[:_FEEDS], "left": others, **counts}


def _seen_of(member: AnyMember) -> Seen:
    if isinstance(member, FolderMember):
        return FolderSeen(member)
    return LogSeen(cast(Member, member))


Event = tuple[str, object]

Looker = queue.Queue[Event | None]
"""What a page has yet to be told. None has it look whether it is still told anything."""


class Watcher:
    """Follows a member in a thread, and tells lookers what happens."""

    def __init__(self, member: AnyMember) -> None:
        self._member = member
        self._shared = _seen_of(member)
        self._watch = member.watch()
        self._lock = threading.Lock()
        self._lookers: list[Looker] = []
        self._atoms: tuple[Atom, ...] = ()
        self._new: deque[Entry] = deque(maxlen=10 * _RECENT)
        self._recent: deque[tuple[str, str]] = deque(maxlen=_RECENT)
        self._sharing: Event | None = None
        self._fault: str | None = None
        self._over = threading.Event()
        member.listen(self._hear)
        self._shown_program = self._program()
        self._step()
        self._thread = threading.Thread(target=self._run, name="chrrep page", daemon=True)
        self._thread.start()

    def atoms(self) -> tuple[Atom, ...]:
        """The store at rest, as it was told last."""
        with self._lock:
            return self._atoms

    @contextmanager
    def looking(self) -> Iterator[Looker]:
        """What happens from now on, after all that is there. Who comes has a place: where none is left, the one who has
        looked longest is told no more, and may come again."""
        looker: Looker = queue.Queue(_QUEUED)
        with self._lock:
            if len(self._lookers) >= _LOOKERS:
                self._drop(self._lookers[0])
            shared = [self._sharing] if self._sharing else []
            first: list[Event] = [("program", self._program()), *shared, ("told", list(self._recent))]
            for event in first + ([("fault", self._fault)] if self._fault else []):
                looker.put(event)
            self._lookers.append(looker)
        try:
            yield looker
        finally:
            with self._lock, suppress(ValueError):
                self._lookers.remove(looker)

    def close(self) -> None:
        """Ends the thread, and tells lookers no more."""
        self._over.set()
        self._thread.join()
        with self._lock:
            for looker in list(self._lookers):
                self._drop(looker)

    def is_looking(self, looker: Looker) -> bool:
        """Whether the looker is told what happens, or has yet to take it. One that was too slow is not told any more:
        it comes again, and begins with all that is there."""
        with self._lock:
            return not self._over.is_set() and (looker in self._lookers or not looker.empty())

    def _hear(self, entries: Sequence[Entry]) -> None:
        self._new.extend(entries[-10 * _RECENT:])

    def _run(self) -> None:
        try:
            while not self._over.wait(_PAUSE_SECONDS):
                self._member.going_over(lambda: self._watch.wait(_FOLLOW_SECONDS))
                self._step()
        except Exception as fault:  # those of the engine's client too
            said = f"{type(fault).__name__}: {one_line(fault)}"
            _LOG.warning("the page is not followed any more: %s", said)
            with self._lock:
                self._fault = said
                self._tell(("fault", said))

    def _step(self) -> None:
        """Tells what is new."""
        change = self._member.going_over(self._watch.look)
        atoms = self._member.going_over(self._member.show) if change else ()
        told = [self._new.popleft() for _ in range(len(self._new))]
        program, lines = self._program(), [self._line(entry) for entry in told]
        sharing = self._shared.event()
        with self._lock:
            self._recent.extend(lines)
            if lines:
                self._tell(("told", lines))
            if change:
                self._atoms = atoms
                self._tell(("change", _marks(change)))
            if sharing != self._sharing:
                self._sharing = sharing
                self._tell(sharing)
            if program != self._shown_program:
                self._shown_program = program
                self._tell(("program", program))

    def _program(self) -> object:
        verdict, columns = self._member.verdict, self._member.columns
        said = f"accepted{' with --wide' * verdict.is_wide}: rules {verdict.rules}, cases {verdict.cases}"
        return {
            "verdict": said,
            "log": self._shared.place,
            "example": example_of(columns),
            "text": self._member.program.text.decode(errors="replace"),
        }

    def _line(self, entry: Entry) -> tuple[str, str]:
        try:
            atoms = named_text(self._member.named(json.loads(entry.atoms)))
        except (ValueError, TypeError, OverflowError, RecursionError):
            # what is set aside is shown as it is
            atoms = entry.atoms[:200]
        return f"{entry.id.origin}:{entry.id.number}", atoms

    def _tell(self, event: Event) -> None:
        for looker in list(self._lookers):
            try:
                looker.put_nowait(event)
            except queue.Full:
                self._drop(looker)

    def _drop(self, looker: Looker) -> None:
        """Tells a looker no more; one that waits finds that out at once."""
        self._lookers.remove(looker)
        with suppress(queue.Full):
            looker.put_nowait(None)


def _next_of(looker: Looker) -> bytes:
    """What a looker is sent next: an event, or what shows whether it is still there."""
    event = None
    with suppress(queue.Empty):
        event = looker.get(timeout=_ALIVE_SECONDS)
    if event is None:
        return b": nothing new\n\n"
    name, value = event
    return f"event: {name}\ndata: ".encode() + json_text(value) + b"\n\n"


def _marks(change: Change) -> object:
    return {"came": [*map(_sent, change.came[:MARKS])], "went": [*map(_sent, change.went[:MARKS])]}


class Page(Closing):
    """The page of a member at a port of loopback, 0 being any. It ends with a `with`, or by `close`."""

    def __init__(self, member: AnyMember, port: int) -> None:
        self.member = member
        self._orders = Orders(member.columns)
        self.token = secrets.token_urlsafe(24)
        try:
            self._server = _Server((LOOPBACK, port), _Handler)
        except (OSError, OverflowError) as fault:
            raise PageUnusable(port, fault) from fault
        self.port: int = self._server.server_address[1]
        self._server.page = self
        try:
            self.watcher = Watcher(member)
        except BaseException:
            self._server.server_close()
            raise
        threading.Thread(target=self._server.serve_forever, name="chrrep page server", daemon=True).start()

    @property
    def url(self) -> str:
        """The address for a browser."""
        return f"http://{LOOPBACK}:{self.port}/"

    def is_host(self, host: str | None) -> bool:
        """Whether a request names this machine and port, and no name that someone else has lead here."""
        return (host or "").lower() in {f"{name}:{self.port}" for name in _HOSTS}

    def is_asked(self, site: str | None, origin: str | None) -> bool:
        """Whether this page asks, or someone who is no browser and says of neither where the request comes from."""
        is_ours = origin is None or origin.startswith("http://") and self.is_host(origin.removeprefix("http://"))
        return is_ours and site in (None, *_SITES)

    def tell(self, line: str) -> tuple[HTTPStatus, str]:
        """Tells a line, and gives what is said of it, with what is first to be said of names in it."""
        status, said = _told(self.member, line)
        if status == HTTPStatus.OK:
            if self._orders.columns is not self.member.columns:
                self._orders = Orders(self.member.columns)
            said = "; ".join([said, *self._orders.found(named_atoms_of(line.strip()))])
        return status, said

    def close(self) -> None:
        """Serves the page no more. To close twice is no fault."""
        self.watcher.close()
        self._server.shutdown()
        self._server.server_close()


class _Server(ThreadingHTTPServer):
    daemon_threads = True
    page: Page

    def handle_error(self, request: object, client_address: object) -> None:
        # a connection that broke off is no news
        level = logging.DEBUG if isinstance(sys.exc_info()[1], OSError) else logging.ERROR
        _LOG.log(level, "page: a request was not answered", exc_info=True)


class _Handler(BaseHTTPRequestHandler):
    server: _Server
    server_version = "chrrep"
    sys_version = ""
    timeout = 30.0

    def do_GET(self) -> None:  # noqa: N802
        address = self._address()
        if address is None:
            return
        if address.path == "/":
            self._send_page()
        elif address.path == "/events":
            self._send_events()
        elif address.path == "/store":
            self._send_store(address.query)
        else:
            self._send(HTTPStatus.NOT_FOUND, "There is no such page.")

    def do_POST(self) -> None:  # noqa: N802
        address = self._address()
        if address is None:
            return
        if address.path != "/tell":
            self._send(HTTPStatus.NOT_FOUND, "There is no such page.")
        elif not secrets.compare_digest(self.headers.get("X-Token", "").encode(), self.server.page.token.encode()):
            self._send(HTTPStatus.FORBIDDEN, "Only the page that this node serves may tell: load it again.")
        else:
            line = self._body()
            if line is None:
                self._send(HTTPStatus.BAD_REQUEST, f"A line has 1 to {LINE_LIMIT} bytes, of UTF-8.")
                self._drain()
            else:
                self._send(*self.server.page.tell(line))

    def send_error(self, code: int, message: str | None = None, explain: str | None = None) -> None:
        """Says what the base class finds wrong, with the headers of all answers."""
        self._send(HTTPStatus(code), message or HTTPStatus(code).phrase)

    def log_message(self, format: str, *words: Any) -> None:
        _LOG.debug("page: " + format, *words)

    def _address(self) -> SplitResult | None:
        """What is asked for; None where that was refused."""
        page, headers = self.server.page, self.headers
        if not page.is_host(headers.get("Host")):
            self._send(HTTPStatus.FORBIDDEN, f"This page is {page.url} alone.")
            return None
        try:
            address = urlsplit(self.path)
        except ValueError as fault:
            self._send(HTTPStatus.BAD_REQUEST, f"This is no address: {one_line(fault)}")
            return None
        # others may lead to the page, and to nothing else
        if address.path != "/" and not page.is_asked(headers.get("Sec-Fetch-Site"), headers.get("Origin")):
            self._send(HTTPStatus.FORBIDDEN, "Only the page that this node serves may ask for this.")
            return None
        return address

    def _body(self) -> str | None:
        length = self.headers.get("Content-Length", "")
        is_number = length.isascii() and length.isdecimal() and len(length) <= len(str(LINE_LIMIT))
        if not is_number or not 0 < int(length) <= LINE_LIMIT:
            return None
        with suppress(UnicodeDecodeError):
            return self.rfile.read(int(length)).decode()
        return None

    def _drain(self) -> None:
        """Takes what is still sent, for a while: who sends it reads no answer before."""
        end = time.monotonic() + _DRAIN_SECONDS
        with suppress(OSError):
            self.connection.shutdown(socket.SHUT_WR)
            self.connection.settimeout(_DRAIN_SECONDS)
            while time.monotonic() < end and self.connection.recv(65_536):
                pass

    def _send_page(self) -> None:
        nonce = secrets.token_urlsafe(16)
        text = _PAGE.read_text(encoding="utf-8")
        text = text.replace("{{token}}", self.server.page.token).replace("{{nonce}}", nonce)
        policy = (
            f"default-src 'none'; style-src 'nonce-{nonce}'; script-src 'nonce-{nonce}'; connect-src 'self'; "
            "form-action 'none'; frame-ancestors 'none'; base-uri 'none'"
        )
        self._begin(HTTPStatus.OK, "text/html; charset=utf-8", {"Content-Security-Policy": policy})
        self._write(text.encode())

    def _send_store(self, query: str) -> None:
        try:
            find = parse_qs(query, errors="strict").get("find", [""])[0]
        except ValueError as fault:
            self._send(HTTPStatus.BAD_REQUEST, f"This is no search: {one_line(fault)}")
            return
        page = self.server.page
        tables = tables_of(page.watcher.atoms(), find, headings=page.member.columns.headings)
        answer = {"tables": [{**table._asdict(), "rows": [*map(_sent, table.rows)]} for table in tables]}
        self._begin(HTTPStatus.OK, "application/json")
        self._write(json_text(answer))

    def _send_events(self) -> None:
        watcher = self.server.page.watcher
        with watcher.looking() as looker:
            self._begin(HTTPStatus.OK, "text/event-stream")
            while watcher.is_looking(looker):
                if not self._write(_next_of(looker)):
                    return

    def _send(self, status: HTTPStatus, text: str) -> None:
        self._begin(status, "text/plain; charset=utf-8")
        self._write(text.encode())

    def _begin(self, status: HTTPStatus, kind: str, more: dict[str, str] | None = None) -> None:
        self.send_response(status)
        headers = {
            "Content-Type": kind,
            "Cache-Control": "no-store",
            "Cross-Origin-Resource-Policy": "same-origin",
            "X-Content-Type-Options": "nosniff",
            "Referrer-Policy": "no-referrer",
            **(more or {}),
        }
        for name, value in headers.items():
            self.send_header(name, value)
        with suppress(OSError):
            self.end_headers()

    def _write(self, data: bytes) -> bool:
        """Writes, and says whether the other side is still there."""
        try:
            self.wfile.write(data)
            self.wfile.flush()
        except OSError:
            return False
        return True


def _told(member: AnyMember, line: str) -> tuple[HTTPStatus, str]:
    """Tells a line, and gives what is said of it."""
    try:
        atoms = named_atoms_of(line.strip())
        id = member.going_over(lambda: member.tell(*atoms))
    except ValueError as fault:
        return HTTPStatus.UNPROCESSABLE_ENTITY, f"refused: {fault_words(fault, member.columns)}"
    except (Refused, NameClash) as refusal:
        return HTTPStatus.UNPROCESSABLE_ENTITY, f"refused: {one_line(refusal)}"
    except LinkLost as lost:
        return HTTPStatus.SERVICE_UNAVAILABLE, f"{one_line(lost)}: it may be told, or not"
    except ChrrepError as fault:
        return HTTPStatus.SERVICE_UNAVAILABLE, f"{type(fault).__name__}: {one_line(fault)}"
    return HTTPStatus.OK, f"told {id.origin}:{id.number}"
