"""Follows the newest version of a server: what each page shows, and what it is sent."""
import asyncio
import secrets
import sys
import time
from typing import Callable, Dict, List, NamedTuple, Optional, Sequence, Set, Tuple, TypeVar, Union

import changes
import clearmap
import clearmap_ros as ros
import picture
import tables
from draft import Draft
from outlines import corners
from shown import Copy, Shown, clock
from watched import AFTER_A_QUESTION, PATIENCE, Watched
from yaml_map import YamlMap

T = TypeVar("T")
Answers = Union[clearmap.Map, clearmap.Pinned]  # both answer the same questions
PAUSE = 0.15  # seconds from one look at the newest version to the next
SLOW_PAUSE = 2.0  # seconds, where each look is a connection of its own
SHARE = 20  # such a look takes at most this part of the time


class Wanted(NamedTuple):
    """What the command line asks for."""

    port: int
    program: Optional[str]
    in_process: bool
    map: Optional[YamlMap] = None
    radius: str = ""
    read_only: bool = False
    footprint: Sequence[Tuple[str, str]] = ()  # as --radius in metres with a map, else in cells


class NothingShown(Exception):
    """There is no version to ask; its text says why."""


class Following:
    """What is shown, and whether the server is there. `turn` counts its changes, and `run` is a
    name of this run of the program, by which a page notices another one."""

    def __init__(self, wanted: Wanted) -> None:
        self.wanted, self.run = wanted, secrets.token_urlsafe(9)
        self.draft = Draft()
        self.watched = Watched(wanted.port, self.draft.lost)
        self.shown: List[Shown] = []  # the newest, and the one before it
        self.changed: Optional[Dict[str, object]] = None
        self.pinned = (0, 0)
        self.serial, self.seen = 0, clock()
        self.fault = f"The server at port {wanted.port} is being asked."
        self.turn, self.listeners = 0, 0
        self.printed: Set[str] = set()
        self.news = asyncio.Condition()
        self.looking = asyncio.Lock()

    # ---- what each page is told

    def frame_of(self, shown: Shown) -> Optional[ros.Frame]:
        """Where the map lies, unless the yaml is of a map of another size."""
        known = self.wanted.map
        fits = known is not None and known.frame.size == (shown.width, shown.height)
        return known.frame if known is not None and fits else None

    def state(self) -> Dict[str, object]:
        """What each page is sent when it changes."""
        wanted = self.wanted
        told: Dict[str, object] = {"fault": self.fault, "readOnly": wanted.read_only}
        told.update(run=self.run, port=wanted.port, draft=self.draft.state())
        told["name"] = wanted.map.name if wanted.map else f"port {wanted.port}"
        if self.shown:
            told.update(self.state_of(self.shown[0]), age=clock() - self.seen)
        return told

    def state_of(self, shown: Shown) -> Dict[str, object]:
        """What is sent about the newest version."""
        frame, known = self.frame_of(shown), self.wanted.map
        told: Dict[str, object] = {"serial": shown.serial, "version": shown.version}
        told.update(width=shown.width, height=shown.height, edge=shown.edge)
        told["resolution"] = float(frame.resolution) if frame else None
        told["origin"] = [float(frame.origin_x), float(frame.origin_y)] if frame else None
        told["changes"] = self.changed
        told["footprint"] = corners(self.outline(frame), frame)
        in_its_unit = frame is not None or known is None
        told["radius"] = self.wanted.radius if in_its_unit else ""
        if known is not None and frame is None:
            told["notice"] = self.other_size(shown, known)
        return told

    def outline(self, frame: Optional[ros.Frame]) -> Sequence[Tuple[str, str]]:
        """The robot's outline: none if it is in metres, and the map isn't."""
        return () if frame is None and self.wanted.map is not None else self.wanted.footprint

    def other_size(self, shown: Shown, known: YamlMap) -> str:
        """What is said of a served map whose size the yaml's image doesn't have."""
        sizes = f"has {known.frame.width} by {known.frame.height} cells"
        sizes += f", and the served map {shown.width} by {shown.height}"
        return f"The yaml's image {sizes}: no metres are shown."

    def warn(self, said: str) -> None:
        """Prints for whoever started the program what the page says, each text once."""
        if said not in self.printed:
            self.printed.add(said)
            print(f"clearmap-view: {said}", file=sys.stderr, flush=True)

    async def tell(self, fault: str) -> None:
        """Tells each page what has changed."""
        async with self.news:
            self.fault = fault
            self.turn += 1
            self.news.notify_all()

    # ---- looks

    async def watch(self) -> None:
        """Looks again and again, but never while a picture is being made: so the pin stays on what
        the page is about to show."""
        while True:
            start = time.monotonic()
            await self.look()
            spent = time.monotonic() - start
            made = [it for shown in self.shown for it in shown.pictures.values() if not it.done()]
            if made:
                await asyncio.wait(made)
            await self.pause(spent)

    async def pause(self, spent: float) -> None:
        """Waits until the next look. If each takes a connection they come rarely, but what is
        asked, changed or opened meanwhile ends the wait."""
        until = time.monotonic() + max(SLOW_PAUSE, SHARE * spent)
        opened = self.listeners
        await asyncio.sleep(PAUSE)
        while time.monotonic() < until and not self.watched.is_pinned:
            if self.holds or self.fault or self.listeners != opened:
                return
            await asyncio.sleep(PAUSE)

    @property
    def holds(self) -> bool:
        """Whether the connection stays: for what is asked and changed, and for what was drawn, so
        that a server that ends is noticed."""
        return self.watched.stays or (self.listeners > 0 and self.draft.count > 0)

    async def look(self) -> None:
        """Moves to the newest version, if it is another one, and leaves the connection if nothing
        is asked. The first version is looked for before a page is open."""
        async with self.looking:
            if self.listeners > 0 or not self.shown:
                await self.renew()
            if not self.holds:
                if self.watched.is_pinned:
                    self.draft.left()
                await asyncio.to_thread(self.watched.rest)

    async def renew(self) -> None:
        """Moves to the newest version, and reports a lost server."""
        start = clock()
        try:
            pinned = await self.answered(self.watched.renew, self.draft.saw)
            if pinned != self.pinned or not self.shown:
                await self.take(await self.answered(self.copied))
                self.pinned = pinned
            elif self.fault:
                await self.tell("")
            self.seen = start
        except clearmap.ClearmapError as fault:
            refused = isinstance(fault.__cause__, ConnectionRefusedError)
            why = "nobody listens there" if refused else fault
            await self.tell_fault(f"{why}. It is tried again.")
            if refused:
                self.warn(self.fault)

    async def tell_fault(self, why: str) -> None:
        """Tells each page why the server can't be asked."""
        said = f"The server at port {self.wanted.port} can't be asked: {why}"
        if said != self.fault:
            await self.tell(said)

    async def answered(self, call: Callable[..., T], *words: object) -> T:
        """What a call of another thread answers. If the server takes its time, pages are told."""
        work = asyncio.create_task(asyncio.to_thread(call, *words))
        work.add_done_callback(lambda it: it.cancelled() or it.exception())  # if nobody waits now
        done, _ = await asyncio.wait({work}, timeout=PATIENCE)
        if not done:
            why = f"it hasn't answered for {PATIENCE:.0f} s, and is waited for"
            await self.tell_fault(f"{why}. Are all its workers taken?")
        return await work

    def copied(self) -> Copy:
        """The pinned version, and whether its edge is open or a wall, as cells with free neighbours
        show."""
        image = self.watched.dump()
        known = self.shown[0].copy if self.shown else None
        bits = known.bits if known and known.image == image else picture.bits_of(image)
        cell = picture.telling_cell(bits)
        if cell is None:
            return Copy(self.watched.ask(lambda _: None)[0], image, bits, "open")
        x, y = cell
        version, near = self.watched.ask(lambda pinned: pinned.at(x, y, "chess"))
        is_wall = near is not None and near.distance == 1
        return Copy(version, image, bits, "wall" if is_wall else "open")

    async def take(self, copy: Copy) -> None:
        """Shows a version, unless it is the one shown."""
        if self.shown and self.shown[0].is_as(copy):
            return await self.tell("") if self.fault else None
        await asyncio.to_thread(self.compare, copy)
        self.serial += 1
        made = await asyncio.to_thread(Shown, self.serial, copy, self.wanted.in_process)
        before = self.shown[0] if self.shown else None
        self.changed = await asyncio.to_thread(changes.counts, before, made)
        self.shown = [made, *self.shown[:1]]
        known = self.wanted.map
        if known is not None and self.frame_of(made) is None:
            self.warn(self.other_size(made, known))
        await self.tell("")

    def compare(self, copy: Copy) -> None:
        """Looks for changes of others in a version that was published from here: the page showed it
        as the one before it, with what was drawn."""
        drawn = self.draft.sent(copy.version)
        if drawn is None or not self.shown or self.shown[0].version + 1 != copy.version:
            return
        before = self.shown[0].copy.bits
        if before.shape == copy.bits.shape:
            self.draft.found(copy.version, picture.differing(before, drawn, copy.bits))

    def before_last(self) -> Tuple[Sequence[int], bytes]:
        """Where the last rectangle from here begins, and an image of its cells as they were before
        it: as in the newest version, with the earlier rectangles from here."""
        drawn = self.draft.to_undo
        if not drawn:
            raise NothingShown("There is no rectangle to undo.")
        shown = self.newest()
        if shown.version != self.draft.version:
            raise NothingShown("The newest version isn't shown yet: try it again.")
        return drawn[-1][0][:2], picture.image_before_last(shown.copy.bits, drawn)

    # ---- questions

    def newest(self) -> Shown:
        """What is shown."""
        if not self.shown:
            raise NothingShown(self.fault or "no version is known yet")
        return self.shown[0]

    async def asked(self, question: Callable[[Answers], T]) -> Tuple[int, T]:
        """A version, and what it answers: the one shown, in this process, or without the library
        the one that the connection pins."""
        self.watched.stay(AFTER_A_QUESTION)
        shown = self.newest()
        if shown.area is not None:
            return shown.version, await asyncio.to_thread(question, shown.area)
        async with self.looking:  # so that no look leaves the connection meanwhile
            if not self.watched.is_pinned:
                await self.renew()
            return await self.answered(self.watched.ask, question)

    async def picture_of(self, shown: Shown, metric: str) -> picture.Picture:
        """A version's picture by a metric, once it is made."""
        known = shown.pictures.get(metric)
        if known is None or (known.done() and known.exception() is not None):
            work = asyncio.to_thread(self.made, shown, metric)
            shown.pictures[metric] = asyncio.create_task(work)
        return await asyncio.shield(shown.pictures[metric])

    def made(self, shown: Shown, metric: str) -> picture.Picture:
        """Makes a picture."""
        words = self.wanted.program, shown.area, shown.copy.image, metric, shown.edge
        known = self.wanted.map if self.frame_of(shown) is not None else None
        return picture.Picture(tables.table_of(*words), known.unknown if known else None)
