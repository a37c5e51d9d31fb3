"""The commands that the page gives: each wants the page's own token."""
import asyncio
import hmac
import secrets
from typing import Callable, Dict, Optional, Sequence

from aiohttp import web

import clearmap
from bodies import BadRequest, body_of, page_of, place_of, rectangle_of
from draft import Draft
from following import Following, NothingShown
from watched import PATIENCE, in_words
from wording import counted

Command = Callable[[clearmap.Client], str]
UNDO = (
    "undo makes the last rectangle's cells what they were in the newest version with the earlier"
    " rectangles from here"
)
LEAVING = ("collect", "checkpoint")  # commands that leave the draft and the versions' maps
OFF_THE_MAP = (1, 12)  # refusals
FOREIGN = "The last rectangle was drawn on another page, or before this one was loaded"


def drawing(draft: Draft, name: str, sides: Sequence[int], page: str) -> Command:
    """A paint or a clear of a rectangle."""
    paints = name == "paint"
    draw = clearmap.Client.paint if paints else clearmap.Client.clear

    def call(client: clearmap.Client) -> str:
        x0, y0, x1, y1 = sides
        done = draw(client, x0, y0, x1, y1)
        draft.drew(name, sides, done.place, page)
        changed = f"{counted(done.changed, 'cell')} of the draft {name}ed"
        return f"{changed}, place {done.place} of the log."

    return call


def drawing_again(draft: Draft, page: str) -> Command:
    """Draws what was lost again, in the same order. What lies off the map stays lost, and the first
    other refusal ends it."""

    def call(client: clearmap.Client) -> str:
        lost, drawn, why = draft.are_lost, 0, ""
        for it in lost:
            draw = clearmap.Client.paint if it.command == "paint" else clearmap.Client.clear
            x0, y0, x1, y1 = it.rect
            try:
                draft.drew_again(it, draw(client, x0, y0, x1, y1).place, page)
                drawn += 1
            except clearmap.Refused as refusal:
                why = f" {in_words(refusal)}"
                if refusal.number not in OFF_THE_MAP:
                    break
        return f"{drawn} of {counted(len(lost), 'lost rectangle')} drawn again.{why}"

    return call


def commands(draft: Draft) -> Dict[str, Command]:
    """The commands without a rectangle. Each passes its place to the draft."""

    def publish(client: clearmap.Client) -> str:
        done = client.publish()
        between = draft.published(done.version, done.place)
        others = f" {counted(between, 'command')} of others came just before." if between else ""
        return f"Published as version {done.version}.{others}"

    def revert(client: clearmap.Client) -> str:
        place = client.revert()
        draft.reverted(place)
        return f"The draft is the newest version again, place {place} of the log."

    def collect(client: clearmap.Client) -> str:
        done = client.collect()
        draft.passed(done.place)
        kept = f"{done.floor} is the least version that is kept"
        return f"Collected: {kept}, and {counted(done.freed, 'block')} came back."

    def checkpoint(client: clearmap.Client) -> str:
        place = client.checkpoint()
        draft.passed(place)
        return f"The log's entries are dropped, place {place}."

    return {"publish": publish, "revert": revert, "collect": collect, "checkpoint": checkpoint}


def undoing(following: Following, place: Optional[int]) -> Command:
    """What takes the last rectangle back, if it is the one of this place: no command does, so its
    cells are stamped as they were."""

    def undo(client: clearmap.Client) -> str:
        last = following.draft.last
        if place is not None and last is not None and last.place != place:
            raise BadRequest("Another rectangle is the last one now: nothing was undone.", 409)
        (x, y), image = following.before_last()
        done = client.stamp(x, y, image)
        following.draft.undid(done.place)
        return f"The last rectangle is undone, place {done.place} of the log."

    return undo


class Late(BadRequest):
    """A command whose reply hasn't come yet."""


class Changing:
    """The handler of commands."""

    def __init__(self, following: Following) -> None:
        self.following = following
        self.token = "" if following.wanted.read_only else secrets.token_urlsafe(24)
        self.late: "Optional[asyncio.Task[None]]" = None  # has the name of a late command

    def command(self, body: Dict[str, object]) -> Command:
        """The command that a request names."""
        name, draft = str(body.get("command")), self.following.draft
        if name in ("paint", "clear"):
            return drawing(draft, name, rectangle_of(body.get("rect")), page_of(body))
        if name == "redraw":
            return drawing_again(draft, page_of(body))
        if name == "undo":
            return undoing(self.following, place_of(body))
        if name not in commands(draft):
            raise BadRequest("no such command")
        return commands(draft)[name]

    def check(self, request: web.Request) -> None:
        """Refuses whoever isn't the page."""
        if self.following.wanted.read_only:
            raise BadRequest("This page is read-only.", 403)
        token = request.headers.get("X-Clearmap-Token", "")
        if not hmac.compare_digest(token.encode(), self.token.encode()):
            raise BadRequest("A change wants the token of this run: load the page again.", 403)

    async def give(self, name: str, call: Command) -> str:
        """Gives a command, and what it answers. A reply that comes late is told to each page: what
        was accepted is our own, however late that was."""
        work = asyncio.create_task(self.replied(name, call))
        done, _ = await asyncio.wait({work}, timeout=PATIENCE)
        if done:
            return work.result()
        self.following.draft.tell_late(f"The server hasn't answered the {name} yet.")
        self.late = asyncio.create_task(self.take_late(name, work), name=name)
        raise Late(f"The server hasn't answered the {name} yet: it is waited for.", 504)

    async def replied(self, name: str, call: Command) -> str:
        """What a command answers, once it does. Its reply may be lost with the connection, too."""
        try:
            return await asyncio.to_thread(self.following.watched.change, call)
        except clearmap.ConnectionLost as fault:
            refused = isinstance(fault.__cause__, ConnectionRefusedError)
            if name not in LEAVING and not refused:
                self.following.draft.unanswered(name)
            raise

    async def take_late(self, name: str, work: "asyncio.Task[str]") -> None:
        """Tells each page of a reply that was late."""
        try:
            said = f"The {name} was answered late: {await work}"
        except clearmap.Refused as refusal:
            said = f"The {name} was answered late: {in_words(refusal)}"
        except clearmap.ClearmapError:
            said = ""  # the draft tells it
        except (BadRequest, NothingShown) as fault:
            said = f"The {name} wasn't sent: {fault}"
        self.following.draft.tell_late(said)
        await self.following.tell(self.following.fault)

    def check_late(self) -> None:
        """Refuses a command before the reply of a late one."""
        if self.late is not None and not self.late.done():
            name = self.late.get_name()
            raise BadRequest(f"The server hasn't answered the {name} yet: nothing was sent.", 409)
        self.following.draft.tell_late("")

    async def look(self) -> None:
        """Takes a place of the log, which tells whether others gave commands since our last one,
        and whether it is another server: that one gets no command that was meant for the one
        before. A collect changes no map."""
        draft = self.following.draft
        known = draft.replaced
        try:
            await self.give("collect", commands(draft)["collect"])
        except Late:
            raise BadRequest("The server hasn't answered yet: nothing was done.", 504) from None
        if draft.replaced != known:
            raise BadRequest("Another server runs now: nothing else was done there.", 409)

    def question(self, name: str, page: str) -> str:
        """What a page asks before a command; an empty text if it does it at once."""
        draft = self.following.draft
        if name == "revert":
            ours = counted(draft.count, "rectangle")
            return f"Revert drops {ours} from here, and what others changed in the draft. Revert?"
        if name == "publish" and draft.asks:
            return f"{draft.hidden}. Publish all of it?"
        return self.question_of_undo(page) if name == "undo" else ""

    def question_of_undo(self, page: str) -> str:
        """What a page asks before an undo."""
        draft = self.following.draft
        last = draft.last
        words = [f"{FOREIGN}."] if last is not None and last.page != page else []
        if draft.asks:
            words.append(f"{draft.hidden}, and {UNDO}.")
        return " ".join([*words, "Undo?"]) if words else ""

    async def change(self, request: web.Request) -> web.Response:
        """A command."""
        self.check(request)
        body = await body_of(request)
        name, sure = str(body.get("command")), body.get("sure") is True
        call, page = self.command(body), page_of(body)
        self.check_late()
        try:
            if name == "undo" or (name == "publish" and (sure or not self.following.draft.asks)):
                await self.look()
            asks = "" if sure else self.question(name, page)
            if asks:
                return web.json_response({"asks": asks})
            return web.json_response({"said": await self.give(name, call)})
        finally:
            await self.following.tell(self.following.fault)

    async def forget(self, request: web.Request) -> web.Response:
        """Forgets the rectangles that were lost."""
        self.check(request)
        self.following.draft.forget_lost()
        await self.following.tell(self.following.fault)
        return web.json_response({"said": "The lost rectangles aren't shown any more."})
