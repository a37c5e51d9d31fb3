"""The page's own web server: what a browser gets. It serves only requests to its own loopback
address."""
import asyncio
import json
import pathlib
from typing import AsyncIterator, Awaitable, Callable

from aiohttp import web

import changes
import clearmap
from clearmap.runs import TableError
from picture import SIDE, Picture
from asking import Asking
from bodies import BadRequest
from changing import Changing
from following import Following, NothingShown, Wanted
from robot import Robot
from watched import in_words

PAGE = pathlib.Path(__file__).resolve().parent / "page"
HEARTBEAT = 2.0  # seconds; a browser that went away is noticed by it, and so is this by a browser
TYPES = {".css": "text/css", ".js": "text/javascript"}
METRIC = "{metric:euclid2|city|chess}"
SAFE = {
    "Content-Security-Policy": "default-src 'self'; img-src 'self' data:; frame-ancestors 'none'",
    "Cross-Origin-Resource-Policy": "same-origin",
    "X-Content-Type-Options": "nosniff",
    "X-Frame-Options": "DENY",
    "Referrer-Policy": "no-referrer",
    "Cache-Control": "no-store",
}
PORT_OF_HTTP = 80  # which browsers leave out of Host and Origin
NAMES = ("127.0.0.1", "localhost")
Handler = Callable[[web.Request], Awaitable[web.StreamResponse]]


class Site:
    """The routes, and who may ask them."""

    def __init__(self, own: int, wanted: Wanted) -> None:
        self.hosts = {f"{name}:{own}" for name in NAMES}
        if own == PORT_OF_HTTP:
            self.hosts.update(NAMES)
        self.following = Following(wanted)
        self.changing = Changing(self.following)
        self.ending = False

    def application(self) -> web.Application:
        """The routes; the guard sees each request before them."""
        site = web.Application(middlewares=[self.guard])
        asking, robot = Asking(self.following), Robot(self.following)
        parts = "|".join(sorted(path.name for path in PAGE.iterdir() if path.suffix in TYPES))
        numbers = "/".join(f"{{{name}:\\d{{1,6}}}}" for name in ("level", "column", "row"))
        site.router.add_get("/", self.index)
        site.router.add_get(f"/{{name:{parts}}}", self.file)
        site.router.add_get("/events", self.events)
        site.router.add_get(f"/picture/{METRIC}", self.picture)
        site.router.add_get(f"/piece/{{serial:\\d{{1,9}}}}/{METRIC}/{numbers}", self.piece)
        site.router.add_get("/changed/{serial:\\d{1,9}}", self.changed)
        site.router.add_get("/at", asking.at)
        site.router.add_get("/room", asking.room)
        site.router.add_get("/robot", robot.at)
        site.router.add_post("/path", asking.path)
        site.router.add_post("/change", self.changing.change)
        site.router.add_post("/forget", self.changing.forget)
        site.cleanup_ctx.append(self.watch)
        site.on_shutdown.append(self.end)
        site.on_response_prepare.append(self.headers)
        return site

    async def watch(self, _: web.Application) -> AsyncIterator[None]:
        """Follows the server until the end."""
        task = asyncio.create_task(self.following.watch())
        yield
        task.cancel()
        self.following.watched.end()

    async def end(self, _: web.Application) -> None:
        """Lets go of the pages that wait for news."""
        self.ending = True
        await self.following.tell(self.following.fault)

    # ---- who may ask

    async def headers(self, _: web.Request, response: web.StreamResponse) -> None:
        """What keeps other sites out of each response."""
        for name, value in SAFE.items():
            response.headers.setdefault(name, value)

    def is_own(self, request: web.Request) -> bool:
        """Whether a request was sent to this address and by its own page. A link from elsewhere may
        lead to the page itself, which no frame may hold."""
        headers = request.headers
        origins = {f"http://{host}" for host in self.hosts}
        by_us = headers.get("Origin") in {None, *origins}
        leads = request.path == "/" and headers.get("Sec-Fetch-Mode") == "navigate"
        near = headers.get("Sec-Fetch-Site", "none") in ("same-origin", "none") or leads
        return headers.get("Host") in self.hosts and by_us and near

    @web.middleware
    async def guard(self, request: web.Request, handler: Handler) -> web.StreamResponse:
        """Refuses what isn't the page's own, and answers faults in words."""
        if not self.is_own(request):
            said = "This page answers requests of its own address alone."
            return web.json_response({"fault": said}, status=403)
        try:
            return await handler(request)
        except BadRequest as fault:
            return web.json_response({"fault": str(fault)}, status=fault.status)
        except NothingShown as fault:
            return web.json_response({"fault": str(fault)}, status=503)
        except clearmap.Refused as refusal:
            return web.json_response({"fault": in_words(refusal)}, status=409)
        except (clearmap.ClearmapError, TableError) as fault:
            return web.json_response({"fault": f"{fault}."}, status=503)

    # ---- what a browser gets

    async def index(self, _: web.Request) -> web.Response:
        """The page, with its token and the name of this run."""
        text = (PAGE / "index.html").read_text(encoding="utf-8")
        text = text.replace("@TOKEN@", self.changing.token).replace("@RUN@", self.following.run)
        return web.Response(text=text, content_type="text/html")

    async def file(self, request: web.Request) -> web.Response:
        """A part of the page."""
        path = PAGE / request.match_info["name"]
        text = path.read_text(encoding="utf-8")
        return web.Response(text=text, content_type=TYPES[path.suffix])

    async def events(self, request: web.Request) -> web.StreamResponse:
        """The state, whenever it changes, as server-sent events."""
        response = web.StreamResponse(headers={"Content-Type": "text/event-stream"})
        await response.prepare(request)
        self.following.listeners += 1
        told = -1
        try:
            while not self.ending:
                told = await self.event(response, told)
        except ConnectionError:
            pass  # the browser went away
        finally:
            self.following.listeners -= 1
        return response

    async def event(self, response: web.StreamResponse, told: int) -> int:
        """Writes the next state, or a heartbeat; which turn the page knows then."""
        following = self.following
        if told != following.turn:
            told = following.turn
            await response.write(f"data: {json.dumps(following.state())}\n\n".encode())
        try:
            async with following.news:
                news = following.news.wait_for(lambda: told != following.turn)
                await asyncio.wait_for(news, HEARTBEAT)
        except asyncio.TimeoutError:
            await response.write(b"event: beat\ndata:\n\n")
        return told

    # ---- pictures

    async def picture(self, request: web.Request) -> web.Response:
        """What there is to know of the newest version's picture, once it is made."""
        shown, metric = self.following.newest(), request.match_info["metric"]
        made = await self.following.picture_of(shown, metric)
        about = {"serial": shown.serial, "version": shown.version, "metric": metric}
        about.update(width=made.width, height=made.height, most=made.most, edge=shown.edge)
        about.update(levels=len(made.levels), side=SIDE, hasUnknown=made.has_unknown)
        return web.json_response(about)

    def kept(self, serial: int, metric: str) -> Picture:
        """A picture that was made."""
        for shown in self.following.shown:
            task = shown.pictures.get(metric)
            if shown.serial == serial and task is not None and task.done():
                return task.result()
        raise BadRequest("no such picture is kept", 404)

    async def changed(self, request: web.Request) -> web.Response:
        """Which cells of the newest version aren't as in the one that was shown before."""
        following = self.following
        serial = int(request.match_info["serial"])
        if following.changed is None or following.shown[0].serial != serial:
            raise BadRequest("there is no version before it", 404)
        bits = [shown.copy.bits for shown in reversed(following.shown)]
        return web.json_response(await asyncio.to_thread(changes.told, *bits))

    async def piece(self, request: web.Request) -> web.Response:
        """A piece of a picture."""
        words = request.match_info
        made = self.kept(int(words["serial"]), words["metric"])
        level, column, row = (int(words[name]) for name in ("level", "column", "row"))
        try:
            data = await asyncio.to_thread(made.piece, level, column, row)
        except IndexError as fault:
            raise BadRequest(str(fault), 404) from None
        deflated = {"Content-Encoding": "deflate"}
        return web.Response(body=data, content_type="application/octet-stream", headers=deflated)
