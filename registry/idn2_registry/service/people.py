"""The pages over HTTP."""

import re
from collections.abc import Awaitable, Callable, Iterator, Mapping
from dataclasses import dataclass, field
from types import MappingProxyType

from aiohttp import web

from ..answers import Status
from ..faults import Fault, Unusable
from ..pages.classes import Classes
from ..pages.frame import ICON, SCRIPT, STYLE, Frame, file_of
from ..pages.label_page import Asked, found, label_page
from ..pages.table_page import Shown, View, table_page
from .answering import Answering
from .bodies import Faulty, again, query_of

HEADERS = {
    "Content-Security-Policy": "default-src 'none'; style-src 'self'; script-src 'self'; img-src 'self'; form-action 'self'; "
                               "base-uri 'none'; frame-ancestors 'none'",
    "Referrer-Policy": "no-referrer", "X-Content-Type-Options": "nosniff", "Cache-Control": "no-store",
}
Handler = Callable[[web.Request], Awaitable[web.Response]]


def html(body: bytes, status: int = 200, more: Mapping[str, str] = MappingProxyType({})) -> web.Response:
    """A page."""
    return web.Response(body=body, status=status, content_type="text/html", charset="utf-8", headers={**HEADERS, **more})


@dataclass(frozen=True)
class Pages:
    """What people look at."""

    answering: Answering
    # Examples take the program some time: they are kept as long as the table.
    _views: dict[str, View] = field(default_factory=dict)

    @property
    def frame(self) -> Frame:
        """What all pages have in common."""
        return Frame(list(self.answering.zone.configuration.tables))

    def paths(self) -> Iterator[tuple[str, Handler]]:
        """The paths of the pages, and what they answer."""
        for path, handler in (("/", self.label), ("/tables/{name}", self.table)):
            yield path, self.shown(handler)
        for name, kind in ((STYLE, "text/css"), (SCRIPT, "text/javascript"), (ICON, "image/svg+xml")):
            yield f"/{name}", self.file(name, kind)

    def shown(self, handler: Handler) -> Handler:
        """What answers with a page, also where there is none."""
        async def answered(request: web.Request) -> web.Response:
            try:
                return await handler(request)
            except Faulty as error:
                return html(self.frame.fault(str(error)), error.status)
            except ValueError as error:
                return html(self.frame.fault(str(error)), 400)
            except Fault as error:
                self.answering.unknowns.add(str(error))
                return html(self.frame.fault(f"{error.told}: ask again"), 503, again(isinstance(error, Unusable)))

        return answered

    @staticmethod
    def file(name: str, kind: str) -> Handler:
        """What answers with a file of the pages."""
        body = file_of(name)

        async def handler(request: web.Request) -> web.Response:
            return web.Response(body=body, content_type=kind, charset="utf-8", headers={"X-Content-Type-Options": "nosniff"})

        return handler

    async def label(self, request: web.Request) -> web.Response:
        """The page of a label."""
        asked = Asked.read(query_of(request))
        if asked is None:
            return html(label_page(self.frame, None, None))
        zone = self.answering.zone
        told = await self.answering.call(found, zone, Classes(zone.tables.pool), asked)
        page = label_page(self.frame, asked, told)
        if told.answer.status is not Status.UNKNOWN:
            return html(page)
        self.answering.unknowns.add(told.answer.reason)
        return html(page, 503, again(told.answer.lasts))

    async def table(self, request: web.Request) -> web.Response:
        """The page of a table."""
        zone = self.answering.zone
        table = zone.tables.by_name.get(request.match_info["name"])
        if table is None:
            raise Faulty(404, "no table has this name")
        start = query_of(request).get("from", "0")
        if not re.fullmatch(r"[0-9A-Fa-f]{1,6}", start):
            raise ValueError("from is a code point in hexadecimal digits")
        view = self._views.get(table.name)
        if view is None or view.parsed.table is not table:
            view = await self.answering.call(View.of, table, zone.program)
        if view.examples.are_whole:
            self._views[table.name] = view
        return html(table_page(self.frame, view, Shown(int(start, 16))))
