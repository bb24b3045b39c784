"""The command `preview`: a page of this machine that shows the sample of a style, and is drawn anew
when the file changes."""
from __future__ import annotations

import hashlib
import sys
import threading
import time
from http import HTTPStatus
from http.server import BaseHTTPRequestHandler, ThreadingHTTPServer
from typing import Any, List, NoReturn, Optional, Tuple

from . import _console, csl
from ._console import INPUT_OR_OUTPUT_FAILED, say
from ._explained_page import EXPLAINED, explained_page, program
from ._preview_page import FOLLOWING, Previewed, State, content_of, page_of, state_of, watched
from .errors import GamhilonError

__all__ = ['HOST', 'PORT', 'Preview', 'preview_command', 'server_of']

HOST, PORT = '127.0.0.1', 8765
"""Where the page is, unless the command line says another port."""

_NAMES = (HOST, 'localhost')
_PAUSE = 0.2
"""Seconds between two looks at the files."""

_LONGEST = 20.0
"""Seconds until a page that asks for a change is answered that there is none."""

_SCRIPT = """'use strict';
async function version(known) {
  const answer = await fetch('/version?' + known, {cache: 'no-store'});
  if (!answer.ok) throw new Error(answer.statusText);
  return answer.text();
}
async function follow(known) {
  for (;;) {
    try {
      const found = await version(known);
      if (known && found !== known) return location.reload();
      known = found;
    } catch (ended) {
      await new Promise(done => setTimeout(done, 1000));
    }
  }
}
follow(document.documentElement.dataset.version || '');
"""
_POLICY = "default-src 'none'; style-src 'unsafe-inline'; script-src 'self'; connect-src 'self'"
_POLICY_EXPLAINED = _POLICY.replace("script-src 'self'", "script-src 'self' 'unsafe-inline'")
"""The page of the program has its script in itself."""

_LINK = f'<p><a href="{EXPLAINED}">Which element wrote each text</a></p>\n'


def preview_command(style: str, port: int, locale: Optional[str], locales: Optional[str]) -> int:
    """Shows a style until the command is ended. Gives the exit status where nothing is shown."""
    try:
        csl.find(style)
        preview = Preview(Previewed(style, locale, locales))
        server = server_of(preview, port)
    except csl.StyleMissing as error:
        say(str(error))
        return INPUT_OR_OUTPUT_FAILED
    except OSError as error:
        if isinstance(error, GamhilonError):
            raise
        say(f'port {port}: {error.strerror or error}; --port names another one')
        return INPUT_OR_OUTPUT_FAILED
    threading.Thread(target=server.serve_forever, daemon=True).start()
    say(f'{style}: http://{HOST}:{server.server_port}/ (Ctrl-C ends it)')
    preview.follow()


class Preview:
    """The page of a style, which is drawn anew as its files change. Requests read it in threads of
    their own; it is drawn in that of the command, which has more stack than others.

    Raises LibraryMissing.
    """

    def __init__(self, shown: Previewed) -> None:
        self._shown = shown
        self._program = program()
        self._files: List[str] = []
        self._state: State = ()
        self._changed = threading.Condition()
        self._page = self._version = ''
        self.refresh()

    def refresh(self) -> bool:
        """Draws the page anew where a file has changed, and says whether one has."""
        if self._files and state_of(self._files) == self._state:
            return False
        # (a file that changes while it is read is read again)
        self._files = watched(self._shown)
        self._state = state_of(self._files)
        with _console.progress(f'citing in {self._shown.style}'):
            page = page_of(self._shown, _LINK if self._program else '')
        version = _version_of(page, self._files)
        with self._changed:
            self._page = page
            self._version = version
            self._changed.notify_all()
        return True

    def follow(self) -> NoReturn:
        """Looks for changes without an end."""
        while True:
            time.sleep(_PAUSE)
            self.refresh()

    def page(self) -> str:
        """The page, with the version by which it is known."""
        with self._changed:
            page, version = self._page, self._version
        return _with_version(page, version)

    def explained(self) -> Optional[str]:
        """The page of the program, with the version by which it is known; None without the
        program."""
        if self._program is None:
            return None
        with self._changed:
            version = self._version
        return _with_version(explained_page(self._shown, self._program), version)

    def version(self, known: str, seconds: float) -> str:
        """The version of the page once it isn't the one that is known, or after some seconds."""
        with self._changed:
            self._changed.wait_for(lambda: self._version != known, seconds)
            return self._version


def _version_of(page: str, files: List[str]) -> str:
    """What changes with a page, and with the files that it depends on: one that is saved as it was
    shows the same."""
    version = hashlib.sha256(page.encode('utf-8', 'replace'))
    for file in files:
        version.update(content_of(file))
    return version.hexdigest()[:16]


def _with_version(page: str, version: str) -> str:
    return page.replace('<html ', f'<html data-version="{version}" ', 1)


class _Server(ThreadingHTTPServer):
    """A server of this machine alone, which doesn't wait for its requests when it ends."""

    daemon_threads = True

    def handle_error(self, request: Any, client_address: Any) -> None:
        """A page that was closed is no longer answered."""
        if not isinstance(sys.exc_info()[1], ConnectionError):
            super().handle_error(request, client_address)


def server_of(preview: Preview, port: int, longest: float = _LONGEST) -> ThreadingHTTPServer:
    """A server of the page on a port, or on any that is free where it is 0. Raises OSError where
    the port is taken."""

    class Handler(_Handler):
        shown, seconds = preview, longest

    return _Server((HOST, port), Handler)


class _Handler(BaseHTTPRequestHandler):
    """Answers with the page, its script, and its version."""

    shown: Preview
    seconds: float

    def do_GET(self) -> None:
        status, kind, text = self._answer()
        policy = _POLICY_EXPLAINED if self.path == EXPLAINED else _POLICY
        data = text.encode('utf-8', 'replace')
        self.send_response(status)
        for name, value in (('Content-Type', f'{kind}; charset=utf-8'),
                            ('Content-Length', str(len(data))), ('Cache-Control', 'no-store'),
                            ('Content-Security-Policy', policy),
                            ('X-Content-Type-Options', 'nosniff')):
            self.send_header(name, value)
        self.end_headers()
        if self.command != 'HEAD':
            self.wfile.write(data)

    do_HEAD = do_GET

    def _answer(self) -> Tuple[HTTPStatus, str, str]:
        """The status, the kind and the text of the answer. (A page from elsewhere whose name was
        made to lead to this machine is refused.)"""
        if self.headers.get('Host', '').rsplit(':', 1)[0] not in _NAMES:
            return HTTPStatus.FORBIDDEN, 'text/plain', 'The page is that of this machine alone.\n'
        path, _, known = self.path.partition('?')
        if path == '/':
            return HTTPStatus.OK, 'text/html', self.shown.page()
        if path == EXPLAINED:
            explained = self.shown.explained()
            if explained is not None:
                return HTTPStatus.OK, 'text/html', explained
        if path == FOLLOWING:
            return HTTPStatus.OK, 'text/javascript', _SCRIPT
        if path == '/version':
            return HTTPStatus.OK, 'text/plain', self.shown.version(known, self.seconds)
        return HTTPStatus.NOT_FOUND, 'text/plain', 'There is no such page.\n'

    def log_message(self, *_: Any) -> None:
        """Requests are no messages of the command."""
