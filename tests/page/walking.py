"""Pages in browsers: a server that has one with a walk over it, and takes what that finds."""

import http.server
import json
import os
import shutil
import subprocess
import tempfile
import threading
from pathlib import Path

from lib.paths import EXAMPLES, ROOT

HERE = Path(__file__).resolve().parent
PAGE = ROOT / "build" / "fcanon.html"
EXAMPLE = (EXAMPLES / "positions.collection").read_text()
SECONDS = 600  # for Node, and for a browser's walk, which takes one or two minutes where nothing else runs


class Served:
    """Serves these files, by their paths, to browsers, and takes what they find."""

    def __init__(self, files):
        self.files = {path: file.read_bytes() for path, file in files.items()}
        self.found, self.came = {}, threading.Condition()
        walks = self

        class Handler(http.server.BaseHTTPRequestHandler):
            def answer(self, status, body=b""):
                self.send_response(status)
                kinds = {"js": "text/javascript", "mjs": "text/javascript", "json": "application/json", "css": "text/css"}
                self.send_header("Content-Type", kinds.get(self.path.rpartition(".")[2], "text/html"))
                self.send_header("Content-Length", str(len(body)))
                self.end_headers()
                self.wfile.write(body)

            def do_GET(self):
                body = walks.files.get(self.path.partition("?")[0])
                self.answer(404 if body is None else 200, body or b"")

            def do_POST(self):
                body = self.rfile.read(int(self.headers["Content-Length"]))
                self.answer(200)
                with walks.came:
                    walks.found[self.path.partition("?")[2]] = json.loads(body)
                    walks.came.notify_all()

            def log_message(self, *_):
                pass

        self.server = http.server.ThreadingHTTPServer(("127.0.0.1", 0), Handler)
        threading.Thread(target=self.server.serve_forever, daemon=True).start()

    def walk(self, browser, is_still=False):
        """What a browser finds wrong, part by part; with reduced motion where that is asked."""
        with tempfile.TemporaryDirectory(prefix="fcanon-page-", ignore_cleanup_errors=True) as room:
            query = f"{browser}&still" if is_still else browser
            url = f"http://127.0.0.1:{self.server.server_port}/?{query}"
            chromium = ["--no-sandbox", "--disable-gpu", f"--user-data-dir={room}"]
            if is_still:
                chromium.append("--force-prefers-reduced-motion")
                (Path(room) / "user.js").write_text('user_pref("ui.prefersReducedMotion", 1);\n')
            words = ["--no-remote", "--profile", room] if browser.startswith("firefox") else chromium
            running = subprocess.Popen([browser, "--headless", *words, url], stdout=subprocess.DEVNULL,
                                       stderr=subprocess.DEVNULL, env={**os.environ, "HOME": room})
            with self.came:
                self.came.wait_for(lambda: query in self.found, SECONDS)
            running.terminate()
            running.wait(SECONDS)
        found = self.found.get(query, {"the walk": ["it does not end"]})
        return {f"{name} in {browser}": faults for name, faults in found.items()}


class Walks(Served):
    """The page of fcanon, and the walk over it."""

    def __init__(self, asked):
        files = {"/": HERE / "walk.html", "/page.html": PAGE}
        super().__init__(files | {f"/walks/{file.name}": file for file in (HERE / "walks").glob("*.mjs")})
        self.files["/given.json"] = json.dumps(asked).encode()


def browsers():
    """Those that are here, of each kind one."""
    for kind in (["chromium", "chromium-browser", "google-chrome"], ["firefox-esr", "firefox"]):
        here = [name for name in kind if shutil.which(name)]
        yield from here[:1]
        if not here:
            print(f"no page is tried in {kind[0]}: it is not here")
