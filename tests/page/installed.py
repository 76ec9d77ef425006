"""The page where it is served: it can be installed, fetches nothing but its own files, and opens without a network."""
import contextlib
import functools
import http.server
import pathlib
import shutil
import tempfile
import threading
import urllib.parse

from tests.page.stage import expect, grid, on, push, put, run, shown, soon, visit, written

LATER = "Later: "
OWN = {"/mitsubadoor.html", "/mitsubadoor.webmanifest", "/offline.js"}


class Handler(http.server.SimpleHTTPRequestHandler):
    """Serves a folder, and writes down what is asked for. Nothing is answered while the server is away, not even where
    a browser had connected before."""

    def do_GET(self):
        if not self.server.is_away:
            super().do_GET()

    def log_message(self, *_):
        self.server.asked.append(self.path.partition("?")[0])


def folder_of_page(*beside):
    """A folder with the page that is open, and what stands beside it."""
    folder = pathlib.Path(tempfile.mkdtemp(dir=on.folder))
    page = urllib.parse.unquote(urllib.parse.urlsplit(on.page.current_url).path)
    for file, name in ((page, "mitsubadoor.html"), *((file, file.name) for file in beside)):
        shutil.copy(file, folder / name)
    return folder


@contextlib.contextmanager
def served(folder):
    """Serves a folder while it is in use; gives the server, and the address of the page in it."""
    server = http.server.ThreadingHTTPServer(("127.0.0.1", 0), functools.partial(Handler, directory=folder))
    server.asked, server.is_away = [], False
    thread = threading.Thread(target=server.serve_forever, daemon=True)
    thread.start()
    try:
        yield server, f"http://127.0.0.1:{server.server_port}/mitsubadoor.html"
    finally:
        server.is_away = True
        server.shutdown()
        server.server_close()
        thread.join()


def made_and_read(message):
    """Whether the page makes a symbol of a message and reads one."""
    push("tab-make", "kind-message", "profile-0")
    put("message", message)
    expect(f"{message!r} is made", (grid(), shown()["says"]), (written(message), message))
    push("tab-read")
    put("grid", written(f"{message} again"))
    expect(f"{message!r} is read", shown()["says"], f"{message} again")


def installed():
    folder = folder_of_page(*on.beside.iterdir())
    page = folder / "mitsubadoor.html"
    with served(folder) as (server, address):
        visit(address, False)
        soon("what keeps it", lambda: run("return navigator.serviceWorker.controller !== null"), True)
        manifest = on.page.execute_cdp_cmd("Page.getAppManifest", {})
        errors = on.page.execute_cdp_cmd("Page.getInstallabilityErrors", {})["installabilityErrors"]
        wrong = [each["errorId"] for each in errors if each["errorId"] != "in-incognito"]
        expect("the manifest", (manifest["url"].rpartition("/")[2], manifest["errors"], wrong),
               ("mitsubadoor.webmanifest", [], []))
        made_and_read("with a network")
        server.is_away = True
        visit(f"{address}?shared#make", False)
        made_and_read("without a network")
        page.write_text(page.read_text("utf-8").replace("<title>", f"<title>{LATER}"), "utf-8")
        server.is_away = False
        visit(f"{address}?later", False)
        made_and_read("once more")
        expect("a later page on the server", on.page.title.startswith(LATER), True)
    expect("what is asked of the server", {*server.asked} - OWN, set())
    visit(address, False)
    expect("the page that came last", on.page.title.startswith(LATER), True)
    on.page.execute_async_script("""const [done] = arguments;
           navigator.serviceWorker.getRegistrations()
               .then((all) => Promise.all(all.map((it) => it.unregister())))
               .then(() => caches.delete("mitsubadoor")).then(done);""")


def beside_nothing():
    """Where the files beside it aren't served, the page is as it is from disk."""
    with served(folder_of_page()) as (_, address):
        visit(address, False)
        made_and_read("alone")
    on.page.get_log("browser")  # which tells of what isn't there


PARTS = [installed, beside_nothing]
