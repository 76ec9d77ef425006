"""The browser of the page's test: started, lost and started again, and ended with every process that it has left."""
import contextlib
import os
import pathlib
import shutil
import signal
import sys
import tempfile

from tests.page.stage import (HEIGHT, WIDTH, RemoteConnection, Service, UselessFileDetector, WebKitService, on,
                              webdriver)
from tests.support import commands, needs, places

PATIENCE = 900  # seconds in which each command to the browser has to be answered
CHROMIUM = ("chromium-headless-shell", "chromedriver")  # Chromium without its windows, which take half of the work
WORDS = ("--no-sandbox", "--disable-gpu", "--disable-dev-shm-usage", "--hide-scrollbars",
         f"--window-size={WIDTH},{HEIGHT}")
started = []  # the drivers, of which each leads a session of processes


def usual_options():
    options = webdriver.ChromeOptions()
    options.binary_location = shutil.which(CHROMIUM[0])
    for word in WORDS:
        options.add_argument(word)
    options.add_experimental_option("prefs", {"download.default_directory": str(on.folder)})
    options.set_capability("goog:loggingPrefs", {"browser": "ALL"})
    return options


def opened():
    """A new browser, with a profile of its own, which its driver makes."""
    RemoteConnection.set_timeout(PATIENCE)
    service = Service(shutil.which("chromedriver"), popen_kw={"start_new_session": True})
    started.append(service)
    page = webdriver.Chrome(service=service, options=usual_options())
    page.execute_cdp_cmd("Browser.grantPermissions", {"permissions": ["clipboardReadWrite", "clipboardSanitizedWrite"]})
    page.set_script_timeout(PATIENCE)
    return page


def start():
    """Starts the browser. On a busy machine it may not come at once: then it is tried once more."""
    try:
        on.page = opened()
    except Exception as fault:
        print(f"the browser didn't start, and is started once more: {first_line(fault)}", flush=True)
        end()
        on.page = opened()


def have():
    """Starts a browser where there is none, or none that answers."""
    if on.page is None or is_lost():
        end()
        start()


def lacking():
    """Brings the page up to date; what isn't there that this or a browser needs, if something isn't."""
    programs = needs.lacking(*CHROMIUM, "node", *needs.PAGE)
    return programs or ("" if webdriver else "selenium isn't installed") or needs.made("page")


@contextlib.contextmanager
def ready():
    """Brings the page up to date, and starts the browser for as long as it is needed."""
    if problem := lacking():
        sys.exit(problem)
    on.program = places.PROGRAM
    with tempfile.TemporaryDirectory(ignore_cleanup_errors=True) as folder:
        on.folder = pathlib.Path(folder)
        try:
            start()
            yield
        finally:
            end()


def start_webkit(display):
    """Starts WebKit's own browser on a display of X, by its driver."""
    RemoteConnection.set_timeout(PATIENCE)
    room = commands.environment(DISPLAY=display, HOME=str(on.folder))
    service = WebKitService(shutil.which("WebKitWebDriver"), env=room, popen_kw={"start_new_session": True})
    started.append(service)
    service.start()
    on.page = webdriver.Remote(service.service_url, options=webdriver.WebKitGTKOptions())
    on.page.file_detector = UselessFileDetector()  # files lie where the browser finds them
    on.page.set_script_timeout(PATIENCE)


def is_lost():
    """Whether the browser doesn't answer any more, or has closed its page."""
    try:
        return on.page.execute_script("return 1") != 1
    except Exception:
        return True


def first_line(fault):
    return f"{type(fault).__name__}: {str(fault).splitlines()[0] if str(fault) else 'nothing more is known'}"


def end():
    """Ends the browser, and, if its driver is lost, by number all processes of the session that the driver leads."""
    try:
        on.page.quit()
    except Exception:
        pass
    on.page = None
    leaders = {service.process.pid for service in started if getattr(service, "process", None)}
    for stat in pathlib.Path("/proc").glob("[0-9]*/stat"):
        try:
            if int(stat.read_text().rpartition(")")[2].split()[3]) in leaders:
                os.kill(int(stat.parent.name), signal.SIGKILL)
        except (OSError, ValueError):
            pass  # it has ended meanwhile
