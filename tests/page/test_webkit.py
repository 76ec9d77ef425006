"""The page in WebKit, the engine of Safari, against the program: it opens, writes, reads, corrects and refuses. What is
on the screen isn't compared, since the driver's pictures of a part of it are black in places."""
import pathlib
import random
import subprocess

from tests.page import browser, conduct, damage, everyone, sights, sizes, tasks
from tests.page.parts import load
from tests.page.pictures import opened, png
from tests.page.stage import agree, count, expect, grid, on, push, put, write, written
from tests.support import commands, needs, places
from tests.support.case import Case

PAGE = places.path("web", "out", "mitsubadoor.html")
MESSAGES = ["123456", "\\F010123456789012810AB-42", "Grease what the drawing names, and keep it dry. " * 5]
DAMAGE = {"corrected": (12, 57), "refused": range(11, 19)}  # modules of the symbol of 123456 that are turned over


@needs.program
@needs.module("selenium")
@needs.page
@needs.programs("WebKitWebDriver", "Xvfb")
class WebKit(Case):
    @classmethod
    def setUpClass(cls):
        on.program, on.folder = places.PROGRAM, pathlib.Path(cls.folder_of_class())
        cls.addClassCleanup(browser.end)
        words = "Xvfb -displayfd 1 -screen 0 1240x1500x24 -nolisten tcp".split()
        screen = cls.enterClassContext(commands.started(words, stdout=subprocess.PIPE, stderr=subprocess.DEVNULL))
        browser.start_webkit(f":{screen.stdout.readline().decode().strip()}")

    def setUp(self):
        count.rows = []
        load(PAGE)

    def tearDown(self):
        self.rows(count.rows)

    def test_messages_are_written(self):
        for message in MESSAGES:
            write(message)
            expect(message, grid(), written(message))
            agree(f"{message}, as it is read")

    def test_grids_are_read_corrected_and_refused(self):
        push("tab-read")
        sound = written(MESSAGES[0]).replace("\n", "")
        for name, modules in DAMAGE.items():
            turned = "".join(str(int(module) ^ (k in modules)) for k, module in enumerate(sound))
            text = "\n".join(turned[k : k + 10] for k in range(0, 100, 10))
            put("grid", text)
            expect(name, grid(), text)
            agree(f"{name}, as it is read")

    def test_a_picture_is_read(self):
        push("tab-read")
        text = written(MESSAGES[1])
        opened("label.png", png(text.split("\n"), 5, 2))
        expect("a picture", grid(), text)
        agree("a picture, as it is read")

    def test_parts_that_need_nothing_of_chromium(self):
        for part in (damage.by_keys, damage.fixed_square, conduct.a_picture_does_not_win, tasks.tasks_are_linked,
                     tasks.earlier_links, tasks.text_and_gs1, tasks.typed, sights.handed_on, sights.unread,
                     sizes.at_an_angle, sizes.marks_of_every_size, sizes.in_all_ways):
            random.seed(1)
            load(PAGE)
            part()

    def test_a_script_that_is_not_read(self):
        everyone.open_unreadable()
        everyone.says_so("with a script that it can't read")
