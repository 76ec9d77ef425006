"""The order of things: what is done right after something was entered is done to that, nothing that was entered is lost
to it, and what is shown, copied and linked is about what stands in the field. Random bursts of acts are judged by the
program, by the library where that reads no such symbol, and by a model of their order."""
import random

from tests.page.history import fields
from tests.page.judge import asked_to_read, asked_to_write, in_lines, judged
from tests.page.stage import (ACTS, COLLECT, QUIET, SHOWN, Keys, acting, as_program, changed, do, expect, find, fold,
                              grid, head, offset, on, push, put, run, settle, shown, soon, spelled, text_of, told,
                              unseen, value_of, write, written)


# ---- Keys and the mouse, as quickly as the browser takes them


def typed_then(text, *then):
    """Types a message and does something at once, by real keys and the real mouse."""
    push("tab-make")
    chain = acting().click(find("message")).key_down(Keys.CONTROL).send_keys("a").key_up(Keys.CONTROL).send_keys(text)
    for act in then:
        act(chain)
    chain.perform()
    settle()


def pressing(name):
    return lambda chain: chain.click(find(name))


def learning(*then):
    """Does something where symbols are damaged."""
    def act(chain):
        for each in (pressing("tab-learn"), *then):
            each(chain)
    return act


def typed_and_done_at_once():
    write("123456")
    run(COLLECT)
    for text in ("7", "65", "432", "9876"):
        clean = written(text)
        typed_then(text, learning(pressing("one-more")))
        expect(f"{text} and one codeword more", (shown()["state"], shown()["says"], len(changed(clean, grid()))),
               ("Read", text, 1))
        typed_then(text, learning(lambda it: it.move_to_element_with_offset(find("symbol"), *offset(33, 10)).click()))
        expect(f"{text} and a module", (shown()["says"], changed(clean, grid())), (text, [33]))
        typed_then(text, learning(pressing("one-more"), pressing("undo")))
        expect(f"{text}, one codeword more, undone", (shown()["why"], grid()), ("Nothing had to be corrected.", clean))
        typed_then(f"{text}0", pressing("copy"))
        expect(f"{text}0 is copied", run("return copied.at(-1)").strip(), written(f"{text}0"))
        typed_then(text, pressing("copy-link"))
        linked = fields(run("return copied.at(-1)"))
        expect(f"{text} is linked", (linked["message"], "damage" in linked), (text, False))


def taken_at_once():
    """What takes the symbol above, or the written one, right after it was entered, takes that one."""
    write("123456")
    do("put('#slot-b textarea', '654321'); put('message', '654321'); at('#slot-a button').click()")
    expect("a slot takes what was entered last", head()[0], "Yes, they say the same.")
    run(COLLECT)
    do("put('message', '8888'); at('copy').click()")
    soon("what is copied is what was entered last", lambda: "".join(run("return copied")).strip(), written("8888"))
    run("delete navigator.clipboard.writeText")
    do("put('message', '777'); at('tab-read').click(); at('take-written').click()")
    expect("the written symbol is the one entered last", (shown()["says"], value_of("grid").strip()),
           ("777", written("777")))
    do("put('message', '4444'); at('take-written').click(); put('#slot-b textarea', '654321');"
       "put('grid', given[0])", written("55"))
    expect("a grid that is entered before the written symbol is there",
           (shown()["state"], shown()["says"], value_of("grid")), ("Read", "55", written("55")))
    push("tab-make")
    put("message", "caf\u00e9")
    push("tab-read", "take-written")
    expect("no written symbol", (shown()["state"], text_of("grid-hint")),
           ("Nothing is read", "There is no written symbol: the message can’t be taken."))


# ---- Random bursts

BURSTS, WITH_WAITS, MOST_ACTS = 1000, 100, 8  # in each up to so many acts; in the last ones with waits between
MESSAGES = ["", "12", "123456", "A1", "7x", "999999", "0123456789", "Ab1cd", "hello", "ABCDEFGH",
            "1234567812345678"]  # of sides 10, 12 and 14
BYTES = "\\xE9\\xE8\\xEA"  # of which both profiles make other symbols
SIZES = ["square", "square", "rectangle", "any", "8x18", "12x26", "24"]
COLUMNS = (10, 12, 14, 18, 24, 26, 32)  # of all symbols that these make
IMPOSSIBLE = "caf\u00e9"
WAITS = [None] * 6 + [0, 4, 15, 40]  # milliseconds after an act, or none at all
TASKS = {"read": "read", "make": "write", "learn": None}  # with their panes

# Plays bursts of acts, as quickly as they say, and tells what the page has come to after each. Meanwhile each frame is
# looked at: a green verdict on a message must be about what stands in the field.
PLAY = ACTS + ("""
    const [bursts, done] = arguments, LINKED_EACH = 10, told = [], wrong = [];
    const look = () => {
        const isColoured = !document.body.hasAttribute("data-entering") && !at("pane-make").hidden;
        const isGreen = isColoured && at("verdict").className.includes("good");
        const said = at("message").value.replace(/\\\\x(..)/g, (_, hex) => String.fromCharCode(parseInt(hex, 16)));
        if (isGreen && at("says").textContent !== (said || "the empty message"))
            wrong.push([at("message").value, at("says").textContent, document.body.dataset.stage]);
    };
    const shown = () => { %s };
    let isOn = true;
    const frame = () => { look(); if (isOn) requestAnimationFrame(frame); };
    frame();
    const size = ({ shape, one }) => {
        at("shape").value = shape;
        if (one) at("size").value = one;
        at("shape").dispatchEvent(new Event("change", { bubbles: true }));
    };
    const DOING = { put: ({ id, text }) => put(id, text), push: ({ id }) => at(id).click(),
        tap: ({ across, down }) => tap(across, down), size };
    (async () => {
        for (const acts of bursts) {
            for (const act of acts) {
                DOING[act.kind](act);
                if (act.wait !== null) await new Promise((then) => setTimeout(then, act.wait));
            }
            await mitsubadoor.idle();
            const { panes, mark, gridText } = mitsubadoor;
            const marks = Object.fromEntries(Object.values(panes).map((it) => {
                const { name, stage, past, future, limit, rows, columns } = it;
                const state = ({ modules, doubtful }) =>
                    [gridText({ modules, rows, columns }).trim(), doubtful ? [...doubtful].join("") : ""];
                const now = it.modules ? state(it) : [null, ""];
                return [name, { stage, past: past.map(state), now, future: future.map(state), limit }];
            }));
            const isLooked = told.length %% LINKED_EACH === 0, wait = (then) => setTimeout(then, 20);
            while (isLooked && !mitsubadoor.isLinked()) await new Promise(wait);
            const linked = isLooked ? mitsubadoor.linkKept() : null;
            told.push({ marks, pane: mark.name, shown: shown(), field: at("message").value, linked });
        }
        isOn = false;
        done({ told, wrong });
    })();""" % SHOWN)


ALL, TELL = "everything undone", "all damage marked as doubtful"


class Modelled:
    """What one pane must come to, if each act is done to what stands there then. A step is the module that is turned
    over, None for one that the page chooses, one in a list that is marked as doubtful or no longer so, ALL, or TELL."""

    def __init__(self):
        self.original, self.steps, self.undone = None, [], []

    def enter(self, original):
        self.original, self.steps, self.undone = original, [], []

    def step(self, what):
        if self.original is not None:
            self.steps.append(what)
            self.undone = []

    def undo(self):
        if self.steps:
            self.undone.append(self.steps.pop())

    def redo(self):
        if self.undone:
            self.steps.append(self.undone.pop())

    def marked(self):
        """What is turned over, and what is doubtful."""
        turned, doubtful = set(), set()
        for step in self.steps:
            if step == ALL:
                turned, doubtful = set(), set()
            elif step == TELL:
                doubtful |= turned
            elif isinstance(step, list):
                doubtful ^= set(step)
            else:  # what the page has chosen is never turned back by hand
                turned ^= {object() if step is None else step}
        return turned, doubtful

    def undo_all(self):
        if any(self.marked()):
            self.step(ALL)

    def tell(self):
        if self.marked()[0]:
            self.step(TELL)

    def end(self):
        return self.original, [*self.steps, *reversed(self.undone)], len(self.steps)


def differs(end, shown_there):
    """How a pane, its states from first to last that can be redone, differs from what it must be; or nothing."""
    (original, steps, place), (past, now, future) = end, shown_there
    states = [*past, now, *reversed(future)]
    if (len(past), len(states)) != (place, len(steps) + 1):
        return f"{len(past)} steps of {len(states) - 1}, and not {place} of {len(steps)}"
    if states[0] != [original, ""]:
        return "another symbol"
    for (before, had), (after, has), step in zip(states, states[1:], steps):
        turned, doubted = changed(before, after), set(places_in(had)) ^ set(places_in(has))
        due = {None: set(), ALL: set(places_in(had)), TELL: set(changed(original, before)) - set(places_in(had))}
        if doubted != (set(step) if isinstance(step, list) else due.get(step, set())):
            return f"{doubted} marked in the step {step}"
        if isinstance(step, list) or step == TELL:
            is_right = not turned
        else:
            is_right = after == original if step == ALL else len(turned) == 1 if step is None else turned == [step]
        if not is_right:
            return f"{turned} turned over in the step {step}"
    return ""


def places_in(marks):
    return [k for k, mark in enumerate(marks) if mark == "1"]


class Generator:
    """Makes bursts, and keeps what they must lead to."""

    def __init__(self, seed):
        self.chance, self.panes = random.Random(seed), {"write": Modelled(), "read": Modelled()}
        self.task, self.here, self.profile, self.text = "make", "write", 0, ""
        self.size, self.is_doubting = "square", False
        self.symbols = {(IMPOSSIBLE, profile, size): None for profile in (0, 1) for size in SIZES}
        others = [(text, profile, size) for text in [*MESSAGES, BYTES] for profile in (0, 1) for size in set(SIZES)]
        others = [each for each in others if each[2] != "square"]
        for each, symbol in zip(others, judged([asked_to_write(text, size, form) for text, form, size in others])):
            self.symbols[each] = in_lines(symbol) if "text" in symbol else None

    def symbol(self, text, profile=0, size="square"):
        """The symbol of a message in a size, or None if it has none."""
        if (text, profile, size) not in self.symbols:
            self.symbols[text, profile, size] = written(text, profile)
        return self.symbols[text, profile, size]

    def enter_message(self, text):
        self.text = text
        self.panes["write"].enter(self.symbol(text, self.profile, self.size))
        return {"kind": "put", "id": "message", "text": text}

    def enter_grid(self, text, size="square"):
        self.panes["read"].enter(self.symbol(text, 0, size))
        return {"kind": "put", "id": "grid", "text": self.symbol(text, 0, size)}

    def enter(self):
        """Enters something, or, where one learns, turns to the other symbol."""
        if self.task == "learn":
            self.here = "read" if self.here == "write" else "write"
            return {"kind": "push", "id": f"learn-{self.here}"}
        if self.task == "read":
            size = self.chance.choice(SIZES)
            return self.enter_grid(self.chance.choice([it for it in MESSAGES if self.symbol(it, 0, size)]), size)
        return self.enter_message(self.chance.choice([*MESSAGES, BYTES, IMPOSSIBLE]))

    def store(self):
        self.profile = 1 - self.profile
        self.enter_message(self.text)
        return {"kind": "push", "id": f"profile-{self.profile}"}

    def take_size(self):
        self.size = self.chance.choice(SIZES)
        self.enter_message(self.text)
        is_one = self.size[0].isdigit()
        return {"kind": "size", "shape": "one" if is_one else self.size, "one": self.size if is_one else None}

    def take_brush(self):
        self.is_doubting = not self.is_doubting
        return {"kind": "push", "id": "brush-doubt" if self.is_doubting else "brush-turn"}

    def tap(self):
        """Taps on a module of the upper border, which no button damages, turn it over, or mark it, in lessons."""
        across, here = self.across(), self.panes[self.here]
        if here.original is None:
            return {"kind": "tap", "across": across, "down": 0.15}
        if self.task == "learn":
            module = int(across * (here.original.index("\n") + 2 * QUIET)) - QUIET
            here.step([module] if self.is_doubting else module)
        rows = here.original.count("\n") + 1
        return {"kind": "tap", "across": across, "down": (QUIET + 0.5) / (rows + 2 * QUIET)}

    def across(self):
        """A share of the symbol's width that is away from the edges of modules, since a finger's place is in pixels."""
        while True:
            share = self.chance.uniform(0.16, 0.84)
            if all(0.1 < (share * (columns + 2 * QUIET)) % 1 < 0.9 for columns in COLUMNS):
                return share

    def press(self):
        here, name = self.panes[self.here], self.chance.choice(["one-more", "one-more", "undo", "undo", "redo",
                                                                "undo-all", "tell"])
        {"one-more": lambda: here.step(None), "undo": here.undo, "redo": here.redo, "undo-all": here.undo_all,
         "tell": here.tell}[name]()
        return {"kind": "push", "id": name}

    def accept(self):
        return {"kind": "put", "id": "border-limit", "text": self.chance.choice(["0", "3", "50"])}

    def change(self, task=None):
        self.task = task or self.chance.choice([each for each in TASKS if each != self.task])
        self.here = TASKS[self.task] or self.here
        return {"kind": "push", "id": f"tab-{self.task}"}

    def burst(self, has_waits):
        acts = [self.change(self.chance.choice(["read", "make"])), self.enter()]
        some = [self.enter] * 2 + [self.tap] * 3 + [self.press] * 3
        some += [self.accept, self.change, self.change, self.store, self.take_size, self.take_brush]
        where = {self.store: "make", self.take_size: "make", self.take_brush: "learn"}
        for _ in range(self.chance.randrange(1, MOST_ACTS)):
            act = self.chance.choice(some)
            if where.get(act, self.task) == self.task:
                acts.append(act())
        for act in acts:
            act["wait"] = self.chance.choice(WAITS) if has_waits else None
        return acts, {name: pane.end() for name, pane in self.panes.items()}, self.size


@unseen("visibility: hidden")
def bursts():
    write("123456")
    fold("details")  # to draw each codeword again would take most of the time
    push("tab-learn")
    fold("details")
    push("tab-make")
    maker = Generator(11)
    begin = [maker.enter_message("123456"), maker.change("read"), maker.enter_grid("123456"), maker.change("make")]
    some = [(begin, {}, "square")]
    for act in some[0][0]:
        act["wait"] = None
    some += [maker.burst(False) for _ in range(BURSTS)] + [maker.burst(True) for _ in range(WITH_WAITS)]
    push("profile-0", "brush-turn")
    told_of = on.page.execute_async_script(PLAY, [acts for acts, *_ in some])
    expect("no green verdict is about anything else than what is entered", told_of["wrong"][:3], [])
    expect("acts", sum(len(acts) for acts, *_ in some) > 5000, True)
    odd, grids, others = [], {}, []
    for (acts, ends, size), now in list(zip(some, told_of["told"]))[1:]:
        for name, end in ends.items():
            pane = now["marks"][name]
            fault = (differs(end, (pane["past"], pane["now"], pane["future"])) if end[0] is not None else ""
                     if pane["stage"] == "bad" else "no refusal")
            odd += [(fault, name, acts)] if fault else []
        if now["linked"]:
            odd += [("linked", now["linked"], acts)] if not is_linked(now, ends, size) else []
        here = now["marks"][now["pane"]]
        text, doubtful = here["now"]
        if here["stage"] == "valid" and (doubtful or text.index("\n") != text.count("\n") + 1):
            others.append((asked_to_read(text, doubtful, here["limit"]), now["shown"]))
        elif here["stage"] == "valid":
            grids.setdefault(here["limit"], []).append((text, as_program(now["shown"])))
        elif (now["shown"]["state"], here["stage"]) != ("Nothing is read", "bad"):
            odd.append((now["shown"], here["stage"], acts))
    expect(f"each of {len(some)} bursts has come to what was entered and done last", odd[:1], [])
    for limit, both in grids.items():
        expect(f"what is read after them, limit {limit}", [shown for _, shown in both],
               told([text for text, _ in both], *([] if limit is None else ["--border", str(limit)])))
    expect("rectangles, and what has doubtful modules", len(others) > 300, True)
    answers = judged([question for question, _ in others])
    expect("what is read of these", [as_program(shown) if shown["state"] != "Refused" else None for _, shown in others],
           [as_answered(question, answer) for (question, _), answer in zip(others, answers)])
    said = [entry["message"] for entry in on.page.get_log("browser")]
    # (it bounds how often an address may change, and says so)
    expect("console", [message for message in said if "Throttling navigation" not in message], [])


def as_answered(question, answer):
    """What the library answers, in the program's words; None for a refusal."""
    if "fault" in answer:
        return None
    corrected = " ".join(map(str, answer["corrected"]))
    return spelled(answer["items"]), f"ok {question['rows']} border {answer['border']} corrected {corrected}"


def is_linked(now, ends, size):
    """Whether the address says what is entered, in which size, and which modules are turned over or doubtful."""
    linked, (original, _, _) = fields(now["linked"]), ends["write"]
    text, doubtful = now["marks"]["write"]["now"]
    damage, doubts = ([], []) if original is None else (changed(original, text), places_in(doubtful))

    def places(name):
        found, at = [], -1
        for gap in filter(None, linked.get(name, "").split(".")):
            at += int(gap, 36) + 1
            found.append(at)
        return found
    held = (linked["message"], linked.get("size", "square"), places("damage"), places("doubtful"))
    return held == (now["field"], size, damage, doubts)


PARTS = [typed_and_done_at_once, taken_at_once, bursts]
