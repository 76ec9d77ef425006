"""What the history keeps: Back from the other pane, the skip link, limits that a link asks for, long links."""
import urllib.parse

from tests.page.conduct import go, linked
from tests.page.stage import (ACTS, COLLECT, Keys, address, agree, attribute, click, expect, focused, grid, is_seen, on,
                              push, put, reload, run, shown, soon, text_of, value_of, visit, write, written)


def fields(link=None):
    """What a link says, or what is kept with this entry of the history."""
    said = (link or run("return mitsubadoor.linkKept()")).partition("#")[2]
    return {name: values[0] for name, values in urllib.parse.parse_qs(said, keep_blank_values=True).items()}


def skipped():
    """The link to the symbol leads there by the keyboard, and leaves damage, undo and address as they are."""
    write("123456")
    click(33)
    linked()
    damaged, before = grid(), address()
    # (how long the history is tells nothing once it is full)
    run("globalThis.followed = 0; addEventListener('hashchange', () => { followed++; })")
    # (until it has the focus it stands beside the page, where a driver may refuse to send it keys)
    run("document.querySelector('.skip').focus()")
    on.page.switch_to.active_element.send_keys(Keys.ENTER)
    linked()
    expect("the symbol by the link", focused(), "symbol")
    now = (grid(), address(), run("return followed"))
    expect("damage and address stay, and no link is followed", now, (damaged, before, 0))
    go("#elsewhere")
    expect("a fragment that isn't the page's", (grid(), fields().get("message")), (damaged, "123456"))
    push("undo")
    expect("and can be undone", grid(), written("123456"))


def back():
    """Back leads from the Read tab to the message, also at the very beginning, and right after something was typed."""
    visit("#make")
    begun = value_of("message")
    push("tab-read")
    linked()
    on.page.back()
    soon("Back at the beginning", lambda: (is_seen("pane-make"), value_of("message"), shown()["state"]),
         (True, begun, "Read"))
    linked()
    on.page.forward()
    soon("Forward", lambda: is_seen("pane-read"), True)
    on.page.back()
    soon("Back again", lambda: is_seen("pane-make"), True)
    linked()
    run(f"{ACTS} put('message', 'typed'); at('tab-read').click(); at('example-c40').click()")
    linked()
    expect("the grid", shown()["says"], "Every answer is proved.")
    on.page.back()
    soon("Back after typing", lambda: (is_seen("pane-make"), value_of("message"), shown()["says"]),
         (True, "typed", "typed"))
    linked()
    visit()
    go("#message=another")
    expect("another link", shown()["says"], "another")
    on.page.back()
    soon("Back to an address without a fragment", lambda: value_of("message"), begun)
    linked()


def limits():
    """A limit that isn't one is said, whether it is linked or entered; the limit that is taken is said too."""
    linked()
    for asked in ("99999", "-1", "1.5", "x"):
        run("location.hash = `#message=123456&border=${arguments[0]}`", asked)
        linked()
        expect(f"a link's limit of {asked}", (text_of("border-hint"), value_of("border-limit"), shown()["meters"][-1]),
               (f"{asked} isn’t a whole number from 0 to 65535: the usual limit is taken.", "2", "0 wrong, 2"))
    put("border-limit", "3")
    expect("a right one takes that away", (text_of("border-hint"), shown()["meters"][-1]), ("", "0 wrong, 3"))
    put("border-limit", "99999")
    expect("an entered limit of 99999",
           (text_of("border-hint"), attribute("border-limit", "aria-invalid"), shown()["meters"][-1]),
           ("99999 isn’t a whole number from 0 to 65535: 3 is taken.", "true", "0 wrong, 3"))
    push("usual")
    agree("the usual limit")
    expect("the usual limit, said", (text_of("border-hint"), shown()["meters"][-1]), ("", "0 wrong, 2"))


def long_links():
    """What is entered is in the link, however long it is; a link that some programs cut says so; what is too much for
    the page is said not to be kept."""
    message = "\u00e9\u20ac" * 3500  # 7,000 characters, of 52,500 in the address
    put("message", message)
    linked()
    expect("7,000 characters are kept", fields()["message"], message)
    reload()
    expect("and read from there", (value_of("message"), shown()["state"]), (message, "Nothing is read"))
    run(COLLECT)
    push("tab-read", "example-c40", "copy-link")
    said = f"It has {len(run('return copied[0]')):,} characters, which not every program takes."
    soon("a long link says so", lambda: text_of("toast"), f"Copied: a link that holds what is entered. {said}")
    write("short")
    push("copy-link")
    soon("a short link", lambda: text_of("toast"), "Copied: a link that holds what is entered")
    put("message", "~" * 25001)
    expect("what isn't kept", text_of("message-hint").split(" them.")[0],
           "25,001 characters, and no more than 25,000 are taken. The link doesn’t keep")
    linked()
    expect("no message is kept then", "message" in fields(), False)


PARTS = [skipped, back, limits, long_links]
