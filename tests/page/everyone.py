"""The page connects to nobody and serves everyone: contrast, names, narrow screens, old browsers."""
import contextlib
import sys

from tests.page.stage import (By, expect, fetched, find, is_seen, media, metrics, on, push, put, run, unfold,
                              usual_metrics, wait_for, write)
from tests.support import places

sys.path.insert(0, places.path("web"))
import pack


def one_file():
    """The page is one file: it fetches nothing, and its policy allows no connection."""
    expect("resources", fetched(), [])
    policy = on.page.find_element(By.CSS_SELECTOR, "meta[http-equiv=Content-Security-Policy]").get_attribute("content")
    expect("policy",
           (policy.startswith("default-src 'none'; script-src 'sha256-"), "connect-src" in policy,
            "'unsafe-inline'" in policy.split("style-src")[0]), (True, False, False))
    expect("no failure", is_seen("broken"), False)


CONTRAST = """
    const channels = (text) => text.match(/[\\d.]+/g).map(Number);
    const over = (node) => {
        for (let it = node; it; it = it.parentElement) {
            const c = channels(getComputedStyle(it).backgroundColor);
            if (c.length < 4 || c[3] > 0.5) return c;
        }
        return [255, 255, 255];
    };
    const linear = (v) => (v <= 0.03928 ? v / 12.92 : ((v + 0.055) / 1.055) ** 2.4);
    const light = (c) => {
        const [r, g, b] = c.map((v) => linear(v / 255));
        return 0.2126 * r + 0.7152 * g + 0.0722 * b;
    };
    const others = "svg, button[aria-disabled=true], .unseen, .toast, .skip, noscript, script, style", low = [];
    const hasText = (node) => [...node.childNodes].some((it) => it.nodeType === 3 && it.textContent.trim());
    for (const node of document.querySelectorAll("body *")) {
        if (!hasText(node) || !node.checkVisibility() || node.closest(others)) continue;
        const both = [light(channels(getComputedStyle(node).color)), light(over(node))];
        const [a, b] = both.sort((x, y) => y - x), ratio = (a + 0.05) / (b + 0.05);
        if (ratio < 4.5) low.push(`${node.tagName} ${node.className} ${node.id} ${ratio.toFixed(2)}`);
    }
    return [...new Set(low)];"""


def to_be_seen_by_all():
    """Contrast in both schemes, names for a screen reader, and a phone's width."""
    push("tab-read", "example-c40")
    write("\\F010123456789012810AB-42")
    unfold("as-text", "form", "comparison", "sheet", "lesson")
    for task in ("read", "make", "learn"):
        push(f"tab-{task}")
        unfold("details")
        for scheme in ("light", "dark"):
            media(prefers_color_scheme=scheme)
            for state in ("to-limit", "one-more"):
                push(state)
                expect(f"contrast, {task}, {scheme}, {state}", run(CONTRAST), [])
            push("undo-all")
        media(prefers_color_scheme="light")
        expect(f"{task}: each control has a name", nameless(), [])
    write("0" * 1632)  # the largest numbers
    for width in (320, 390, 768):
        metrics(width, 800, mobile=True, scale=2)
        for tab in ("tab-read", "tab-make", "tab-learn"):
            push(tab)
            unfold("details")
            expect(f"width {width}, {tab}", run("return document.documentElement.scrollWidth <= innerWidth"), True)
        push("tab-make")
        too_wide = run("""return [...document.querySelectorAll('#facts dt, #facts dd')]
                .filter((it) => it.scrollWidth > it.clientWidth).map((it) => it.textContent)""")
        expect(f"width {width}: each fact has its place", too_wide, [])
    push("kind-text")
    put("message", "\u041f\u0440\u0438\u0432\u0435\u0442" * 18)  # whose bytes are told, in one word
    push("tab-learn")
    metrics(320, 800, mobile=True, scale=2)
    wide = run("""const it = document.getElementById('why');
        return [it.textContent.length > 400, it.scrollWidth > it.clientWidth]""")
    expect("width 320: bytes have their place", wide, [True, False])
    usual_metrics()


def nameless():
    """The roles of what has a role, and no name for a screen reader."""
    roles = {"button", "textbox", "spinbutton", "radio", "tab", "tabpanel", "listbox", "application", "region",
             "heading", "combobox"}
    nodes = [node for node in on.page.execute_cdp_cmd("Accessibility.getFullAXTree",
                                                      {})["nodes"] if not node.get("ignored")]
    value = lambda node, name: node.get(name, {}).get("value")
    return [value(node, "role") for node in nodes if value(node, "role") in roles and not value(node, "name")]


SENTENCE = ("This browser can’t run the page, which needs WebAssembly with SIMD. Chrome, Edge and Firefox have had "
            "that since 2021, Safari since 2023.")
OTHERS = "main > .bench, main > details, .tabs"
LACKS = {"SIMD": "WebAssembly.validate = () => false", "WebAssembly": "delete globalThis.WebAssembly"}


@contextlib.contextmanager
def begun_with(source):
    """Meanwhile each page runs this script before its own."""
    script = on.page.execute_cdp_cmd("Page.addScriptToEvaluateOnNewDocument", {"source": source})
    try:
        yield
    finally:
        on.page.execute_cdp_cmd("Page.removeScriptToEvaluateOnNewDocument", script)


def says_so(name):
    """The page says what it needs, and shows nothing that wouldn't work."""
    wait_for(lambda: is_seen("broken"))
    expect(name, " ".join(find("broken").text.split()), SENTENCE)
    seen = [it.is_displayed() for it in on.page.find_elements(By.CSS_SELECTOR, OTHERS)]
    expect(f"{name}: nothing else", (any(seen), len(seen) > 3), (False, True))


def open_unreadable():
    """Opens the page with a script that no browser can read."""
    file = on.folder / "unreadable.html"
    file.write_text(pack.page_of("a word too many", {}), encoding="utf-8")
    on.page.get(file.as_uri())


def old_browser():
    """A browser without WebAssembly or SIMD says what the page needs, and so does one that can't read its script."""
    own = on.page.current_url
    for name, source in LACKS.items():
        with begun_with(source):
            on.page.refresh()
            says_so(f"without {name}")
    open_unreadable()
    says_so("with a script that it can't read")
    expect("what the console says", ["SyntaxError" in entry["message"] for entry in on.page.get_log("browser")], [True])
    on.page.get(own)
    wait_for(lambda: run("return 'mitsubadoor' in globalThis"))
