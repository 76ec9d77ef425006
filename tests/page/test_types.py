"""The page's modules have the types that their comments say, as TypeScript's checker sees them, which is strict: each
value has a type, what may be missing is looked at first, and what is called is there and is given what it takes. ESLint
isn't asked: what it would say of unused names, this does too."""
import json
import pathlib
import shutil

from tests.support import commands, needs, places
from tests.support.case import Case

HERE, WEB = pathlib.Path(places.path("tests", "page")), pathlib.Path(places.path("web"))
# Each a module, a text of it, and what stands there instead in a copy that has to be refused.
WRONG = [("flow.mjs", "it.limit = limit;", "it.limits = limit;"),
         ("link.mjs", 'fromLetters(fields.get("grid") ?? "")', "fromLetters(7)"),
         ("order.mjs", "it.changed = own;", "it.changed = 'own';"),
         ("gs1.mjs", "name: entry.name, items: value", "name: entry.title, items: value"),
         ("paper.mjs", 'PAPERS[field("paper-size").value]', 'PAPERS[$("paper-size").value]'),
         ("desk.mjs", "failed: messageOf(why) }", "failed: why.message }"),
         ("pixels.mjs", "gridIn(dark, width, frame)", "gridIn(grey, frame, width)"),
         ("state.mjs", "return { modules: there(this.modules),", "return { modules: this.modules,"),
         ("pdf.mjs", "/** @type {(value: number) => string} */\n", "")]


@needs.programs("tsc")
class Types(Case):
    def test_modules_and_what_is_wrong(self):
        """The modules, and copies beside them with texts put in the place of others, in one run."""
        folder = pathlib.Path(self.folder())
        for name in ("types.json", "types.d.ts"):
            shutil.copy(HERE / name, folder)
        for kind in ("web", "wrong"):
            shutil.copytree(WEB, folder / kind, ignore=lambda _, names: [it for it in names if not it.endswith(".mjs")])
        for name, old, new in WRONG:
            path = folder / "wrong" / name
            text = path.read_text(encoding="utf-8")
            assert text.count(old) == 1, f"{old} stands {text.count(old)} times in {name}"
            path.write_text(text.replace(old, new), encoding="utf-8")
        asked = {"extends": "./types.json", "include": ["*/*.mjs", "types.d.ts"]}  # one pattern takes both
        (folder / "tsconfig.json").write_text(json.dumps(asked))
        told = commands.said(["tsc"], cwd=folder)[1].splitlines()
        self.row("what tsc says", [it for it in told if not it.startswith(("wrong/", " "))], [])
        for name, old, new in WRONG:
            self.row(f"{new} for {old} in {name}", any(it.startswith(f"wrong/{name}(") for it in told), True)
