// The page of Mitsubadoor: its start. What it knows of symbols it asks the proved library in its workers; here and in
// the modules beside this one are only the glue to it, words and drawing, and how symbols are found in pictures: none
// of that is proved.
import { wireCamera } from "./camera.mjs";
import { wireWords } from "./cells.mjs";
import { wireCompare } from "./compare.mjs";
import { wireDamage } from "./damage.mjs";
import { waysOfText } from "./charsets.mjs";
import { ASCII, SQUARE, messageOf, there } from "./common.mjs";
import { isWorking, stopAll, whenChanged, workingSince } from "./desk.mjs";
import { $ } from "./dom.mjs";
import { wireDropping } from "./dropping.mjs";
import { drawAll, drawStage } from "./draw.mjs";
import { desks, openDesks, wireDetails } from "./flow.mjs";
import { readFont } from "./font.mjs";
import { bringFound, wireFound } from "./found.mjs";
import { bringParts, wireGathered } from "./gathered.mjs";
import { readIdentifiers } from "./gs1.mjs";
import { readHeadings } from "./headings.mjs";
import { gridText } from "./grids.mjs";
import { makeInstallable } from "./install.mjs";
import { wireLesson } from "./lesson.mjs";
import { wireLines } from "./lines.mjs";
import { wireForget } from "./kept.mjs";
import { wireKeptLabels } from "./labelfile.mjs";
import { isLinked, linkKept, wireLink } from "./link.mjs";
import { spelled } from "./messages.mjs";
import { wirePreview } from "./preview.mjs";
import { wirePrinting } from "./printing.mjs";
import { limits, pending, wireLooking } from "./looking.mjs";
import { SOON } from "./order.mjs";
import { drawBy } from "./redraw.mjs";
import { restore, wireSource } from "./source.mjs";
import { wireSerial } from "./serial.mjs";
import { listSizes } from "./sizes.mjs";
import { showStart, wireStart } from "./start.mjs";
import { mark, panes, store } from "./state.mjs";
import { drawSmall } from "./symbol.mjs";
import { toast, wireTaking } from "./taking.mjs";

// A module that has only the type of a function that gives a vector: without SIMD there is none.
const SMALL_MODULE = new Uint8Array([0, 97, 115, 109, 1, 0, 0, 0, 1, 5, 1, 96, 0, 1, 123]);
const hasVectors = () => typeof WebAssembly === "object" && WebAssembly.validate(SMALL_MODULE);

function wireBusy() {
  let timer = 0;
  const show = () => { $("busy").hidden = !isWorking(); timer = 0; };
  whenChanged(() => {
    if (!isWorking()) { clearTimeout(timer); timer = 0; $("busy").hidden = true; return; }
    timer ||= setTimeout(show, Math.max(0, SOON - (performance.now() - workingSince())));
  });
  $("stop").addEventListener("click", stopAll);
}

// Resolves once nothing is under way: for the tests.
async function idle() {
  for (let calm = 0; calm < 3;) {
    await new Promise((resolve) => setTimeout(resolve, 0));
    calm = isWorking() || pending.pictures ? 0 : calm + 1;
  }
}
/** @type {(id: string) => string} */
const textIn = (id) => there($(id).textContent);
async function startPage() {
  readIdentifiers(textIn("identifiers"));
  readHeadings(textIn("headings"));
  const bytesOf = (/** @type {string} */ id) => Uint8Array.from(atob(textIn(id).trim()), (c) => c.charCodeAt(0));
  await readFont(bytesOf("font"));
  const compiled = (/** @type {string} */ id) => WebAssembly.compile(bytesOf(id));
  const [library, sampler] = await Promise.all(["library", "sampler"].map(compiled)); // once, for each worker
  const script = new Blob([textIn("worker")], { type: "text/javascript" });
  const loaded = await openDesks(URL.createObjectURL(script), { library, sampler });
  if (loaded.failed !== undefined) throw new Error(loaded.failed);
  desks.readsFiles = loaded.readsFiles;
  listSizes(loaded.sizes);
  drawBy(drawAll, drawStage);
  wireBusy(); wireDetails(); wireWords(); wireDamage(); wireSource(); wireDropping();
  wireTaking(); wireLines(); wireSerial(); wirePreview(); wirePrinting(); wireLesson(); wireCamera(); wireFound();
  wireGathered(); wireLooking(); wireStart();
  const ways = [waysOfText("Mitsubadoor")], how = { form: ASCII, shape: SQUARE, rows: 0, columns: 0 };
  drawSmall($("logo"), await desks.quick.ask("write", { ways, how, hasLook: false }, "logo"));
  wireForget();
  wireKeptLabels();
  bringParts();
  await wireLink(restore, toast, showStart);
  await bringFound();
  wireCompare();
  makeInstallable();
  desks.pictures.start(); // so that it is ready for the first picture
  const forTests = { get mark() { return mark(); }, panes, store, desks, limits, idle, isLinked, linkKept, spelled,
    gridText };
  Object.defineProperty(globalThis, "mitsubadoor", { value: forTests });
}
/** @type {() => void} of fallback.js */
const showInstead = /** @type {any} */ (globalThis).showFallback;
removeEventListener("error", showInstead); // that was for a script that can't be read or begun
try {
  if (hasVectors()) await startPage(); else showInstead();
} catch (why) {
  showInstead();
  $("broken").textContent = `The library couldn’t be loaded: ${messageOf(why)}`;
  throw why;
}
