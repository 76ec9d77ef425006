// Work is kept in the browser's own storage, so that it survives a reload, until it is forgotten. None of it leaves the
// browser. Where there is no storage, or no room in it, nothing is kept.
import { $ } from "./dom.mjs";

const PREFIX = "mitsubadoor ", AGE = "age";
/** @type {Map<string, number>} timers of what is to be kept soon */
const waiting = new Map();
const SOON = 300; // milliseconds
let isForgotten = false; // what stands in the page goes with it

/** @type {(name: string, text: string) => void} */
export function keep(name, text) {
  if (isForgotten) return;
  try {
    if (text) localStorage.setItem(PREFIX + name, text); else localStorage.removeItem(PREFIX + name);
  } catch { /* as if there were none */ }
}
// Keeps what is said then, a little later, and once for many changes.
/** @type {(name: string, say: () => string) => void} */
export function keepSoon(name, say) {
  clearTimeout(waiting.get(name));
  waiting.set(name, setTimeout(() => { waiting.delete(name); keep(name, say()); }, SOON));
}
export const isKeeping = () => waiting.size > 0;
/** @type {(name: string) => string} */
export function kept(name) {
  try { return localStorage.getItem(PREFIX + name) ?? ""; } catch { return ""; }
}
// How often all was forgotten: what is of an earlier age isn't brought back, by the browser's history either.
export const ageNow = () => kept(AGE);
export function wireForget() {
  $("forget").addEventListener("click", () => {
    const age = String(Number(ageNow()) + 1);
    try {
      const names = Object.keys(localStorage).filter((name) => name.startsWith(PREFIX));
      for (const name of names) localStorage.removeItem(name);
    } catch { /* there is nothing */ }
    keep(AGE, age);
    isForgotten = true;
    history.replaceState(null, "", location.href.split("#")[0]);
    location.reload();
  });
}
