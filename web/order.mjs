// The order of what happens to a mark. What is entered takes the place of all that was before it, done, asked or still
// waiting. What is done to a symbol waits until that symbol is there, and until what was done before it is done. So an
// act never costs what was entered before it, and no answer comes to anything else than what it is about.
import { redraw, redrawStage } from "./redraw.mjs";
import { tellLink } from "./link.mjs";
import { BAD, EMPTY, VALID, WORKING, mark, stamp } from "./state.mjs";

/** @typedef {import("./state.mjs").Mark} Mark */
export const SOON = 200; // milliseconds after which an old verdict isn't left standing while the worker is at work

const BROKEN = { stopped: "It was stopped before there was an answer. Change what is entered, or enter it again." };
/** @type {(answer: { stopped?: boolean, failed?: string }) => string} */
export const brokenWords = ({ stopped, failed }) => (stopped ? BROKEN.stopped : `The page failed at this: ${failed}`);
/** @type {(answer: { stopped?: boolean, failed?: string }) => boolean} */
export const isBroken = ({ stopped, failed }) => Boolean(stopped) || failed !== undefined;

/** @type {((it: Mark) => void)[]} */
const entering = [];
/** @type {(listener: (it: Mark) => void) => void} */
export const whenEntered = (listener) => { entering.push(listener); };

// From here on the mark is about something else.
/** @type {(it: Mark) => void} */
function supersede(it) {
  it.entered = stamp();
  it.isEntering = false;
  it.turn = Promise.resolve();
  for (const listener of entering) listener(it);
}
// From here on the mark's verdict is in doubt. That is shown at once, or, where that isn't asked for, soon.
/** @type {(it: Mark, isAtOnce?: boolean) => number} */
export function work(it, isAtOnce = true) {
  const own = stamp();
  it.stage = WORKING;
  it.changed = own;
  setTimeout(() => { if (it.changed === own && it.stage === WORKING && it === mark()) redraw(); }, SOON);
  if (isAtOnce && it === mark()) redrawStage();
  return own;
}
// From here on the mark's verdict is about what is entered and done.
/** @type {(it: Mark, seen: import("./examine.mjs").Seen) => void} */
export function validate(it, seen) {
  it.stage = VALID;
  it.isEntering = false;
  it.seen = seen;
}
/** @type {(it: Mark, why: string) => void} */
export function refuse(it, why) {
  supersede(it);
  it.changed = stamp();
  it.stage = BAD;
  it.why = why;
  if (it === mark()) redraw();
  tellLink();
}
/** @type {(it: Mark) => void} */
export function clear(it) {
  supersede(it);
  it.changed = stamp();
  it.empty();
  if (it === mark()) redraw();
  tellLink();
}
/** @type {(it: Mark) => (why: Error) => void} */
const failedAt = (it) => (why) => refuse(it, brokenWords({ failed: why.message }));

// Enters what a question brings: `take` is given its answer, which may be that it was stopped or failed, unless
// something else is entered before it comes. Resolves to whether it was taken. What is shown changes as `work` says.
/** @type {(it: Mark, question: () => any, take: (answer: any) => void, isAtOnce?: boolean) => Promise<boolean>} */
export function enter(it, question, take, isAtOnce = true) {
  supersede(it);
  it.isEntering = true;
  const own = it.entered;
  work(it, isAtOnce);
  const answered = async () => {
    const answer = await question();
    if (it.entered !== own) return false;
    take(answer);
    return true;
  };
  it.turn = answered().catch(failedAt(it));
  return it.turn;
}
// Does something when all that was entered and done before has its effect, unless something else is entered by then.
/** @type {(it: Mark, action: (it: Mark) => any) => void} */
export function afterThat(it, action) {
  const own = it.entered;
  it.turn = it.turn.then(() => (it.entered === own ? action(it) : null)).catch(failedAt(it));
}
// Does something to the symbol that is entered, if it is one.
/** @type {(it: Mark, action: (it: Mark) => any) => void} */
export const inTurn = (it, action) =>
  afterThat(it, () => (it.stage === BAD || it.stage === EMPTY ? null : action(it)));

// Resolves once what has been entered and done has its answers.
/** @type {(it: Mark) => Promise<void>} */
export async function settled(it) {
  for (let turn, looking; turn !== it.turn || looking !== it.looking;) {
    ({ turn, looking } = it);
    await Promise.all([turn, looking]);
  }
}
