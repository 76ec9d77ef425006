// Where the page asks its workers. Each desk has one, which answers one question at a time; a question that waits is
// replaced by a newer one of its lane. An answer never throws: it is what the worker says, { failed: why },
// { stopped: true }, or undefined if replaced.
import { messageOf, there } from "./common.mjs";

/** @typedef {{ number: number, kind: string, given: any, lane: string, transfer: Transferable[], since: number,
    tell: ((progress: string) => void) | null, resolve: (answer: any) => void }} Question */
/** @typedef {{ library: WebAssembly.Module, sampler: WebAssembly.Module, isForPictures?: boolean }} Code of the
    workers, and whether theirs are pictures */
/** @type {Transferable[]} */
const NONE = [];
/** @type {Desk[]} */
const allDesks = [];
/** @type {(() => void)[]} */
const listeners = [];
const wake = () => { for (const listener of listeners) listener(); };
/** @type {(listener: () => void) => void} */
export const whenChanged = (listener) => { listeners.push(listener); };
export const isWorking = () => allDesks.some((desk) => desk.running || desk.waiting.length);
export const stopAll = () => { for (const desk of allDesks) desk.stop(); };
export const workingSince = () => Math.min(...allDesks.map(({ running }) => running?.since ?? Infinity));

export class Desk {
  /** @type {Worker | null} */
  worker = null;
  /** @type {Promise<any> | null} what the worker says of the library */
  ready = null;
  /** @type {Question | null} */
  running = null;
  /** @type {Question[]} */
  waiting = [];
  count = 0; // of all questions

  /** @param {string} script @param {Code} code */
  constructor(script, code) {
    this.script = script;
    this.code = code;
    allDesks.push(this);
  }
  // Starts a worker with the library; what it says of the library, or { failed }.
  start() {
    this.worker = new Worker(this.script);
    this.worker.onmessage = ({ data }) => this.hear(data);
    this.worker.onerror = (event) => {
      event.preventDefault();
      this.end({ failed: event.message || "the worker broke off" });
    };
    this.ready = this.ask("load", this.code, "load");
    return this.ready;
  }
  // `tell` is given what the worker says of this question meanwhile.
  /** @type {(kind: string, given: any, lane: string, more?: { transfer?: Transferable[], tell?: any }) =>
      Promise<any>} */
  ask(kind, given, lane, { transfer = NONE, tell = null } = {}) {
    if (!this.worker && kind !== "load") this.start();
    return new Promise((resolve) => {
      this.waiting = this.waiting.filter((question) => {
        if (question.lane === lane) question.resolve(undefined);
        return question.lane !== lane;
      });
      this.waiting.push({ number: ++this.count, kind, given, lane, transfer, tell, resolve, since: Infinity });
      this.next();
    });
  }
  next() {
    if (!this.running && this.waiting.length) {
      const running = this.running = there(this.waiting.shift()), { number, kind, given, transfer } = running;
      running.since = performance.now();
      try { there(this.worker).postMessage({ number, kind, given }, transfer); } catch (why) {
        this.hear({ number, failed: messageOf(why) });
        return;
      }
    }
    wake();
  }
  /** @type {(said: { number?: number, answer?: any, failed?: string, progress?: string }) => void} */
  hear({ number, answer, failed, progress }) {
    if (progress) { this.running?.tell?.(progress); return; }
    if (!this.running || number !== this.running.number) return;
    const { resolve } = this.running;
    this.running = null;
    resolve(failed === undefined ? answer : { failed });
    this.next();
  }
  // Ends the worker, with this answer to all that was asked; the next question starts another.
  /** @type {(answer: any) => void} */
  end(answer) {
    this.worker?.terminate();
    this.worker = null;
    const asked = [...(this.running ? [this.running] : []), ...this.waiting];
    this.running = null;
    this.waiting = [];
    for (const question of asked) question.resolve(answer);
    wake();
  }
  // Has another worker in place of this one, if that has nothing to do.
  retire() {
    if (this.running || this.waiting.length) return;
    this.end(null);
    this.start();
  }
  stop() { if (this.running) this.end({ stopped: true }); }
}
