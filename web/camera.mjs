// The camera, where the browser allows one: it looks as long as it is on, outlines what it sees, and lists what it has
// read; until Stop is pressed, or something else is entered or shown.
import { there } from "./common.mjs";
import { $, hint } from "./dom.mjs";
import { whenShown } from "./flow.mjs";
import { addSights, choose, clearSights, drawOutlines, isKeepingSights } from "./found.mjs";
import { whyUnread } from "./listed.mjs";
import { askFrame } from "./looking.mjs";
import { whenEntered } from "./order.mjs";

import { panes } from "./state.mjs";

const EACH = 100, MOST_TIME_OF_FRAME = 600, MOST_IN_FRAME = 24; // milliseconds, and symbols
const LENGTH = 1280; // pixels of the longer side that are asked for
const HOLD = "Hold symbols before the camera. What is read is listed, until you stop it.";
const WANTED = { video: { facingMode: "environment", width: { ideal: LENGTH } }, audio: false };
/** @typedef {{ stream: MediaStream | null }} Session with its stream, once the browser allows one */
/** @type {Session | null} the one that is on */
let session = null;
let told = HOLD; // what it said last; what is said of a picture meanwhile stays until that changes

const video = () => /** @type {HTMLVideoElement} */ ($("video"));
/** @type {(time: number) => Promise<void>} */
const wait = (time) => new Promise((resolve) => setTimeout(resolve, time));

/** @type {(own: Session) => Promise<void>} */
async function watch(own) {
  while (session === own) {
    const { videoWidth: width, videoHeight: height } = video();
    const bitmap = width ? await createImageBitmap(video()) : null;
    if (session !== own) return;
    const limits = { most: MOST_IN_FRAME, time: MOST_TIME_OF_FRAME };
    const sights = bitmap && await askFrame({ bitmap, isOpaque: true, ...limits }, "camera");
    if (session !== own) return;
    if (sights?.stopped) { stopCamera("The camera is off."); return; }
    if (sights?.symbols) seeFrame(sights, { width, height });
    await wait(EACH);
  }
}
/** @type {(sights: import("./found.mjs").Sights, size: { width: number, height: number }) => void} */
function seeFrame({ symbols, unread }, size) {
  drawOutlines($("in-camera"), [...symbols, ...unread], size);
  const fresh = addSights(symbols);
  if (fresh.length) choose(fresh[fresh.length - 1]);
  const said = symbols.length || !unread.length ? HOLD : `A symbol is seen, and isn’t read. ${whyUnread(unread[0])}`;
  if (said === told) return;
  hint("picture-hint", said, said !== HOLD);
  told = said;
}

// ---- The light

/** @type {(own: Session | null) => MediaStreamTrack | undefined} */
const trackOf = (own) => own?.stream?.getVideoTracks()[0];
/** @type {(own: Session) => void} */
function showTorch(own) {
  /** @type {any} */
  const can = trackOf(own)?.getCapabilities?.() ?? {};
  $("torch").hidden = !can.torch;
  $("torch").setAttribute("aria-pressed", "false");
}
async function turnTorch() {
  const isOn = $("torch").getAttribute("aria-pressed") !== "true";
  /** @type {any} */
  const wanted = { advanced: [{ torch: isOn }] };
  try {
    await there(trackOf(session)).applyConstraints(wanted);
    $("torch").setAttribute("aria-pressed", String(isOn));
  } catch { hint("picture-hint", "The light of this device can’t be switched.", true); }
}

// ---- On and off

/** @type {(stream: MediaStream | null) => void} */
const endStream = (stream) => { for (const track of stream?.getTracks() ?? []) track.stop(); };
function stopCamera(words = "") {
  if (!session) return;
  endStream(session.stream);
  session = null;
  video().srcObject = null;
  $("in-camera").replaceChildren();
  $("viewfinder").hidden = true;
  if (words) hint("picture-hint", words);
}
async function startCamera() {
  if (session) return;
  /** @type {Session} */
  const own = { stream: null };
  session = own;
  try {
    const stream = await navigator.mediaDevices.getUserMedia(WANTED);
    if (session !== own) { endStream(stream); return; }
    own.stream = stream;
  } catch (why) {
    if (session !== own) return;
    session = null;
    const isForbidden = why instanceof Error && why.name === "NotAllowedError";
    const words = "The browser doesn’t allow the camera here.", none = "There is no camera that this page can use.";
    hint("picture-hint", isForbidden ? words : none, true);
    return;
  }
  clearSights();
  video().srcObject = own.stream;
  $("viewfinder").hidden = false;
  showTorch(own);
  hint("picture-hint", HOLD);
  told = HOLD;
  await video().play().catch(() => {}); // it has been stopped by then
  watch(own);
}
export function wireCamera() {
  $("camera").hidden = !navigator.mediaDevices?.getUserMedia;
  $("camera").addEventListener("click", startCamera);
  $("torch").addEventListener("click", turnTorch);
  $("camera-off").addEventListener("click", () => { stopCamera("The camera is off."); $("camera").focus(); });
  whenEntered((it) => {
    if (it === panes.read && !isKeepingSights()) stopCamera("The camera is off, since something else was entered.");
  });
  whenShown((task) => { if (task !== "read") stopCamera("The camera is off, since another task was opened."); });
  document.addEventListener("visibilitychange", () => {
    if (document.hidden) stopCamera("The camera is off, since the page was out of sight.");
  });
  addEventListener("pagehide", () => stopCamera());
}
