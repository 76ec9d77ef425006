// What is shown first, where nothing is linked or kept: what one may want to do. And an example of what can be read.
import { there } from "./common.mjs";
import { $, folded, made } from "./dom.mjs";
import { C40, EDIFACT } from "./examples.mjs";
import { whenShown } from "./flow.mjs";
import { readPictures } from "./looking.mjs";
import { chooseTask } from "./source.mjs";

const body = () => document.body;
export function showStart() {
  body().dataset.start = "";
  $("start").hidden = false;
}
function hideStart() {
  delete body().dataset.start;
  $("start").hidden = true;
}
// A picture of two symbols on a sheet that lies askew.
/** @type {() => Promise<File>} */
async function examplePicture() {
  /** @type {HTMLCanvasElement} */
  const canvas = made("canvas", { width: 900, height: 560 }), pen = there(canvas.getContext("2d")), each = 8;
  pen.fillStyle = "#8d8578"; pen.fillRect(0, 0, 900, 560);
  pen.setTransform(0.985, 0.174, -0.174, 0.985, 130, 10);
  pen.fillStyle = "#f4f2ec"; pen.fillRect(0, 0, 700, 420);
  pen.fillStyle = "#24211d"; pen.font = "600 26px sans-serif"; pen.fillText("Two marks to try", 60, 380);
  for (const [k, text] of [C40, EDIFACT].entries())
    for (const [row, line] of text.trim().split("\n").entries())
      for (const [column, module] of [...line].entries())
        if (module === "1") pen.fillRect(60 + 320 * k + column * each, 60 + row * each, each + 0.3, each + 0.3);
  const blob = await new Promise((then) => canvas.toBlob(then, "image/png"));
  return new File([blob], "An example", { type: "image/png" });
}
/** @type {Record<string, () => void>} */
const JOBS = {
  "start-read": () => chooseTask("read"),
  "start-make": () => chooseTask("make"),
  "start-learn": () => chooseTask("learn"),
  "start-compare": () => {
    chooseTask("read");
    folded("comparison").open = true;
    $("comparison").scrollIntoView();
  },
};
export function wireStart() {
  for (const [id, act] of Object.entries(JOBS)) $(id).addEventListener("click", act);
  $("example-picture").addEventListener("click", async () => readPictures([await examplePicture()]));
  whenShown(hideStart);
}
