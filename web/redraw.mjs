// Who draws what is at hand. It is told when that has changed, so that what changes it knows nothing of drawing.
const drawers = { all: () => {}, stage: () => {} };
/** @type {(all: () => void, stage: () => void) => void} */
export function drawBy(all, stage) { Object.assign(drawers, { all, stage }); }
export const redraw = () => drawers.all();
export const redrawStage = () => drawers.stage();
