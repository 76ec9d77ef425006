// Files opened as pictures, in a worker or by the page.

const PNG_START = [137, 80, 78, 71], PNG_END = [73, 69, 78, 68];
/** @type {(bytes: Uint8Array, at: number, some: number[]) => boolean} */
const hasAt = (bytes, at, some) => some.every((byte, k) => bytes[at + k] === byte);

const MOST_PIXELS = 2e8, LARGE = 4e7, LESSENED = 1.6e7; // of a picture; decoded smaller if it has more; then of it
const MOST_DRAWN = 1.6e7; // pixels of what is looked at

/** @typedef {{ offset: number, stride: number }} Plane where it lies, in bytes */
/** @typedef {{ width: number, height: number, data: Uint8Array, blue: Plane, red: Plane, across: number,
    down: number }} Planes of a picture: its luminance, row by row, and its colours, of which one stands for 2 ** across
    pixels in a row, and for 2 ** down rows */
/** @typedef {{ data: Uint8ClampedArray, width: number, height: number }} Drawn as an ImageData has it */
/** @typedef {{ bitmap?: ImageBitmap, picture?: Drawn, by?: number, isOpaque?: boolean, planes?: Planes, why?: string }}
    Opened a picture, drawn or not, of which `by` pixels each way are one here; or why it isn't */

const isJpeg = (/** @type {Uint8Array} */ bytes) => bytes[0] === 0xff && bytes[1] === 0xd8;
// Whether a file begins as a PNG or a JPEG and lacks its end.
/** @type {(bytes: Uint8Array) => boolean} */
function isCutOff(bytes) {
  if (hasAt(bytes, 0, PNG_START)) {
    const first = Math.max(0, bytes.length - 4096);
    for (let at = bytes.length - 8; at >= first; at--) if (hasAt(bytes, at, PNG_END)) return false;
    return true;
  }
  if (!isJpeg(bytes)) return false;
  for (let at = bytes.length - 2; at >= 2; at--) if (bytes[at] === 0xff && bytes[at + 1] === 0xd9) return false;
  return true;
}
// The width and the height that a PNG or a JPEG says it has, or null.
/** @type {(bytes: Uint8Array) => [number, number] | null} */
function sizeIn(bytes) {
  const view = new DataView(bytes.buffer, bytes.byteOffset, bytes.length);
  if (hasAt(bytes, 0, PNG_START)) return bytes.length < 24 ? null : [view.getUint32(16), view.getUint32(20)];
  if (!isJpeg(bytes)) return null;
  for (let at = 2; at + 9 < bytes.length && bytes[at] === 0xff; at += 2 + view.getUint16(at + 2)) {
    const isFrame = bytes[at + 1] >= 0xc0 && bytes[at + 1] <= 0xcf && ![0xc4, 0xc8, 0xcc].includes(bytes[at + 1]);
    if (isFrame) return [view.getUint16(at + 7), view.getUint16(at + 5)];
  }
  return null;
}
/** @type {Record<string, [number, number]>} for each format of planes how many pixels a colour stands for */
const FORMATS = { I420: [1, 1], I422: [1, 0], I444: [0, 0] };
const WHITE = 255, OPAQUE = 0xff000000, GREEN = 0xff00ff00; // of four bytes, the last of which is the first one
// Pixels of blue, green, red and opacity, as red, green and blue on white paper.
/** @type {(data: Uint8ClampedArray) => Uint8ClampedArray} */
function onPaper(data) {
  const pixels = new Uint32Array(data.buffer);
  for (let k = 0; k < pixels.length; k++) {
    const pixel = pixels[k], alpha = pixel >>> 24;
    /** @type {(shift: number) => number} */
    const over = (shift) => Math.round((((pixel >>> shift) & 255) * alpha + WHITE * (255 - alpha)) / 255);
    pixels[k] = alpha === 255 ? (pixel & GREEN) | ((pixel >>> 16) & 255) | ((pixel & 255) << 16)
      : OPAQUE | (over(0) << 16) | (over(8) << 8) | over(16);
  }
  return data;
}
// A JPEG or a PNG as it is stored: by planes, of which the luminance is what is looked at natively too, or by pixels;
// null where the browser gives neither, or the picture is to be turned.
/** @type {(data: Uint8Array, type: string) => Promise<Opened | null>} */
async function storedIn(data, type) {
  const { ImageDecoder, VideoFrame } = /** @type {any} */ (globalThis);
  if (!ImageDecoder || !("rotation" in VideoFrame.prototype)) return null;
  const decoder = new ImageDecoder({ data, type });
  let image = null;
  try {
    ({ image } = await decoder.decode());
    const { rotation, flip, format, codedWidth: width, codedHeight: height } = image;
    const arePlanes = format in FORMATS;
    if (rotation || flip || !(arePlanes || format === "BGRX" || format === "BGRA")) return null;
    const all = new Uint8ClampedArray(image.allocationSize()), [first, blue, red] = await image.copyTo(all);
    if (first.stride !== (arePlanes ? width : 4 * width)) return null;
    if (!arePlanes) return { picture: { data: onPaper(all), width, height } };
    const [across, down] = FORMATS[format];
    return { planes: { width, height, data: new Uint8Array(all.buffer), blue, red, across, down } };
  } catch { return null; } finally { image?.close(); decoder.close(); }
}
// An image in the page, once it can be drawn.
/** @type {(file: Blob) => Promise<HTMLImageElement>} */
export async function imageOf(file) {
  const image = new Image(), url = URL.createObjectURL(file);
  try {
    image.src = url;
    await image.decode();
    return image;
  } finally { URL.revokeObjectURL(url); }
}
/** @type {(width: number, height: number) => any} */
export const penOf = (width, height) =>
  new OffscreenCanvas(width, height).getContext("2d", { willReadFrequently: true, alpha: false });
// A picture drawn with at most so many pixels, of so much of each length; on white paper where it may be transparent.
// It is drawn once: each time takes WebKit as long, however little of it is wanted.
/** @type {(image: ImageBitmap | HTMLImageElement, isOpaque: boolean) => { picture: Drawn, share: number }} */
export function drawn(image, isOpaque) {
  const share = Math.min(1, Math.sqrt(MOST_DRAWN / (image.width * image.height)));
  const [width, height] = [image.width, image.height].map((length) => Math.max(1, Math.round(length * share)));
  const pen = penOf(width, height);
  [pen.imageSmoothingQuality, pen.fillStyle] = ["medium", "#fff"];
  if (!isOpaque) pen.fillRect(0, 0, width, height);
  pen.drawImage(image, 0, 0, width, height);
  return { picture: { data: pen.getImageData(0, 0, width, height).data, width, height }, share };
}
// The picture in a file as an ImageBitmap, of which `by` pixels each way are one where it is large, or as its planes;
// or why there is none. In WebKit the page draws it itself, which takes half as long as a bitmap.
/** @type {(file: Blob, isInPage?: boolean) => Promise<Opened>} */
export async function bitmapOf(file, isInPage = false) {
  const bytes = new Uint8Array(await file.arrayBuffer()), [width, height] = sizeIn(bytes) ?? [0, 0];
  const pixels = width * height, words = `${MOST_PIXELS / 1e6} million pixels`, isOpaque = isJpeg(bytes);
  if (isCutOff(bytes)) return { why: "The file is cut off: the end of the picture is missing." };
  if (pixels > MOST_PIXELS) return { why: `The picture has more than ${words}: save it smaller, and open that.` };
  const stored = pixels && pixels <= LESSENED ? await storedIn(bytes, isOpaque ? "image/jpeg" : "image/png") : null;
  if (stored) return stored;
  try {
    if (pixels <= LARGE && isInPage) {
      const { picture, share } = drawn(await imageOf(file), isOpaque);
      return { picture, by: 1 / share };
    }
    if (pixels <= LARGE) return { bitmap: await createImageBitmap(file), by: 1, isOpaque };
    const resizeWidth = Math.round(width * Math.sqrt(LESSENED / pixels));
    const bitmap = await createImageBitmap(file, { resizeWidth, resizeQuality: "medium" });
    return { bitmap, by: Math.sqrt(pixels / (bitmap.width * bitmap.height)), isOpaque };
  } catch { return { why: "The file can’t be opened as a picture." }; }
}
// Whether files can be read here. In WebKit a worker can't, if the page is opened from disk.
export const readsFiles = () => new Blob(["."]).arrayBuffer().then(() => true, () => false);
