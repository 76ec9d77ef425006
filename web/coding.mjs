// Files of text: in UTF-8; in UTF-16, if they begin with its mark; or else as Windows writes them in Western Europe,
// where many a spreadsheet's CSV comes from. What isn't UTF-8 is said to be that.

/** @type {Record<string, string>} by the first two bytes */
const UTF16 = { "255,254": "utf-16le", "254,255": "utf-16be" };
/** @type {(bytes: Uint8Array) => { text: string, note: string }} */
export function decoded(bytes) {
  const wide = UTF16[String(bytes.subarray(0, 2))];
  try {
    const text = new TextDecoder(wide ?? "utf-8", { fatal: true }).decode(bytes);
    return { text, note: wide ? " It is UTF-16." : "" };
  } catch {
    const text = new TextDecoder("windows-1252").decode(bytes);
    return { text, note: " It isn’t UTF-8, and is read as Windows-1252." };
  }
}
