// Where the members of the structs of library/ecc200.h and sampler/ecc200_sample.h stand in memory of 32 bits, in
// bytes, and how many bytes each struct has; the numbers of the sampler's interface; and the codes of refusals in
// words. tools/callers writes them.

export const LAYOUT = {
// ecc200.h: layouts
  fault: { size: 6, code: 0, value: 2, place: 4 },
  scan: { size: 10, rows: 0, columns: 2, limit: 4, border_limit: 6, extent: 8 },
  head: { size: 8, kind: 0, part: 2, parts: 4, file: 6 },
  mark: { size: 8, number: 0, place: 4 },
  reading: { size: 12540, fault: 0, rows: 6, columns: 8, border_faults: 10, block_count: 12, item_count: 14,
    mark_count: 16, identifier: 18, dealing: 20, head: 22, corrected: 30, erased: 40, left: 50, marks: 60,
    items: 6292 },
  how: { size: 18, form: 0, shape: 2, rows: 4, columns: 6, extent: 8, head: 10 },
  symbol: { size: 20746, fault: 0, rows: 6, columns: 8, modules: 10 },
  inspection: { size: 10640, fault: 0, rows: 6, columns: 8, border_faults: 10, block_count: 12, codeword_count: 14,
    dealing: 16, designator_count: 18, designators: 20, corrected: 6252, erased: 6262, left: 6272, held: 6282,
    mended: 8460 },
  place: { size: 4, codeword: 0, bit: 2, kind: 3 },
  place_table: { size: 82954, fault: 0, rows: 6, columns: 8, places: 10 },
  size: { size: 26, rows: 0, columns: 2, region_rows: 4, region_columns: 6, regions_down: 8, regions_across: 10,
    mapping_rows: 12, mapping_columns: 14, data_codewords: 16, check_codewords: 18, blocks: 20, limit: 22,
    extension: 24 },
  size_table: { size: 1248, sizes: 0 },
  sample_options: { size: 12, milliseconds: 0, least_side: 4, margin: 6, keep_unread: 8 },
  sample_point: { size: 16, x: 0, y: 8 },
  sample: { size: 54088, corners: 0, rows: 64, columns: 66, inverted: 68, mirrored: 69, modules: 70, doubtful: 20806,
    reading: 41544, border_limit: 54084, unread: 54086 },
  sample_search: { size: 36, milliseconds: 0, least_side: 4, margin: 6, symbols: 8, room: 12, count: 16, unread: 20,
    unread_room: 24, unread_count: 28, ended: 32, effort: 34 },
  sample_quality: { size: 8992, contrast: 0, modulation: 8, unused: 16, axial: 96, grid: 104, growth: 112, border: 128,
    quiet: 160, codewords: 192, blocks: 194, readable: 196, contrast_grade: 204, modulation_grade: 205,
    unused_grade: 206, axial_grade: 207, grid_grade: 208, weakest: 209, modulations: 276 },
// ecc200.h: end
};
export const SAMPLER = {
// ecc200.h: sampler
  ABI: 1,
  MOST_SIDE: 32767,
  USUAL_TIME: 1000,
  OK: 0,
  PICTURE: 1,
  NO_MEMORY: 2,
  SYMBOL: 3,
  WHOLE: 0,
  ROOM: 1,
  TIME: 2,
  WORK: 3,
  READ: 0,
  REFUSED: 1,
  MARGIN: 2,
// ecc200.h: end
};
/** @type {Record<number, string>} by the codes */
export const CODE_WORDS = {
// ecc200.h: words
  0: "no fault",
  3: "the modules aren't as many as the rows times the columns",
  4: "no size has these rows and columns",
  5: "too many border modules have the wrong colour",
  6: "a block is damaged beyond correction",
  7: "a reserved codeword",
  8: "an encodation or function that isn't supported",
  9: "an Upper Shift that no character follows",
  10: "a pair of codewords that doesn't stand for three values",
  11: "a value that has no meaning after a shift",
  12: "a wrong Base 256 length",
  13: "the run or the symbol ends before the character of an Upper Shift",
  14: "the message is too long for any size that may be taken",
  15: "an item above 256",
  16: "no such profile",
  17: "no such extent",
  18: "no such shape",
  19: "the doubtful modules aren't as many as the modules",
  20: "an ECI without the designator of a number",
  21: "a structured append that is no part of a file",
  22: "a mark out of order, behind the items, or with a number above 999999",
  23: "no such head",
  24: "no such border limit",
// ecc200.h: end
};
