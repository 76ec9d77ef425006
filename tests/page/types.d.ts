// What browsers have and the checker's library doesn't know yet.
declare const OffscreenCanvas: any;
declare const DecompressionStream: any;
