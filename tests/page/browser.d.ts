// What browsers have and some versions of TypeScript do not know.
declare const DecompressionStream: { new (format: string): ReadableWritablePair<Uint8Array, Uint8Array> };
