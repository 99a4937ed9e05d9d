// loading.js: how browsers and workers load a module of the package.

async function bytesAt(place) {
  const response = await fetch(place);
  if (!response.ok) throw new Error(`fcanon is not loaded: ${place} has status ${response.status}`);
  return response.arrayBuffer();
}

// The compiled module of a place, of bytes, or of itself.
export async function moduleOf(source) {
  if (source instanceof WebAssembly.Module) return source;
  const isBytes = source instanceof ArrayBuffer || ArrayBuffer.isView(source);
  return WebAssembly.compile(isBytes ? source : await bytesAt(source));
}
