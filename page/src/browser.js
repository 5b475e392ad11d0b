// Whether the browser has what the checker needs.

// A module with a memory, and a function "f" that fills nothing of it and answers its argument, which has 64 bits.
const SMALL_MODULE = Uint8Array.of(
  0x00, 0x61, 0x73, 0x6d, 1, 0, 0, 0, 1, 6, 1, 0x60, 1, 0x7e, 1, 0x7e, 3, 2, 1, 0, 5, 3, 1, 0, 1, 7, 5, 1, 1, 0x66, 0,
  0, 10, 15, 1, 13, 0, 0x41, 0, 0x41, 0, 0x41, 0, 0xfc, 11, 0, 0x20, 0, 0x0b);

/** Whether the browser runs a module under the page's policy, and hands it 64-bit numbers. */
function runsModules() {
  try {
    return new WebAssembly.Instance(new WebAssembly.Module(SMALL_MODULE)).exports.f(1n) === 1n;
  } catch {
    return false;
  }
}

const isKnown = () => typeof Worker === "function" && typeof DecompressionStream === "function" && runsModules();

export { isKnown };
