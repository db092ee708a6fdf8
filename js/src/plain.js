// The library as JavaScript, for places where WebAssembly is missing or refused. binaryen's wasm2js
// makes it from the two WebAssembly modules.
export { default as printer } from "print.js";
export { default as reader } from "read.js";
