// The library as two WebAssembly modules: one that reads, and one that prints. So a bundle contains
// only what it calls.
import printing from "print.txt";
import reading from "read.txt";

const ADVICE = "allow 'wasm-unsafe-eval' in the content security policy, lift --jitless or the "
    + "limit of the address space, or import duration-str/plain";

/** js/build writes the bytes 254, 255, 0 to 66 and 105 to 128, which some nine of ten bytes of the
 * modules are, as one ASCII character each, and any other byte as two. After gzip a bundle then has
 * fewer bytes than with base64, or with one character for each byte. */
function bytesOf(text) {
    const bytes = new Uint8Array(text.length);
    let end = 0;
    for (let place = 0; place < text.length; place++) {
        let byte = text.charCodeAt(place) - 34;
        if (byte > 90) byte = 95 * (byte - 91) + text.charCodeAt(++place) + 34;
        else if (byte > 66) byte += 38;
        bytes[end++] = byte;
    }
    return bytes.subarray(0, end);
}

function instance(text) {
    try {
        return new WebAssembly.Instance(new WebAssembly.Module(bytesOf(text))).exports;
    } catch (cause) {
        const why = `duration-str cannot use WebAssembly here (${cause.message}): ${ADVICE}`;
        throw new Error(why, { cause });
    }
}

export const reader = () => instance(reading);
export const printer = () => instance(printing);
