// Bytes of a text in base 64.

/** Returns the bytes of a text in base 64, of either alphabet. */
export function bytesOfBase64(text) {
    const binary = atob(text.replaceAll("-", "+").replaceAll("_", "/"));
    const bytes = new Uint8Array(binary.length);
    for (let at = 0; at < bytes.length; at += 1) {
        bytes[at] = binary.charCodeAt(at);
    }
    return bytes;
}
