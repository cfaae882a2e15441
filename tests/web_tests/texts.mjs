// What a browser has and JavaScriptCore's shell lacks: texts as bytes of UTF-8, and back.
globalThis.TextEncoder ??= class {
    encode(text) {
        return Uint8Array.from(unescape(encodeURIComponent(text)), it => it.charCodeAt(0));
    }
};
globalThis.TextDecoder ??= class {
    decode(bytes) {
        return decodeURIComponent(escape(Array.from(bytes, it => String.fromCharCode(it)).join("")));
    }
};
