// Loads web/engine.js in Node, also in an older one.
import fs from "node:fs";
import os from "node:os";
import path from "node:path";
import {pathToFileURL} from "node:url";

// Node takes a file whose name ends in .js for a module if one beside it says so; web/ has none, so a copy is loaded
const folder = fs.mkdtempSync(path.join(os.tmpdir(), "engine-"));
fs.writeFileSync(path.join(folder, "package.json"), '{"type": "module"}');
for (const name of ["engine.js", "limits.js"]) {
    fs.copyFileSync(new URL(`../../web/${name}`, import.meta.url), path.join(folder, name));
}
export const {Engine} = await import(pathToFileURL(path.join(folder, "engine.js")));
fs.rmSync(folder, {recursive: true});
