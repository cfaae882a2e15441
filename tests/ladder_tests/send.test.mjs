// send.test.mjs SCRIPT: what the script of Send asks and shows, by a page that is made of plain objects.
import assert from "node:assert/strict";
import {pathToFileURL} from "node:url";

const {addTo, answerOf, inWork} = await import(pathToFileURL(process.argv[2]));
const BASE = "https://host/sub/send.js";
let count = 0;

/** An answer as `fetch` gives one. */
const answer = (text, type, status = 200) => async () => ({status, text: async () => text, headers: new Map([["Content-Type", type]])});

/** An element that is nothing but what is put into it. */
class Element {
    constructor(tag) {
        Object.assign(this, {tag, style: {}, attributes: {}, calls: {}, parts: []});
    }
    setAttribute(name, value) {
        this.attributes[name] = value;
    }
    addEventListener(kind, call) {
        this.calls[kind] = call;
    }
    after(...others) {
        [this.next, ...this.more] = others;
    }
    append(...parts) {
        this.parts.push(...parts);
    }
}

/** A page with a robot in work, in a plain field or in a coloured one. */
function pageWith(name, text, isColoured, opponents) {
    const ids = Object.fromEntries(["name", "source", "save", "diagnostic"].map(id => [id, new Element(id)]));
    ids.name.value = name;
    ids.source.value = isColoured ? "an older text" : text;
    const nav = new Element("nav");
    const editor = isColoured ? {CodeMirror: {getValue: () => text}} : null;
    return {ids, nav, createElement: tag => new Element(tag), getElementById: id => ids[id],
        querySelector: selector => ({".CodeMirror": editor, "header nav": nav, "meta[name=opponents]": opponents && {content: opponents}})[selector]};
}

async function answers(ask, wanted) {
    assert.deepEqual(await answerOf("https://host/send", {robot: "r", source: "s"}, ask), wanted);
    count += 1;
}

await answers(answer('{"taken": true, "words": "taken: r"}', "application/json"), {taken: true, words: "taken: r"});
await answers(answer('{"taken": false, "words": "r.r:2: a\\nb"}', "application/json; charset=utf-8"), {taken: false, words: "r.r:2: a\nb"});
await answers(answer("401: your link isn't one\n", "text/plain", 401), {taken: false, words: "your link isn't one"});
await answers(answer("<html>", "text/html"), {taken: false, words: "<html>"});
const silent = {taken: false, words: "The league doesn't answer. Your robot is still here: try again."};
await answers(answer("", "text/plain"), silent);
await answers(answer("{", "application/json"), silent);
await answers(async () => { throw new TypeError("Failed to fetch"); }, silent);

for (const isColoured of [false, true]) {
    const page = pageWith("my robot & co.r", "main(){\r\n}é", isColoured);
    assert.deepEqual(inWork(page), {robot: "my robot & co.r", source: "main(){\r\n}é"});
    const asked = [];
    let end;
    const ask = (...words) => {
        asked.push(words);
        return new Promise(done => { end = done; });
    };
    addTo(page, BASE, ask);
    const button = page.ids.save.next, said = page.ids.diagnostic.next;
    assert.deepEqual([button.textContent, said.hidden, said.attributes.role, page.nav.parts[1].href], ["Send to the league", true, "status", "https://host/sub/mine"]);
    const first = button.calls.click();
    await button.calls.click();
    assert.equal(asked.length, 1);
    const [address, {method, body, credentials, redirect}] = asked[0];
    assert.deepEqual([address, method, body, credentials, redirect],
        ["https://host/sub/send?robot=my+robot+%26+co.r", "POST", "main(){\r\n}é", "same-origin", "error"]);
    assert.equal(button.textContent, "Wait…");
    assert.deepEqual(page.ids.save.more, []);
    end(await answer('{"taken": false, "words": "<b>no</b>"}', "application/json")());
    await first;
    assert.deepEqual([button.textContent, said.textContent, said.className, said.hidden], ["Send to the league", "<b>no</b>", "faulty", false]);
    const second = button.calls.click();
    end(await answer('{"taken": true, "words": "taken"}', "application/json")());
    await second;
    assert.deepEqual([asked.length, said.textContent, said.className], [2, "taken", ""]);
    count += 1;
}

const page = pageWith("r", "main(){}", false, "first second.r");
const tried = [];
addTo(page, BASE, async address => {
    tried.push(address);
    return answer('{"taken": true, "words": "10 matches"}', "application/json")();
});
const [button, choice] = page.ids.save.more;
assert.deepEqual([button.textContent, choice.parts.map(it => it.value), choice.attributes["aria-label"]], ["Try it against", ["first", "second.r"], "Robot of the league"]);
choice.value = "second.r";
await button.calls.click();
assert.deepEqual([tried, page.ids.diagnostic.next.textContent, page.ids.save.next.textContent],
    [["https://host/sub/send?robot=r&against=second.r"], "10 matches", "Send to the league"]);
count += 1;
console.log(`${count} answers`);
