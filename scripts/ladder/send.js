// What the ladder adds to its workbench: a button that sends the robot in work to the league, one that tries it against a robot of
// the league if that is allowed, and what is answered.

const SEND = "Send to the league", TRY = "Try it against", WAITS = "Wait…";
const SILENT = "The league doesn't answer. Your robot is still here: try again.";

/** What the league answers to a robot: whether all is well, and in words what became of it. */
export async function answerOf(address, {robot, source, against = ""}, ask = fetch) {
    try {
        const words = new URLSearchParams(against ? {robot, against} : {robot});
        const answer = await ask(`${address}?${words}`,
            {method: "POST", body: source, headers: {"Content-Type": "text/plain"}, credentials: "same-origin", redirect: "error"});
        const text = await answer.text();
        const isSaid = (answer.headers.get("Content-Type") ?? "").startsWith("application/json");
        return isSaid ? JSON.parse(text) : {taken: false, words: text.replace(`${answer.status}: `, "").trim() || SILENT};
    } catch {
        return {taken: false, words: SILENT};
    }
}

/** The robot in work, as its editor has it. */
export function inWork(page) {
    const {CodeMirror} = page.querySelector(".CodeMirror") ?? {};
    return {robot: page.getElementById("name").value, source: CodeMirror ? CodeMirror.getValue() : page.getElementById("source").value};
}

const made = (page, tag, values) => Object.assign(page.createElement(tag), values);

/** The place of answers. */
function placeOf(page) {
    const said = made(page, "pre", {id: "sent", hidden: true});
    said.setAttribute("role", "status");
    said.style.whiteSpace = "pre-wrap";
    return said;
}

/** A button that asks the league with the robot in work and what `more` says, and shows the answer; it asks once at a time. */
function asking(page, id, text, said, ask) {
    const button = made(page, "button", {type: "button", id, textContent: text});
    let isAsking = false;
    button.addEventListener("click", async () => {
        if (isAsking) {
            return;
        }
        isAsking = true;
        button.textContent = WAITS;
        const {taken, words} = await ask();
        Object.assign(said, {textContent: words, className: taken ? "" : "faulty", hidden: false});
        button.textContent = text;
        isAsking = false;
    });
    return button;
}

/** The choice of robots for a trial; none if the league allows no trials. */
function choiceOf(page) {
    const names = page.querySelector("meta[name=opponents]")?.content.split(" ") ?? [];
    const choice = made(page, "select", {id: "against"});
    choice.setAttribute("aria-label", "Robot of the league");
    choice.append(...names.map(name => made(page, "option", {textContent: name, value: name})));
    return names.length ? choice : null;
}

/** Adds the buttons, the place of their answers, and a way back to the league. */
export function addTo(page, base, ask = fetch) {
    const address = new URL("send", base).href, said = placeOf(page), choice = choiceOf(page);
    const send = asking(page, "send", SEND, said, () => answerOf(address, inWork(page), ask));
    const more = choice ? [asking(page, "try", TRY, said, () => answerOf(address, {...inWork(page), against: choice.value}, ask)), choice] : [];
    page.getElementById("save").after(send, ...more);
    page.getElementById("diagnostic").after(said);
    page.querySelector("header nav").append(" ", made(page, "a", {href: new URL("mine", base).href, textContent: "League"}));
}

if (globalThis.document) {
    addTo(document, import.meta.url);
}
