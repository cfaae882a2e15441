// Measures a page for its readers: contrast of texts and borders, sizes of what is pressed, names of controls.
//
// `probe(document)` returns the texts whose contrast with what is behind them is below 4.5, the borders of controls below 3,
// and the controls that are less than 24 pixels high or wide. Colours are those that the browser draws.
(() => {
    const canvas = Object.assign(document.createElement("canvas"), {width: 1, height: 1});
    const context = canvas.getContext("2d", {willReadFrequently: true});

    const known = new Map();

    /** The parts of a colour, from 0 to 1, and how much it covers. Each colour is drawn once. */
    function parts(colour) {
        if (!known.has(colour)) {
            known.set(colour, drawn(colour));
        }
        return known.get(colour);
    }

    function drawn(colour) {
        context.clearRect(0, 0, 1, 1);
        context.fillStyle = colour;
        context.fillRect(0, 0, 1, 1);
        const [red, green, blue, cover] = context.getImageData(0, 0, 1, 1).data;
        return {rgb: [red, green, blue].map(it => it / 255), cover: cover / 255};
    }

    const over = (top, below) => top.rgb.map((it, at) => it * top.cover + below[at] * (1 - top.cover));

    function luminance(rgb) {
        const [red, green, blue] = rgb.map(it => it <= 0.04045 ? it / 12.92 : ((it + 0.055) / 1.055) ** 2.4);
        return 0.2126 * red + 0.7152 * green + 0.0722 * blue;
    }

    function contrast(one, other) {
        const [low, high] = [luminance(one), luminance(other)].sort((a, b) => a - b);
        return (high + 0.05) / (low + 0.05);
    }

    /** What is drawn behind an element's content. */
    function ground(element, view) {
        const chain = [];
        for (let it = element; it; it = it.parentElement) {
            chain.unshift(parts(view.getComputedStyle(it).backgroundColor));
        }
        const canvasColour = parts(view.getComputedStyle(view.document.documentElement).colorScheme.includes("dark")
            && view.matchMedia("(prefers-color-scheme: dark)").matches ? "#121212" : "#ffffff");
        return chain.reduce((below, top) => over(top, below), canvasColour.rgb);
    }

    function isSeen(element, view) {
        const box = element.getBoundingClientRect();
        const style = view.getComputedStyle(element);
        return box.width > 1 && box.height > 1 && style.visibility === "visible" && !element.closest("svg");
    }

    const nameOf = element => `${element.tagName.toLowerCase()}${element.id ? `#${element.id}` : ""}${element.className ? `.${element.className}` : ""}`;

    const backgrounds = new Map();

    /** The background of what has this class in an element, which is asked for once in each theme. */
    function backgroundOf(name, element, view) {
        const key = `${name} ${view.matchMedia("(prefers-color-scheme: dark)").matches}`;
        if (!backgrounds.has(key)) {
            const it = view.document.createElement("div");
            it.className = name;
            element.append(it);
            backgrounds.set(key, parts(view.getComputedStyle(it).backgroundColor));
            it.remove();
        }
        return backgrounds.get(key);
    }

    /** Backgrounds that lie behind a line of the editor and aren't its ancestors'. */
    function layers(element, view) {
        const inEditor = element.closest(".CodeMirror-line");
        if (!inEditor) {
            return [[]];
        }
        const [active, selected, faulty] = ["CodeMirror-activeline-background", "CodeMirror-selected", "faulty"]
            .map(name => backgroundOf(name, element.closest(".CodeMirror"), view));
        return [[], [active], [selected], [active, selected], [faulty], [active, faulty]];
    }

    function texts(view) {
        const faults = [];
        const walker = view.document.createTreeWalker(view.document.body, NodeFilter.SHOW_TEXT);
        for (let node = walker.nextNode(); node; node = walker.nextNode()) {
            const element = node.parentElement;
            if (!node.data.trim() || !isSeen(element, view) || element.closest("script, style, noscript, option")) {
                continue;
            }
            const below = ground(element, view);
            const colour = parts(view.getComputedStyle(element).color);
            for (const tops of layers(element, view)) {
                const behind = tops.reduce((rest, top) => over(top, rest), below);
                const ratio = contrast(over(colour, behind), behind);
                if (ratio < 4.5) {
                    faults.push(`${nameOf(element)} "${node.data.trim().slice(0, 20)}" ${ratio.toFixed(2)}`);
                    break;
                }
            }
        }
        return faults;
    }

    const CONTROLS = "button, input:not([type=file]):not([type=range]), select, textarea";

    function borders(view) {
        return [...view.document.querySelectorAll(CONTROLS)].filter(it => isSeen(it, view)).flatMap(it => {
            const style = view.getComputedStyle(it);
            const width = parseFloat(style.borderTopWidth);
            const behind = ground(it.parentElement, view);
            // what has no border ends where its background does
            const edge = over(parts(width ? style.borderTopColor : style.backgroundColor), behind);
            const ratio = contrast(edge, behind);
            const isText = !width && ratio < 1.1;
            return isText || ratio >= 3 ? [] : [`border of ${nameOf(it)} ${ratio.toFixed(2)}`];
        });
    }

    function sizes(view) {
        return [...view.document.querySelectorAll(`${CONTROLS}, a[href], summary, [role=option]`)].filter(it => isSeen(it, view)).flatMap(it => {
            const {width, height} = it.getBoundingClientRect();
            return width >= 24 && height >= 23.9 ? [] : [`${nameOf(it)} is ${width.toFixed(0)} by ${height.toFixed(0)}`];
        });
    }

    window.probe = view => ({texts: texts(view), borders: borders(view), sizes: sizes(view)});
})();
