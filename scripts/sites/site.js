// Shows what the site has as data: a pair, all opponents of a robot, and the pair of a cell of the map. Data are scripts that hand
// in values by `site.take`, so they can be read where the site is opened from files, too.
"use strict";

const site = (() => {
    const up = document.currentScript.getAttribute("src").slice(0, -"site.js".length);
    const takers = new Map();
    const loaded = new Map();
    const FILE = /^[a-z0-9._-]{1,80}$/;
    const WHAT = ["closest", "shortest", "longest", "greatest upset"];
    const SPACE = "\u00a0";
    const INTERVAL = `95${SPACE}% interval`;
    const DEAD = 100;
    // of longer matches a replay has the last cycles alone
    const MOST_CYCLES = 50000;

    /** Takes what a file of data hands in: that of a robot, or of all if it has no name. */
    function take(name, value) {
        takers.get(name)?.(value);
    }

    /** Returns what the file of a robot has, or that of all if no robot is given. A file is loaded once. */
    function load(name) {
        if (!loaded.has(name)) {
            loaded.set(name, new Promise((done, fail) => {
                takers.set(name, done);
                const script = document.createElement("script");
                script.src = `${up}${name ? `data/${name}` : "robots"}.js`;
                script.addEventListener("error", () => fail(new Error(`there are no data of ${name || "the robots"}`)));
                document.head.append(script);
            }));
        }
        return loaded.get(name);
    }

    /** Puts attributes and children into an element. Children may be texts; one that is null is left out. */
    function filled(element, attributes, children) {
        Object.entries(attributes).forEach(([name, value]) => element.setAttribute(name, value));
        element.append(...children.filter(child => child !== null));
        return element;
    }

    function made(name, attributes = {}, ...children) {
        return filled(document.createElement(name), attributes, children);
    }

    function drawn(name, attributes = {}, ...children) {
        return filled(document.createElementNS("http://www.w3.org/2000/svg", name), attributes, children);
    }

    function count(number) {
        return `${number}`.replace(/\B(?=(\d{3})+$)/g, ",");
    }

    /** Returns a part as a percentage with one digit after its point; half of that digit goes to the even one. */
    function percent(part) {
        const many = 100 * part;
        return `${(many % 1 === 0.25 ? many - 0.05 : many).toFixed(1)}${SPACE}%`;
    }

    function share([won, tied, lost, both]) {
        const played = won + tied + lost;
        return played ? (won + (tied + both) / 2) / played : 0.5;
    }

    function turned([won, tied, lost, both]) {
        return [lost - both, tied, won + both, both];
    }

    function tenth(number) {
        return Math.round(10 * number) / 10;
    }

    function chart(width, height, kind, label, ...children) {
        const seen = label ? {role: "img", "aria-label": label} : {"aria-hidden": "true"};
        const size = {viewBox: `0 0 ${width} ${height}`, width, height};
        return drawn("svg", {...size, class: `chart ${kind}`, ...seen}, ...children);
    }

    /** Returns what was won, tied and lost, as parts of a bar. */
    function parts([won, tied, lost], width = 120, height = 12, label = "") {
        const played = Math.max(won + tied + lost, 1);
        let x = 0;
        const found = [["won", won], ["tied", tied], ["lost", lost]].map(([kind, many]) => {
            const wide = width * many / played;
            const part = many ? drawn("rect", {x: tenth(x), y: 0, width: tenth(wide), height, class: kind}) : null;
            x += wide;
            return part;
        });
        return chart(width, height, "parts", label, ...found);
    }

    /** Returns a share as a dot on its interval, on an axis from 0 to 100 %. */
    function shareRow(low, value, high, label) {
        const at = part => tenth(12 + 336 * part);
        const ticks = [0, 25, 50, 75, 100];
        const lines = ticks.map(tick => drawn("line", {x1: at(tick / 100), x2: at(tick / 100), y1: 4, y2: 30, class: tick === 50 ? "even" : "grid"}));
        const numbers = ticks.map(tick => drawn("text", {x: at(tick / 100), y: 44, "text-anchor": "middle"}, tick ? `${tick} %` : "0"));
        const wide = Math.max(tenth(at(high) - at(low)), 1);
        const span = drawn("rect", {x: at(low), y: 13, width: wide, height: 8, rx: 4, class: "interval"});
        const dot = drawn("circle", {cx: at(value), cy: 17, r: 4.5, class: "value"});
        return chart(366, 48, "axis", label, ...lines, ...numbers, span, dot);
    }

    function damageBar(percents) {
        const bar = (width, kind) => drawn("rect", {x: 0, y: 0, width, height: 8, rx: 4, class: kind});
        return chart(DEAD, 8, "", "", bar(DEAD, "track"), bar(Math.min(percents, DEAD), "damage"));
    }

    function table(caption, columns, rows, kind = "") {
        const head = made("tr", {}, ...columns.map(([title, style]) => made("th", {scope: "col", ...style && {class: style}}, title)));
        const body = rows.map(row => made("tr", {}, ...row.map((cell, at) => {
            const style = columns[at][1] && {class: columns[at][1]};
            return at ? made("td", {...style}, cell) : made("th", {scope: "row", ...style}, cell);
        })));
        const whole = made("table", {}, made("caption", {}, caption), made("thead", {}, head), made("tbody", {}, ...body));
        return made("div", {class: `scroll ${kind}`.trim(), tabindex: 0, role: "region", "aria-label": caption}, whole);
    }

    function listed(rows) {
        const found = rows.map(([term, said]) => made("div", {}, made("dt", {}, term), made("dd", {}, ...[said].flat())));
        return made("dl", {class: "facts"}, ...found);
    }

    function section(title, ...body) {
        return made("section", {}, made("h2", {}, title), ...body);
    }

    function bdi(text) {
        return made("bdi", {}, text);
    }

    function robotLink(file, name) {
        return made("a", {href: `${up}robots/${file}.html`}, bdi(name));
    }

    /** Returns where the page of a pair is. */
    function pairPage(one, other) {
        return `${up}pair.html#${[one, other].sort((a, b) => a < b ? -1 : 1).join("/")}`;
    }

    /** Returns what is decided of a pair, in words; the names are those of its robots. */
    function verdict([what, matches], one, other) {
        const by = matches ? `, by the test after ${count(matches)} matches` : "";
        if (what === "even") {
            return [`even: neither is better by much${by}`];
        }
        if (what === "not decided") {
            return [matches ? `not decided after ${count(matches)} matches` : "which of them is better may be chance"];
        }
        return [bdi(what === "better" ? one : other), ` is better${by}`];
    }

    /** Returns a pair from the side of the robot that is higher in the table. */
    function between(first, second, details, rows) {
        const pair = details.pairs[second];
        const [score, [low, high], [what, matches], seats, notable] = pair;
        if (rows.get(first).row <= rows.get(second).row) {
            return {one: first, other: second, score, low, high, verdict: [what, matches], seats, notable, names: [first, second]};
        }
        const exchanged = {better: "worse", worse: "better"}[what] ?? what;
        const other = seats.map(([seat, against, won, tied, lost, both, ...series]) => [against, seat, ...turned([won, tied, lost, both]), ...series]).sort((a, b) => a[0] - b[0] || a[1] - b[1]);
        const ends = {low: 1 - high, high: 1 - low};
        return {one: second, other: first, score: turned(score), ...ends, verdict: [exchanged, matches], seats: other, notable, names: [first, second]};
    }

    function scoreOf(pair, one, other) {
        const [won, tied, lost, both] = pair.score;
        const said = `${count(won)} won, ${count(tied)} tied, ${count(lost)} lost`;
        const value = percent(share(pair.score));
        const within = `${percent(pair.low)} to ${percent(pair.high)}`;
        const keys = [["won", won], ["tied", tied], ["lost", lost]].map(([what, many]) =>
            made("span", {class: `key ${what}`}, `${count(many)} ${what}`));
        const bar = made("div", {}, parts(pair.score, 360, 22, said), made("p", {class: "keys", "aria-hidden": "true"}, ...keys));
        const axis = shareRow(pair.low, share(pair.score), pair.high, `Share ${value}, from ${within}`);
        return section("Score", made("p", {}, "From the side of ", bdi(one), ":"), made("div", {class: "bars"}, bar, axis), listed([
            ["Matches", count(won + tied + lost)],
            ["Won, tied, lost", said + (both ? `, of which both lost ${count(both)}` : "")],
            ["Share", `${value}, ${INTERVAL} ${within}`],
            ["Verdict", verdict(pair.verdict, one, other)],
        ]));
    }

    function bySeat(pair, one, other) {
        if (!pair.seats.length) {
            return null;
        }
        const of = name => made("span", {}, "Seat of ", bdi(name));
        const numbers = ["Played", "Won", "Tied", "Lost", "Share"].map(title => [title, "number"]);
        const rows = pair.seats.map(([seat, against, won, tied, lost, both]) => [
            ...[seat, against, won + tied + lost, won, tied, lost].map(count), percent(share([won, tied, lost, both])),
            parts([won, tied, lost])]);
        return section("By seat", table("Score by seat", [[of(one), "number"], [of(other), "number"], ...numbers, ["Results", ""]], rows));
    }

    /** Returns the seats of a match: each robot's file, with its damage. */
    function seatsOf(flat, names) {
        return Array.from({length: flat.length / 2}, (_, at) => ({file: names[flat[2 * at]] ?? flat[2 * at], damage: flat[2 * at + 1]}));
    }

    function outcome(seats, {damage}) {
        return damage >= DEAD ? "lost" : seats.filter(seat => seat.damage < DEAD).length === 1 ? "won" : "tied";
    }

    function seatRow(seats, seat, rows) {
        const did = outcome(seats, seat);
        return made("li", {}, made("span", {}, robotLink(seat.file, rows.get(seat.file).name)), made("span", {class: `did ${did}`}, did),
            made("span", {class: "hurt"}, damageBar(seat.damage), ` ${seat.damage} % damage`));
    }

    /** Returns a text, deflated, as a link carries it. */
    async function packed(text) {
        const deflated = new Blob([text]).stream().pipeThrough(new CompressionStream("deflate-raw"));
        const bytes = new Uint8Array(await new Response(deflated).arrayBuffer());
        let binary = "";
        for (let at = 0; at < bytes.length; at += 8192) {
            binary += String.fromCharCode(...bytes.subarray(at, at + 8192));
        }
        return btoa(binary).replaceAll("+", "-").replaceAll("/", "_").replaceAll("=", "");
    }

    /** Returns a link that opens matches in the browser's page; null if there is no page. */
    function browserLink(all, seated, [seed, first, matches], words) {
        if (!all.page) {
            return null;
        }
        const robots = seated.map(({name, source}) => ({name, source}));
        const settings = {matches, limit: all.limit, seed, first, profile: all.profile};
        const link = made("a", {class: "button", href: all.page}, words);
        packed(JSON.stringify({robots, settings})).then(text => { link.href = `${all.page.split("#")[0]}#battle=${text}`; });
        return link;
    }

    /** Returns the command line that plays matches again. */
    function commandLine(all, seated, [seed, first, matches]) {
        const words = ["crobots", `-f${first}`, `-m${matches}`, `-l${all.limit}`, `-s${seed}`, `-p${all.profile}`, ...seated.map(robot => robot.file)];
        const command = words.flatMap((word, at) => [at ? " " : null, made("span", {}, word)]);
        return made("pre", {class: "command"}, made("code", {}, ...command));
    }

    /** Returns the ways to all matches of a pair that nobody else was in: of each series of them what plays it again. */
    function allMatches(all, data, pair) {
        const two = [pair.one, pair.other].map(file => data.get(file));
        return two.some(one => one.source === null) ? [] : pair.seats.flatMap(([seat, , , , , , ...series]) => {
            const seated = seat === 1 ? two : [...two].reverse();
            return Array.from({length: series.length / 3}, (_, at) => series.slice(3 * at, 3 * at + 3)).map(one => {
                const [, first, matches] = one;
                const said = `${matches > 1 ? `Matches ${count(first)} to ${count(first + matches - 1)}` : `Match ${count(first)}`}, ${seated[0].name} in the first seat`;
                const link = browserLink(all, seated, one, "Open them in the browser's page");
                return made("div", {class: "series"}, made("p", {}, bdi(said)), link ? made("p", {class: "ways"}, link) : null, commandLine(all, seated, one));
            });
        });
    }

    function card(all, data, rows, names, [bits, flat, number, seed, cycles, replay]) {
        const seats = seatsOf(flat, names);
        const seated = seats.map(seat => data.get(seat.file));
        const what = WHAT.filter((_, bit) => bits & 1 << bit).join(", ");
        const part = cycles > MOST_CYCLES ? `Watch its last ${count(MOST_CYCLES)} cycles` : "Watch the replay";
        const areShown = seated.every(robot => robot.source !== null);
        const ways = [replay ? made("a", {href: up + replay, class: "button"}, part) : null,
            areShown ? browserLink(all, seated, [seed, number, 1], "Open it in the browser's page") : null];
        return made("article", {class: "battle"}, made("h3", {}, what.charAt(0).toUpperCase() + what.slice(1)),
            made("p", {class: "ended"}, `Match ${number}, ${count(cycles)} cycles`),
            made("ol", {class: "seats"}, ...seats.map(seat => seatRow(seats, seat, rows))),
            ways.some(way => way) ? made("p", {class: "ways"}, ...ways) : null,
            areShown ? commandLine(all, seated, [seed, number, 1]) : null);
    }

    /** Returns the matches that are worth a look, and the ways to all others. */
    function matches(all, data, rows, pair) {
        const cards = pair.notable.map(one => card(all, data, rows, pair.names, one)), series = allMatches(all, data, pair);
        const [won, tied, lost] = pair.score, played = won + tied + lost, left = played - cards.length;
        const others = !cards.length ? "None of these matches was decided."
            : left ? `These are ${count(cards.length)} of ${count(played)} matches. The table above counts how the other ${count(left)} ended, too.` : "";
        const plays = "A command line plays its matches again, in a folder that has the site's folder ";
        return section("Matches", others ? made("p", {}, others) : null, cards.length ? made("div", {class: "battles"}, ...cards) : null,
            series.length ? made("h3", {}, "All matches") : null, ...series,
            cards.length + series.length ? made("p", {}, plays, made("code", {}, "sources"), ".") : null);
    }

    /** Returns the robots by their files, with their rows of the table. */
    function byFile(all) {
        return new Map(all.robots.map(([file, name], row) => [file, {name, row}]));
    }

    /** Returns the two robots that the address names, in the order of their files; null if it names none. */
    function asked() {
        const files = location.hash.slice(1).split("/");
        return files.length === 2 && files.every(file => FILE.test(file)) ? files.sort((a, b) => a < b ? -1 : 1) : null;
    }

    /** Returns the parts of the page of a pair; null if there is no such pair. */
    async function pairParts(all, rows, first, second) {
        const details = await load(first);
        if (!Object.hasOwn(details.pairs, second)) {
            return null;
        }
        const pair = between(first, second, details, rows);
        const others = pair.notable.flatMap(one => seatsOf(one[1], pair.names).map(seat => seat.file));
        const files = [...new Set([first, second, ...others])];
        const data = new Map(await Promise.all(files.map(async file => [file, await load(file)])));
        const [one, other] = [pair.one, pair.other].map(file => rows.get(file).name);
        document.title = `${one} against ${other}${document.title.slice(document.title.indexOf(" · "))}`;
        const heading = made("h1", {}, robotLink(pair.one, one), " against ", robotLink(pair.other, other));
        return [heading, scoreOf(pair, one, other), bySeat(pair, one, other), matches(all, data, rows, pair)].filter(part => part);
    }

    /** Shows the pair that the address names. */
    async function showPair(place) {
        const files = asked();
        const all = await load("");
        const rows = byFile(all);
        const found = files && files.every(file => rows.has(file)) ? await pairParts(all, rows, ...files) : null;
        const links = made("a", {href: `${up}map.html`}, "All pairs");
        place.replaceChildren(...found ?? [made("h1", {}, "Pair"), made("p", {}, "There is no such pair on this site. ", links)]);
        place.dataset.shown = location.hash;
    }

    /** Returns the rows of all opponents of a robot, in the order of the table. */
    function opponents(all, mine, file) {
        const there = all.robots.filter(([other]) => Object.hasOwn(mine.pairs, other));
        return there.map(([other, name]) => {
            const [score, [low, high]] = mine.pairs[other];
            const link = made("a", {href: pairPage(file, other)}, "matches", made("span", {class: "unseen"}, " against ", bdi(name)));
            return [robotLink(other, name), percent(share(score)), `${percent(low)} to ${percent(high)}`,
                ...score.slice(0, 3).map(count), parts(score, 80), link];
        });
    }

    /** Shows all opponents of a robot. */
    async function showOpponents(place) {
        const file = place.dataset.opponents;
        const [all, mine] = await Promise.all([load(""), load(file)]);
        const columns = [["Opponent", ""], ["Share", "number"], [INTERVAL, ""], ["Won", "number"], ["Tied", "number"],
            ["Lost", "number"], ["Results", ""], ["Pair", ""]];
        place.replaceChildren(table("All opponents, in the order of the table", columns, opponents(all, mine, file), "opponents"));
    }

    /** Returns the robots' files and names of a cell of the map. */
    function ofCell(cell) {
        const heads = [...cell.closest("tbody").rows].map(row => row.cells[0].querySelector("a"));
        const two = [heads[cell.parentNode.sectionRowIndex], heads[cell.cellIndex - 1]];
        return two.map(link => ({file: link.getAttribute("href").replace(/^.*\/|\.html$/g, ""), name: link.textContent}));
    }

    /** Lets each cell of the map lead to its pair, and name it. */
    function leadCells(map) {
        const cellOf = event => event.target.closest("td[class^=h]");
        map.addEventListener("click", event => {
            const cell = cellOf(event);
            if (cell) {
                location.href = pairPage(...ofCell(cell).map(robot => robot.file));
            }
        });
        map.addEventListener("mouseover", event => {
            const cell = cellOf(event);
            if (cell && !cell.title) {
                cell.title = ofCell(cell).map(robot => robot.name).join(" against ");
            }
        });
    }

    /** Says what went wrong in the place where it should be shown. */
    function failed(place) {
        return why => place.replaceChildren(made("h1", {}, "Pair"), made("p", {}, `This page can't be shown: ${why.message}.`));
    }

    const pair = document.getElementById("pair");
    if (pair) {
        const show = () => showPair(pair).catch(failed(pair));
        addEventListener("hashchange", show);
        show();
    }
    document.querySelectorAll("[data-opponents]").forEach(place => {
        place.closest("details").addEventListener("toggle", () => showOpponents(place).catch(why => place.replaceChildren(`${why.message}.`)), {once: true});
    });
    document.querySelectorAll("[data-map]").forEach(leadCells);
    return {take, count, percent, share, turned};
})();
