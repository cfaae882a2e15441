// The cards of the robots.
import {made, shown} from "./elements.js";

/** The cards of the robots: name, bar of damage, and how it moves. The number of one chooses the robot. */
export class Cards {
    constructor(list, match, choose) {
        this.cards = match.robots.map(robot => this.#card(list, robot, choose));
    }

    /** Marks the chosen robot; none has the number 0. */
    mark(chosen) {
        this.cards.forEach(({button}, at) => button.setAttribute("aria-pressed", `${at + 1 === chosen}`));
    }

    #card(list, {number, name}, choose) {
        const card = made("li");
        card.style.setProperty("--colour", `var(--robot-${number})`);
        const [bar, fill] = [made("span", "bar"), made("i")];
        const [percent, state] = [made("span", "percent"), made("span", "state")];
        const parts = [made("span"), made("span")];
        bar.append(fill);
        state.append(...parts);
        bar.setAttribute("role", "meter");
        bar.setAttribute("aria-label", `damage of ${number}) ${name}`);
        bar.setAttribute("aria-valuemin", "0");
        bar.setAttribute("aria-valuemax", "100");
        const button = made("button", "number", `${number}`);
        button.type = "button";
        button.title = `only hits and restarts of this robot (${number})`;
        button.setAttribute("aria-label", `only hits and restarts of ${number}) ${name}`);
        button.setAttribute("aria-pressed", "false");
        button.addEventListener("click", () => choose(number));
        card.append(button, made("span", "name", name), percent, bar, state);
        list.append(card);
        return {card, button, bar, fill, percent, parts, damage: -1};
    }

    show(moment) {
        moment.robots.forEach((robot, at) => {
            const card = this.cards[at];
            if (card.damage !== robot.damage) this.#damage(card, robot.damage);
            card.card.classList.toggle("dead", robot.dead);
            this.#parts(robot).forEach((part, row) => {
                if (card.parts[row].textContent !== part) card.parts[row].textContent = part;
            });
        });
    }

    #damage(card, damage) {
        card.damage = damage;
        card.percent.replaceChildren(made("small", "", "damage "), `${damage}%`);
        card.fill.style.width = `${damage}%`;
        card.bar.setAttribute("aria-valuenow", `${damage}`);
        card.bar.setAttribute("aria-valuetext", `${damage} percent`);
    }

    /** Where a robot is; how it moves, and how often it restarted. */
    #parts({dead, x, y, heading, speed, restarts}) {
        const way = speed ? [`${heading}°`, `speed ${speed}`] : ["stands"];
        const often = restarts ? [restarts === 1 ? "1 restart" : `${shown(restarts)} restarts`] : [];
        const place = dead ? "dead" : `${Math.floor(x / 10)}, ${Math.floor(y / 10)} m`;
        return [place, [...(dead ? [] : way), ...often].join(" · ")];
    }
}
