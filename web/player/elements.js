// Elements of the page.

/**
 * The element of the page with this name. What it is stands in the page, so its members aren't checked.
 * @type {(id: string) => any}
 */
export const element = id => document.getElementById(id);
/** A whole number with commas. The browser's own way takes long the first time. */
export const shown = number => `${number}`.replace(/\B(?=(\d{3})+$)/g, ",");

/** Makes an element with a class and a text. */
export function made(tag, name = "", text = "") {
    const it = document.createElement(tag);
    it.className = name;
    it.textContent = text;
    return it;
}
