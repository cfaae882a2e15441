// Elements of the page.

/**
 * The element with this name. What it is stands in the page, so its members aren't checked.
 * @type {(id: string) => any}
 */
export const byId = id => document.getElementById(id);

/**
 * Makes an element with a text and a class.
 * @type {(tag: string, text?: any, name?: string) => any}
 */
export const made = (tag, text = "", name = "") => Object.assign(document.createElement(tag), {textContent: text, className: name});
