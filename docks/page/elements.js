// Elements of the page: found, and made.

export const find = (id) => document.getElementById(id);

/** Makes an element inside another. */
export function add(parent, tag, className = "", text = "") {
    const element = document.createElement(tag);
    element.className = className;
    element.textContent = text;
    return parent.appendChild(element);
}
