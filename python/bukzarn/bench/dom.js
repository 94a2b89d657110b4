// Small helpers around the document.

export const $ = (id) => document.getElementById(id);

export function element(name, attributes, ...children) {
    const made = document.createElement(name);
    Object.assign(made, attributes);
    made.append(...children);
    return made;
}

// A text in its place, which is not shown without one.
export function put(id, text) {
    $(id).textContent = text;
    $(id).hidden = !text;
}

export function count(n, word) {
    return `${n.toLocaleString("en")} ${word}${n === 1 ? "" : "s"}`;
}
