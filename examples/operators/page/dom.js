// Elements of the page. Text gets into it as text alone, so nothing that a site says is markup.

const SVG = "http://www.w3.org/2000/svg";

function filled(element, attributes, children) {
    for (const [name, value] of Object.entries(attributes)) element.setAttribute(name, value);
    element.append(...children);
    return element;
}

/** Returns an element with attributes and children, which are elements or text. */
export const make = (name, attributes = {}, ...children) =>
    filled(document.createElement(name), attributes, children);

/** Returns an element of a picture. */
export const draw = (name, attributes = {}, ...children) =>
    filled(document.createElementNS(SVG, name), attributes, children);

/** Puts children in the place of those that an element of the page has, by its id. */
export const put = (id, ...children) => document.getElementById(id).replaceChildren(...children);
