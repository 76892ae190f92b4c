// Texts of HTML and SVG.

const ESCAPES = {"&": "&amp;", "<": "&lt;", ">": "&gt;", '"': "&quot;"};

export function escaped(text) {
    return String(text).replace(/[&<>"]/g, (it) => ESCAPES[it]);
}

/** An element with these attributes, whose values are escaped, and this content, which is not. An attribute of null, false or no text is left out. */
export function tag(name, attributes, ...content) {
    const given = Object.entries(attributes).filter(([, value]) => value !== null && value !== false && value !== "");
    return `<${name}${given.map(([key, value]) => ` ${key}="${escaped(value)}"`).join("")}>${content.join("")}</${name}>`;
}

/** The names of classes whose value is true, as an attribute has them. */
export function classes(named) {
    return Object.keys(named).filter((it) => named[it]).join(" ");
}
