// The picture of a machine, as SVG.

import {changedRows, titleOf} from "./objects.mjs";
import {ROW, TITLE, WIDTH} from "./layout.mjs";
import {classes, escaped, tag} from "./markup.mjs";

const LETTERS = 21, HUES = 7;

function shortened(text, letters = LETTERS) {
    return text.length > letters ? `${text.slice(0, letters - 1)}…` : text;
}

function frame({bank, x, y, width, height, nest}) {
    return tag("rect", {class: "frame", "data-bank": bank, "data-nest": nest, x, y, width, height, rx: 8});
}

/** A line of a box: its label, and its text. */
function rowText({label, text}, at, changed) {
    const y = TITLE + ROW * at, said = text && shortened(text, LETTERS - label.length - 1);
    const mark = changed ? tag("rect", {class: "fresh", x: 1, y, width: WIDTH - 2, height: ROW}) : "";
    const words = [tag("tspan", {class: "label"}, escaped(label)), " ", escaped(said)];
    return mark + tag("text", {class: classes({row: true, changed}), x: 7, y: y + 11}, ...words);
}

function title({object}) {
    return object.kind === "bank" ? shortened(`bank ${object.number}: ${object.used} of ${object.limit}`) : titleOf(object);
}

/** What a screen reader says of a box. */
function described({object}, marks) {
    const rows = object.rows.map((it) => `${it.label} ${it.text}`.trim()).join(", ");
    return [title({object}), `owner bank ${object.owner}`, rows, ...marks].filter(Boolean).join("; ");
}

function box(it, {before, changed, reached, selected}) {
    const {object, number, x, y, height} = it, isChanged = changed.has(number), isReached = reached?.has(number) ?? false;
    const fresh = before.has(number) ? changedRows(before.get(number), object) : new Set(object.rows.map((row) => row.key));
    const marks = [isChanged && "changed", isReached && "in reach"].filter(Boolean);
    const rows = it.shown.map((row, at) => rowText(row, at, isChanged && fresh.has(row.key)));
    if (it.more) rows.push(rowText({label: "…", text: `${it.more} more`}, it.shown.length, false));
    const kinds = {object: true, [object.kind]: true, changed: isChanged, reached: isReached, unreached: reached && !isReached, selected: selected === number};
    const given = {class: classes(kinds), "data-number": number, tabindex: 0, role: "button", transform: `translate(${x} ${y})`};
    return tag("g", {...given, "aria-label": described(it, marks)},
        tag("rect", {class: "body", width: WIDTH, height, rx: object.kind === "process" ? 11 : 3}),
        tag("text", {class: "title", x: 7, y: 15}, escaped(title(it))),
        isChanged ? tag("text", {class: "star", x: WIDTH - 14, y: 15}, "✱") : "", ...rows);
}

function net({to, access, side, sources, segments, joints, tip}) {
    const [x, y] = tip, back = side === "left" ? -7 : 7, from = [...new Set(sources.map((it) => it.from.number))];
    const lines = segments.map(([x1, y1, x2, y2]) => `M${x1} ${y1}L${x2} ${y2}`).join("");
    const dots = joints.map(([cx, cy]) => tag("circle", {cx, cy, r: 2}));
    return tag("g", {class: `net ${access} hue${to.number % HUES}`, "data-to": to.number, "data-from": from.join(" ")},
        tag("path", {class: "line", d: lines}), tag("path", {class: "tip", d: `M${x} ${y}l${back} -4v8z`}), ...dots);
}

/** The picture of a layout. `marks` has what is changed since `before`, what is in reach or null, and what is selected. */
export function draw({width, height, boxes, frames, nets}, marks) {
    const nested = [...frames].sort((a, b) => b.nest - a.nest);
    const name = `${boxes.length} objects and their capabilities; the list below says the same in words`;
    return tag("svg", {width, height, viewBox: `0 0 ${width} ${height}`, role: "group", "aria-label": name},
        ...nested.map(frame), ...nets.map(net), ...boxes.map((it) => box(it, marks)));
}
