// Where the objects of a picture lie, and how its arrows run. Objects lie in columns, and each bank's frame surrounds what it owns.
//
// Arrows run on three kinds of tracks, so that none crosses a box: up and down in the channels between columns, across a column on a
// track of its own, and from a row of a box into the channel beside it. All arrows to one object with one access are a net: they join.

export const WIDTH = 156, TITLE = 22, ROW = 14, MOST_ROWS = 12;
const GAP = 10, TRACK = 7, MARGIN = 8, PAD = 8, LAST_COLUMN = 6, PASSES = 10;
// Where a net enters the box, below its top, and where a track runs. All differ modulo ROW from those of the next columns and of rows.
const ENTRIES = {full: 6, ro: 11, weak: 16}, TRACK_AT = 5;

// ---- boxes, links and columns

function boxOf(object) {
    const isBank = object.kind === "bank", shown = isBank ? [] : object.rows.slice(0, MOST_ROWS);
    const more = object.rows.length - shown.length;
    const height = TITLE + (isBank || !object.rows.length ? 0 : ROW * (shown.length + (more > 0)) + 4);
    return {number: object.number, object, shown, more: isBank ? 0 : more, height, column: object.kind === "process" ? 0 : 1, links: []};
}

/** The capabilities that name a box: {from, to, row, access}. Rows that aren't shown leave from the line that counts them. */
function linksOf(boxes) {
    const found = [];
    for (const from of boxes.values()) {
        from.object.rows.forEach((row, at) => {
            const to = boxes.get(row.capability?.names);
            if (to) found.push({from, to, row: Math.min(at, MOST_ROWS), access: row.capability.access});
        });
    }
    for (const it of found) {
        it.from.links.push(it);
        if (it.to !== it.from) it.to.links.push(it);
    }
    return found;
}

/** The links without those that close a ring, found by a walk in the order of numbers. */
function withoutRings(boxes, links) {
    const below = new Map([...boxes.values()].map((it) => [it, []])), state = new Map(), kept = [];
    for (const it of links) if (it.from.object.kind !== "process" && it.to.object.kind !== "process") below.get(it.from).push(it);
    const walk = (box) => {
        state.set(box, "open");
        for (const it of below.get(box)) {
            if (state.get(it.to) === "open") continue;
            kept.push(it);
            if (!state.has(it.to)) walk(it.to);
        }
        state.set(box, "done");
    };
    for (const it of boxes.values()) if (!state.has(it)) walk(it);
    return kept;
}

/** Processes lie in column 0, and what others hold at least one column further. */
function setColumns(boxes, links) {
    const kept = withoutRings(boxes, links);
    for (let changed = true; changed;) {
        changed = false;
        for (const {from, to} of kept) {
            const column = Math.min(from.column + 1, LAST_COLUMN);
            if (to.column < column) [to.column, changed] = [column, true];
        }
    }
    const last = Math.max(2, ...[...boxes.values()].map((it) => it.column));
    const alone = [...boxes.values()].filter((it) => !it.links.length && it.object.kind !== "process" && it.object.kind !== "bank");
    alone.forEach((it, at) => (it.column = at % (last + 1)));
}

// ---- frames

/** The frame of each bank, and the frames that lie in no other. */
function framesOf(boxes) {
    const frames = new Map();
    for (const {number, object} of boxes.values()) {
        if (object.kind === "bank") frames.set(number, {bank: number, plate: boxes.get(number), columns: new Map(), children: [], above: null});
    }
    const roots = [];
    for (const it of frames.values()) {
        const above = frames.get(it.plate.object.owner);
        if (above && above !== it) [it.above] = [above, above.children.push(it)];
        else roots.push(it);
        it.plate.frame = it;
    }
    for (const it of boxes.values()) {
        if (it.object.kind === "bank") continue;
        it.frame = frames.get(it.object.owner);
        put(it.frame, it);
    }
    return {frames, roots};
}

function put(frame, item) {
    if (!frame.columns.has(item.column)) frame.columns.set(item.column, []);
    frame.columns.get(item.column).push(item);
}

function ancestors(frame) {
    return frame ? [frame, ...ancestors(frame.above)] : [];
}

/** The innermost frame around all of these. */
function common(frames) {
    const [first, ...rest] = frames.map(ancestors);
    return first.find((it) => rest.every((others) => others.includes(it)));
}

/** Finds the columns of a frame and all in it, and how deep frames are nested in it. */
function measure(frame) {
    frame.children.forEach(measure);
    const columns = [frame.plate.column, ...frame.columns.keys(), ...frame.children.flatMap((it) => [it.least, it.most])];
    [frame.least, frame.most] = [Math.min(...columns), Math.max(...columns)];
    frame.nest = frame.children.length ? 1 + Math.max(...frame.children.map((it) => it.nest)) : 0;
    frame.pad = PAD + 7 * frame.nest;
}

// ---- nets

/** The nets. Each enters its box on the left, or on the right if it comes from columns further right. */
function netsOf(links) {
    const found = new Map();
    for (const it of links) {
        const side = it.from.column > it.to.column ? "right" : "left", key = `${it.to.number} ${it.access} ${side}`;
        if (!found.has(key)) found.set(key, {to: it.to, access: it.access, side, sources: [], tracks: new Map(), segments: [], joints: []});
        found.get(key).sources.push(it);
    }
    return [...found.values()];
}

/** Gives a net a track in each column that it crosses. */
function addTracks(net) {
    const columns = net.sources.map((it) => it.from.column), to = net.to.column;
    const [begin, end] = net.side === "left" ? [Math.min(...columns) + 1, to] : [to + 1, Math.max(...columns)];
    const frame = common([net.to.frame, ...net.sources.map((it) => it.from.frame)]);
    for (let column = begin; column < end; column++) {
        const track = {net, column, height: ROW - GAP, frame};
        net.tracks.set(column, track);
        put(frame, track);
    }
}

/** The points of a net in the channel left of a column: {side, y}; `side` says which end of the channel it lies at. */
function pointsIn(net, channel) {
    const points = [], exits = net.side === "left" ? channel - 1 : channel, to = net.to.column;
    const exit = (column, side) => {
        for (const it of net.sources) if (it.from.column === column) points.push({side, y: rowAt(it), source: it});
    };
    exit(exits, net.side === "left" ? "begin" : "end");
    // Sources in the target's own column leave on the left too.
    if (net.side === "left" && channel === to) exit(to, "end");
    for (const [column, side] of [[channel - 1, "begin"], [channel, "end"]]) {
        const track = net.tracks.get(column);
        if (track) points.push({side, y: track.y + TRACK_AT});
    }
    if (channel === (net.side === "left" ? to : to + 1)) points.push({side: net.side === "left" ? "end" : "begin", y: entry(net)});
    return points;
}

function rowAt({from, row}) {
    return from.y + TITLE + ROW * row + ROW / 2;
}

function entry(net) {
    return net.to.y + ENTRIES[net.access];
}

/** The channels that a net has points in. */
function channelsOf(net) {
    const columns = net.sources.map((it) => it.from.column), to = net.to.column;
    const [begin, end] = net.side === "left" ? [Math.min(to, Math.min(...columns) + 1), to] : [to + 1, Math.max(...columns)];
    return Array.from({length: end - begin + 1}, (_, it) => begin + it);
}

// ---- heights

/** Tops lie at multiples of ROW, shifted in every other column, so that no two horizontal lines of a channel coincide. */
function snapped(y, column) {
    const shift = (column % 2) * (ROW / 2);
    return Math.ceil((y - shift) / ROW) * ROW + shift;
}

/** Puts a frame and all in it below y. */
function stack(frame, y) {
    const {plate} = frame, ends = new Map();
    plate.y = snapped(y, plate.column);
    frame.y = plate.y + TITLE / 2;
    const begin = (column) => ends.get(column) ?? frame.y + PAD + 2;
    ends.set(plate.column, plate.y + TITLE + GAP);
    for (const [column, items] of frame.columns) {
        for (const it of items) {
            it.y = snapped(begin(column), column);
            ends.set(column, it.y + it.height + GAP);
        }
    }
    for (const child of frame.children) {
        const columns = Array.from({length: child.most - child.least + 1}, (_, it) => child.least + it);
        stack(child, Math.max(...columns.map(begin)));
        for (const it of columns) ends.set(it, child.end + GAP);
    }
    frame.end = Math.max(frame.y + 30, ...ends.values());
}

function stackAll(roots) {
    let y = MARGIN;
    for (const it of roots) {
        stack(it, y);
        y = it.end + GAP;
    }
    return y;
}

/** The mean height of what an item is linked with; its own if there is nothing. */
function wanted(item) {
    const links = item.net?.sources ?? item.links, ys = [];
    for (const it of links) {
        if (it.from !== item) ys.push(rowAt(it));
        if (it.to !== item) ys.push(it.to.y);
    }
    return ys.length ? ys.reduce((sum, it) => sum + it) / ys.length : Infinity;
}

function spread(nets) {
    return nets.reduce((sum, net) => sum + net.sources.reduce((sum, it) => sum + Math.abs(rowAt(it) - entry(net)), 0), 0);
}

/** Orders the items of each column so that arrows become short, and returns the height of the picture. */
function order(frames, roots, nets) {
    let best = Infinity, kept = null, height = stackAll(roots);
    const keep = () => [...frames.values()].map((it) => new Map([...it.columns].map(([column, items]) => [column, [...items]])));
    for (let pass = 0; pass < PASSES; pass++) {
        const cost = spread(nets);
        if (cost < best) [best, kept] = [cost, keep()];
        for (const {columns} of frames.values()) {
            for (const items of columns.values()) {
                const place = new Map(items.map((it) => [it, wanted(it)]));
                items.sort((a, b) => place.get(a) - place.get(b) || (a.number ?? a.net.to.number) - (b.number ?? b.net.to.number));
            }
        }
        height = stackAll(roots);
    }
    if (spread(nets) >= best) {
        [...frames.values()].forEach((it, at) => (it.columns = kept[at]));
        height = stackAll(roots);
    }
    return height;
}

// ---- widths and routes

/** Gives each net of a channel a lane, so that no two of one lane overlap. Returns the number of lanes. */
function setLanes(channel, nets) {
    const spans = [], ends = [];
    for (const net of nets) {
        const points = pointsIn(net, channel), ys = points.map((it) => it.y);
        spans.push({net, points, low: Math.min(...ys), high: Math.max(...ys)});
    }
    spans.sort((a, b) => a.low - b.low || a.high - b.high);
    for (const it of spans) {
        const free = ends.findIndex((end) => end + 4 < it.low);
        it.lane = free < 0 ? ends.length : free;
        ends[it.lane] = it.high;
    }
    return {spans, lanes: ends.length};
}

/** Lays the channels and columns out from left to right. */
function setPlaces(count, nets, pad) {
    const channels = [], columns = [];
    let x = MARGIN;
    for (let it = 0; it <= count; it++) {
        const {spans, lanes} = setLanes(it, nets.filter((net) => channelsOf(net).includes(it)));
        const begin = x + (it > 0 ? pad + 6 : 0);
        channels.push({spans, begin: x, lane: (lane) => begin + 4 + TRACK * lane});
        x = begin + TRACK * lanes + (lanes ? 12 : 4) + (it < count ? pad : 0);
        channels[it].end = x;
        if (it < count) {
            columns.push(x);
            x += WIDTH;
        }
    }
    return {channels, columns, width: x + MARGIN};
}

/** Draws the lines of the nets in a channel. */
function route({spans, begin, end, lane}) {
    for (const {net, points, low, high, lane: number} of spans) {
        const x = lane(number), isEnd = (it) => it.y === low || it.y === high;
        if (high > low) net.segments.push([x, low, x, high]);
        for (const it of points) {
            net.segments.push([it.side === "begin" ? begin : x, it.y, it.side === "begin" ? x : end, it.y]);
            if (!isEnd(it) || points.filter((other) => other.y === it.y).length > 1 && high > low) net.joints.push([x, it.y]);
        }
    }
}

/** The layout of a map of objects: {width, height, boxes, frames, nets}. */
export function layOut(objects) {
    const boxes = new Map([...objects.values()].filter((it) => it.kind !== "annex").map((it) => [it.number, boxOf(it)]));
    const links = linksOf(boxes);
    setColumns(boxes, links);
    const {frames, roots} = framesOf(boxes), nets = netsOf(links);
    nets.forEach(addTracks);
    roots.forEach(measure);
    const height = order(frames, roots, nets) + MARGIN;
    const count = 1 + Math.max(...[...boxes.values()].map((it) => it.column)), pad = Math.max(...roots.map((it) => it.pad));
    const {channels, columns, width} = setPlaces(count, nets, pad);
    channels.forEach(route);
    for (const it of boxes.values()) [it.x, it.width] = [columns[it.column], WIDTH];
    for (const net of nets) {
        for (const it of net.tracks.values()) {
            const x = columns[it.column];
            net.segments.push([x, it.y + TRACK_AT, x + WIDTH, it.y + TRACK_AT]);
        }
        net.tip = [net.to.x + (net.side === "left" ? 0 : WIDTH), entry(net)];
    }
    for (const it of frames.values()) {
        it.x = columns[it.least] - it.pad;
        it.width = columns[it.most] + WIDTH + it.pad - it.x;
        it.height = it.end - it.y;
    }
    return {width, height, boxes: [...boxes.values()], frames: [...frames.values()], nets};
}
