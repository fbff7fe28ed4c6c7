"use strict";
const path = JSON.parse(document.getElementById("data").textContent);
const last = path.places.length - 1;
let at = 0, asked = false;

const element = id => document.getElementById(id);
const listed = numbers => numbers.join(" ") || "none";
const same = (a, b) => listed(a) === listed(b);

/* Names come from files, so nothing in them may become a tag. */
const plain = words => words.replace(/[&<>"]/g, sign => `&#${sign.charCodeAt(0)};`);

/* An index with its strategy's name, if that is more than its number in the block. */
const blockOf = path.sizes.flatMap((size, block) => Array(size).fill(block));
const inBlock = path.sizes.flatMap(size => [...Array(size).keys()]);
const strategy = index => path.strategies[index] ?? "";
const named = path.strategies.some((name, index) => name !== String(inBlock[index] + 1));
const cut = (words, most) => words.length > most ? words.slice(0, most - 1) + "\u2026" : words;
const nameOf = (index, most) => named ? `${index + 1} ${cut(strategy(index), most)}` : `index ${index + 1}`;

/* Words in which no point is broken over two lines. */
const whole = words => words.replace(/(\d) (?=\d)/g, "$1\u00a0");

/* The move from a place in words, the points that it brings in and takes out, and whether it is shown by now. */
const words = place => whole(path.moves[place].words);
const moved = place => [[path.moves[place].in, IN], [path.moves[place].out, OUT]].filter(([point]) => point);
const previewShown = () => at < last && (asked || !element("guess").checked);

/* Colours, and the parts of pictures. */
const HERE = "#1f6fb2", BEFORE = "#b9cfe2", IN = "#117a54", OUT = "#b4441c", END = "#117a54", START = "#1d2329";
const LABELS = [
    "#0f5c96", "#b3541e", "#1b7a50", "#8a3f7c", "#0000ff", "#1e0f00", "#1e69ff", "#c300d2",
    "#e1005a", "#000069", "#787800", "#87695a", "#008700", "#e10000", "#69001e", "#1e0f3c",
];
const colour = label => label ? LABELS[label - 1] : "#667078";
const faint = colour => colour + "50";
const tag = (name, attributes, inside = "") =>
    `<${name} ${Object.entries(attributes).map(([key, value]) => `${key}="${value}"`).join(" ")}>${inside}</${name}>`;
const text = (x, y, words, style = "") => tag("text", { x, y, class: style }, words);
const line = ([a, b]) => tag("line", { x1: a[0], y1: a[1], x2: b[0], y2: b[1], stroke: "#d5dadd" });
const box = (x, y, width, height, fill, more = {}) => tag("rect", { x, y, width, height, fill, ...more });
const shape = (corners, stroke, width) => tag("polygon",
    { points: corners.join(" "), fill: faint(stroke), stroke, "stroke-width": width, "stroke-linejoin": "round" });
const ring = ([cx, cy], r, stroke, dashes = "none") =>
    tag("circle", { cx, cy, r, fill: "none", stroke, "stroke-width": 3, "stroke-dasharray": dashes });
const dashed = corners => tag("polyline",
    { points: corners.join(" "), fill: "none", stroke: HERE, "stroke-width": 1.5, "stroke-dasharray": "5 4" });
const mean = corners => [0, 1].map(k => corners.reduce((sum, corner) => sum + corner[k], 0) / corners.length);
const picture = (width, height, parts) => tag("svg", {
    viewBox: `0 0 ${width} ${height}`, class: plane ? "plane" : "bars", role: "img", "aria-label": plain(described()),
}, parts.join(""));

/* A label is told by its number, and by its shape where a number has no room. */
const SHAPES = [
    (x, y, r, fill) => tag("circle", { cx: x, cy: y, r, fill }),
    (x, y, r, fill) => box(x - r, y - r, 2 * r, 2 * r, fill),
    (x, y, r, fill) => tag("polygon", { points: `${x},${y - r} ${x + r},${y + r} ${x - r},${y + r}`, fill }),
    (x, y, r, fill) => tag("polygon", { points: `${x},${y - r} ${x + r},${y} ${x},${y + r} ${x - r},${y}`, fill }),
];
const dot = (x, y, r, label) => r >= 8
    ? SHAPES[0](x, y, r, colour(label)) + text(x, y + 4.5, label || "?", "light")
    : label ? SHAPES[(label - 1) % SHAPES.length](x, y, r, colour(label)) : ring([x, y], r / 2, colour(label));

/* What the picture shows, for those who hear it. */
function described() {
    const { points, labels, t, u } = path.places[at];
    const told = points.map((point, k) => `${listed(point)} with label ${labels[k] || "not yet known"}`);
    const parts = [`Place ${at + 1} of ${last + 1}`, `points ${told.join(", ")}`, `T ${listed(t)}`, `U ${listed(u)}`];
    if (previewShown()) parts.push(`coming: ${path.moves[at].words}`);
    const vertices = path.end.vertices.map(listed).join(", ");
    if (at === last) parts.push(`a ${path.end.kind} end for block ${path.end.block}: ${vertices}`);
    return parts.join("; ");
}

/* The grids that are a segment, a triangle or a square: where points and grid lines are, and names beside corners. */
const [d, e] = path.divisions;
const steps = division => [...Array(division + 1).keys()]
    .filter(k => k === division || k % Math.ceil(division / 40) === 0);
const PLANES = {
    "2": () => ({
        height: 130, spacing: 560 / d, at: y => [40 + 560 * y[0] / d, 75],
        lines: [[[d, 0], [0, d]]],
        names: [[0, [d, 0], 0, -34], [1, [0, d], 0, -34]],
    }),
    "3": () => ({
        height: 560, spacing: 540 / d, at: y => [50 + 540 * (y[1] + y[2] / 2) / d, 510 - 467 * y[2] / d],
        lines: steps(d).flatMap(k => [
            [[k, d - k, 0], [k, 0, d - k]], [[d - k, k, 0], [0, k, d - k]], [[d - k, 0, k], [0, d - k, k]],
        ]),
        names: [[0, [d, 0, 0], 0, 40], [1, [0, d, 0], 0, 40], [2, [0, 0, d], 0, -28]],
    }),
    "2 2": () => ({
        height: 600, spacing: 520 / Math.max(d, e), at: y => [96 + 520 * y[0] / d, 544 - 520 * y[2] / e],
        lines: [
            ...steps(d).map(k => [[k, d - k, 0, e], [k, d - k, e, 0]]),
            ...steps(e).map(k => [[0, d, k, e - k], [d, 0, k, e - k]]),
        ],
        names: [
            [0, [d, 0, 0, e], 0, 42], [1, [0, d, 0, e], 0, 42],
            [2, [0, d, e, 0], -52, 5], [3, [0, d, 0, e], -52, 5],
        ],
    }),
};
const plane = PLANES[path.sizes.join(" ")]?.();
const labelled = plane && plane.spacing >= 12 && path.table.length > 0;

function planePicture() {
    const radius = Math.min(13, plane.spacing * 0.3), away = Math.max(radius + 5, 7);
    const corners = points => points.map(plane.at);
    const simplex = (points, stroke, width) =>
        points.length > 1 ? shape(corners(points), stroke, width) : ring(plane.at(points[0]), away, stroke);
    const parts = plane.lines.map(ends => line(corners(ends)));
    parts.push(...path.places.slice(0, at).map(place => shape(corners(place.points), BEFORE, 1.5)));
    parts.push(simplex(path.places[at].points, HERE, 5));
    if (at === last) parts.push(simplex(path.end.vertices, END, 7));
    const walked = path.places.slice(0, at + 1).map(place => mean(corners(place.points)));
    parts.push(dashed(walked));
    if (labelled) parts.push(...path.table.map(([point, label]) => dot(...plane.at(point), radius, label)));
    parts.push(ring(plane.at(path.start), away + 5, START, "2 5"));
    if (previewShown()) parts.push(...moved(at).map(([point, stroke]) => ring(plane.at(point), away, stroke)));
    parts.push(...plane.names.map(([index, point, x, y]) =>
        text(plane.at(point)[0] + x, plane.at(point)[1] + y, plain(nameOf(index, 11)), "quiet")));
    return picture(660, plane.height, parts);
}

/* Every other grid: a row of bars for each point of the place, and for one that the shown move brings in. Where the
   indices do not fit beside each other, a block goes on in the next line, so that nothing gets smaller. */
const TALL = 46, LINE = TALL + 24, HEAD = 44, LEFT = 60, GAP = 12;
let wide = 34, spots = [], lines = 1, drawn = 0;

function layOut(width) {
    const free = width - LEFT - GAP * (path.sizes.length - 1);
    wide = Math.min(Math.max(Math.floor(free / blockOf.length), 28), 34);
    const fits = x => x + wide <= Math.max(width, LEFT + 4 * wide);
    let x = LEFT, line = 0;
    spots = blockOf.map((block, index) => {
        const begins = index > 0 && inBlock[index] === 0;
        if (begins) x += GAP;
        const needed = inBlock[index] === 0 ? x + (path.sizes[block] - 1) * wide : x;
        if (!fits(x) || (begins && !fits(needed))) [x, line] = [LEFT, line + 1];
        const here = { x, line };
        x += wide;
        return here;
    });
    lines = line + 1;
    drawn = Math.max(...spots.map(spot => spot.x)) + wide;
}

function bars(point, above, y) {
    return point.map((number, index) => {
        const x = spots[index].x, top = y + spots[index].line * LINE;
        const filled = TALL * number / path.divisions[blockOf[index]];
        const fill = number > above[index] ? IN : number < above[index] ? OUT : "#7da7cb";
        return box(x, top, wide - 8, TALL, "#eef1f2") + box(x, top + TALL - filled, wide - 8, filled, fill)
            + text(x + wide / 2 - 4, top + TALL + 15, number);
    });
}

function barPicture() {
    layOut(element("picture").clientWidth || 640);
    const { points, labels, t, u } = path.places[at];
    const rows = points.map((point, k) => [point, labels[k] || "?", colour(labels[k]), points[Math.max(k - 1, 0)]]);
    const marked = at === last ? path.end.vertices.map(vertex => [vertex, END]) : previewShown() ? moved(at) : [];
    const coming = previewShown() && path.moves[at].in;
    if (coming) rows.push([coming, "in", IN, coming]);
    const parts = blockOf.map((_, index) => {
        const { x, line } = spots[index], y = line * HEAD;
        return text(x + wide / 2 - 4, y + 16, index + 1)
            + text(x + wide / 2 - 4, y + 33, t.includes(index + 1) ? "T" : u.includes(index + 1) ? "U" : "", "quiet");
    });
    const top = lines * HEAD + 4, apart = lines * LINE + 6;
    rows.forEach(([point, name, fill, above], row) => {
        const y = top + row * apart;
        parts.push(box(10, y + 13, 40, 22, fill, { rx: 4 }), text(30, y + 29, name, "light"), ...bars(point, above, y));
        for (const [, stroke] of marked.filter(([other]) => same(other, point)))
            parts.push(box(4, y - 4, drawn, lines * LINE - 1, "none", { rx: 5, stroke, "stroke-width": 2 }));
    });
    const width = Math.max(drawn + 8, Math.min(element("picture").clientWidth || 640, 640));
    return picture(width, top + rows.length * apart, parts);
}

const KEYS = plane ? [
    [HERE, "the present place"], [BEFORE, "places before"], [IN, "comes in, or the end"], [OUT, "goes out"],
    [START, "dotted: the start"],
] : [
    ["#7da7cb", "a coordinate"], [IN, "one more than in the row above, comes in, or the end"],
    [OUT, "one less, or goes out"],
];

function badge(label) {
    return tag("span", { class: "label", style: `background: ${colour(label)}` }, label || "?");
}

function show() {
    const place = path.places[at];
    element("picture").innerHTML = plane ? planePicture() : barPicture();
    element("place").textContent = `Place ${at + 1} of ${last + 1}`;
    element("came").textContent = at ? `Reached by ${words(at - 1)}.` : "The start.";
    element("t").textContent = listed(place.t);
    element("u").textContent = listed(place.u);
    element("read").textContent = place.labels_read;
    element("points").innerHTML = place.points
        .map((point, k) => `<tr><td>${listed(point)}</td><td>${badge(place.labels[k])}</td></tr>`).join("");
    element("coming").hidden = at === last;
    element("preview").textContent =
        previewShown() ? `By ${words(at)}.` : "What comes in, what goes out, and by which rule?";
    element("ask").hidden = previewShown();
    element("ended").hidden = at < last;
    element("back").disabled = element("first").disabled = at === 0;
    element("forward").disabled = element("last").disabled = at === last;
    element("slider").value = at + 1;
    [...element("rows").rows].forEach((row, k) => {
        row.classList.toggle("here", k === at);
        row.hidden = element("guess").checked && k > at;
        row.tabIndex = k === at ? 0 : -1;
        row.ariaCurrent = k === at ? "step" : null;
    });
    element("scroll").scrollTop = element("rows").rows[at].offsetTop - element("scroll").clientHeight / 2;
}

function go(place) {
    at = Math.min(Math.max(place, 0), last);
    asked = false;
    show();
}

element("grid").textContent =
    `sizes ${listed(path.sizes)}, divisions ${listed(path.divisions)}, start ${listed(path.start)}`;
element("key").innerHTML = KEYS
    .map(([fill, name]) => `<span><i style="background: ${fill}"></i>${name}</span>`).join("");
element("names").textContent = named || path.players.length ? path.players.map((player, block) => {
    const own = blockOf.flatMap((other, index) => other === block ? [`${index + 1} ${strategy(index)}`] : []);
    return `${player}: ${own.join(", ")}`;
}).join("; ") : "";
const grid = `the grid has ${path.points.toLocaleString("en")} points`;
element("left-out").textContent = !plane || labelled ? ""
    : `Labels are left out of the picture, since ${grid}; those of the present place stand beside their points.`;
element("counted").textContent = `${path.end.places} places, ${path.end.labels_read} labels read.`;
element("centre").textContent = listed(path.centre);
element("kind").textContent = `The path ends: a ${path.end.kind} end, complete for block ${path.end.block}`;
element("vertices").innerHTML = path.end.vertices.map(vertex => `<div>${listed(vertex)}</div>`).join("");
/* A move on paper has no words, so that a long path fills few sheets: as many columns as its longest cells leave. */
const ACROSS = 130, BETWEEN = 2, HEADS = ["place", "rule: + in, - out", "T", "U", "labels"];
const signed = (sign, point) => point ? ` ${sign}${whole(listed(point))}` : "";
const brief = ({ rule, in: coming, out: going }) => `${rule}:${signed("+", coming)}${signed("\u2212", going)}`;
const cells = path.places.map(({ t, u, labels }, k) =>
    [String(k + 1), k ? brief(path.moves[k - 1]) : "the start", listed(t), listed(u), listed(labels)]);
const longest = HEADS.map((head, k) => Math.max(head.length, ...cells.map(row => row[k].length)));
const columns = Math.floor(ACROSS / (longest.reduce((sum, length) => sum + length) + BETWEEN));
element("scroll").style.setProperty("--columns", Math.min(Math.max(columns, 2), 3));
element("scroll").classList.toggle("in-a-line", columns > 1);
element("rows").innerHTML = cells.map(([place, move, t, u, labels], k) => `<tr><td>${place}</td>
    <td><span class="on-screen">${k ? words(k - 1) : move}</span><span class="on-paper">${move}</span></td>
    <td data-head="T">${t}</td><td data-head="U">${u}</td><td data-head="labels">${labels}</td></tr>`).join("");
element("slider").max = last + 1;

element("rows").addEventListener("click", event => go(event.target.closest("tr").sectionRowIndex));
element("rows").addEventListener("keydown", event => {
    const place = { ArrowUp: at - 1, ArrowDown: at + 1 }[event.key];
    if (place === undefined || place < 0 || place > last || element("rows").rows[place].hidden) return;
    event.preventDefault();
    go(place);
    element("rows").rows[at].focus({ preventScroll: true });
});
element("slider").addEventListener("input", event => go(event.target.value - 1));
element("first").addEventListener("click", () => go(0));
element("back").addEventListener("click", () => go(at - 1));
element("forward").addEventListener("click", () => go(at + 1));
element("last").addEventListener("click", () => go(last));
element("guess").addEventListener("change", () => go(at));
element("ask").addEventListener("click", () => {
    asked = true;
    show();
});
document.addEventListener("keydown", event => {
    const keys = { ArrowLeft: at - 1, ArrowRight: at + 1, Home: 0, End: last };
    if (!(event.key in keys) || event.target.type === "range") return;
    go(keys[event.key]);
    // The row of the present place alone can be reached, so who stands in a row goes along.
    if (event.target.closest("#rows")) element("rows").rows[at].focus({ preventScroll: true });
});
addEventListener("resize", show);
addEventListener("beforeprint", show);
addEventListener("afterprint", show);
show();
