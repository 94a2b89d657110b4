// The sounding as people draw it: pressure down a logarithmic axis, a panel for each other column. The runs without the watches
// are wide and pale, those with them thin and dark on top, and a mark stands wherever a watch printed, of another shape for each
// domain. It can be read without its colours.

const LEVELS = [1000, 925, 850, 700, 500, 400, 300, 250, 200, 150, 100, 70, 50, 30, 20, 10, 7, 5, 3, 2, 1];
const BELOW_GROUND = 1050, LONGEST_BRIDGE = 3;
const TOP = 10, BOTTOM = 44, LEFT = 46, RIGHT = 16, GAP = 28, LABEL_DISTANCE = 14, MARK = 3.5;

// The outline of a mark for each domain of watches; the last stands for all further ones.
const SHAPES = ["M0 -sLs 0L0 sL-s 0z", "M-s -sLs -sLs sL-s sz", "M0 -sLs sL-s sz", "M-s -sLs sM-s sLs -s"];

export function make(name, attributes = {}, ...children) {
    const element = document.createElementNS("http://www.w3.org/2000/svg", name);
    for (const [key, value] of Object.entries(attributes)) element.setAttribute(key, value);
    element.append(...children);
    return element;
}

export function shape(domain, x = 0, y = 0) {
    const outline = SHAPES[Math.min(domain, SHAPES.length) - 1].replaceAll("s", MARK);
    return make("path", { class: "mark", d: outline, transform: `translate(${x.toFixed(1)} ${y.toFixed(1)})` });
}

// A range of values on a range of pixels.
function axis(low, high, start, end, of = (value) => value) {
    const scale = (end - start) / (of(high) - of(low));
    return { low, high, start, end, at: (value) => start + (of(value) - of(low)) * scale };
}

function pressureAxis(pressures, height) {
    const low = Math.min(...pressures), high = Math.max(...pressures);
    const top = LEVELS.find((p) => p < low) ?? low * 0.9;
    const bottom = [...LEVELS].reverse().concat(BELOW_GROUND).find((p) => p > high) ?? high * 1.1;
    return axis(top, bottom, TOP, height - BOTTOM, Math.log);
}

// A round step that makes so many parts of a span, or a few less.
function stepOf(span, parts) {
    const power = 10 ** Math.floor(Math.log10(span / parts));
    return [1, 2, 5, 10].map((n) => n * power).find((step) => step >= span / parts);
}

function valueAxis(values, start, end) {
    const low = Math.min(...values), high = Math.max(...values);
    const step = stepOf(Math.max(high - low, 1), Math.max(2, (end - start) / 55));
    // Around a column that stays the same there is air.
    const air = low === high ? 1 : 0;
    const first = Math.floor(low / step) - air, last = Math.ceil(high / step) + air;
    const ticks = Array.from({ length: last - first + 1 }, (_, i) => (first + i) * step);
    return { ...axis(first * step, last * step, start, end), ticks };
}

function line(x1, y1, x2, y2, kind) {
    return make("line", { class: kind, x1: x1.toFixed(1), y1: y1.toFixed(1), x2: x2.toFixed(1), y2: y2.toFixed(1) });
}

function words(x, y, text, anchor = "middle", kind = "") {
    return make("text", { class: kind, x: x.toFixed(1), y: y.toFixed(1), "text-anchor": anchor }, text);
}

function pressureScale(y) {
    const drawn = [];
    let last = Infinity;
    for (const p of LEVELS.filter((p) => p >= y.low && p <= y.high)) {
        const at = y.at(p);
        drawn.push(line(LEFT - 4, at, LEFT, at, "frame"));
        if (last - at < LABEL_DISTANCE) continue;
        drawn.push(words(LEFT - 7, at + 4, String(p), "end", "small"));
        last = at;
    }
    const middle = (y.start + y.end) / 2;
    const title = words(11, middle, "pressure (hPa)");
    title.setAttribute("transform", `rotate(-90 11 ${middle})`);
    return [...drawn, title];
}

function grid(x, y, title) {
    const drawn = LEVELS.filter((p) => p > y.low && p < y.high).map((p) => line(x.start, y.at(p), x.end, y.at(p), "grid"));
    for (const tick of x.ticks) {
        drawn.push(line(x.at(tick), y.start, x.at(tick), y.end, tick ? "grid" : "zero"));
        drawn.push(words(x.at(tick), y.end + 16, String(+tick.toPrecision(6)), "middle", "small"));
    }
    const box = { class: "frame", x: x.start, y: y.start, width: x.end - x.start, height: y.end - y.start };
    return [...drawn, words((x.start + x.end) / 2, y.end + 36, title), make("rect", box)];
}

// The curve of a column, broken where frames are missing.
function curve(levels, column, pressure, x, y, kind) {
    let path = "", before = -Infinity;
    for (const [frame, values] of levels) {
        if (values[pressure] <= 0) continue;
        const near = frame - before <= 1 + LONGEST_BRIDGE;
        path += `${near ? "L" : "M"}${x.at(values[column]).toFixed(1)} ${y.at(values[pressure]).toFixed(1)}`;
        path += near ? "" : "h0";
        before = frame;
    }
    return make("path", { class: `curve ${kind}`, d: path });
}

function marks(levels, column, pressure, x, y) {
    const drawn = [];
    for (const [frame, values, printed] of levels) {
        if (values[pressure] <= 0) continue;
        for (const domain of new Set(printed.map(([by]) => by))) {
            const numbers = printed.filter(([by]) => by === domain).map(([, number]) => number).join(", ");
            const drawnMark = shape(domain, x.at(values[column]), y.at(values[pressure]));
            drawnMark.append(make("title", {}, `frame ${frame}: domain ${domain} printed ${numbers}`));
            drawn.push(drawnMark);
        }
    }
    return drawn;
}

// The dew point beside the temperature, where it is known: levels as those of a column, one after another.
function dewLevels(levels, dew, pressure) {
    return levels.map(([frame, values], i) => [frame, [dew[i], values[pressure]]]).filter(([, [value]]) => value != null);
}

// Draws runs into a place: `wide` are the levels without the watches, `thin` those with them, either may be empty; `dew` has the
// dew points of the latter, or of the former. Gives the cursor: a function that shows a level, and one that finds the level at a
// height.
export function draw(place, columns, wide, thin, dew) {
    const width = Math.max(300, place.clientWidth), height = Math.min(640, Math.max(380, width * 0.72));
    const svg = make("svg", { viewBox: `0 0 ${width} ${height}`, role: "img", "aria-label": "The sounding" });
    const pressure = columns.findIndex(([name]) => name === "pressure");
    const others = columns.map((_, i) => i).filter((i) => i !== pressure);
    const all = [...wide, ...thin].map(([, values]) => values).filter((values) => values[pressure] > 0);
    if (!all.length || !others.length) {
        svg.append(words(width / 2, height / 2, "No frame gave a level."));
        place.replaceChildren(svg);
        return null;
    }
    const y = pressureAxis(all.map((values) => values[pressure]), height);
    const panel = (width - LEFT - RIGHT - GAP * (others.length - 1)) / others.length;
    svg.append(...pressureScale(y));
    const axes = others.map((column, n) => {
        const start = LEFT + n * (panel + GAP), [name, unit] = columns[column];
        const beside = name === "temperature" ? dewLevels(thin.length ? thin : wide, dew, pressure) : [];
        const values = [...all.map((level) => level[column]), ...beside.map(([, [value]]) => value)];
        const x = valueAxis(values, start, start + panel), colour = `c${Math.min(n, 2)}`;
        svg.append(...grid(x, y, unit ? `${name} (${unit})` : name), curve(wide, column, pressure, x, y, `wide ${colour}`),
            curve(beside, 0, 1, x, y, "dew"), ...marks(thin, column, pressure, x, y),
            curve(thin, column, pressure, x, y, `thin ${colour}`));
        return [column, x];
    });
    const cursor = make("g");
    svg.append(cursor);
    place.replaceChildren(svg);
    return {
        show(level) {
            const at = y.at(Math.max(level[1][pressure], y.low));
            const dots = axes.map(([column, x]) => make("circle", { class: "dot", r: 4, cx: x.at(level[1][column]), cy: at }));
            cursor.replaceChildren(line(LEFT, at, width - RIGHT, at, "cursor"), ...dots);
        },
        nearest(levels, clientY) {
            const box = svg.getBoundingClientRect(), at = ((clientY - box.top) / box.height) * height;
            const away = (level) => Math.abs(y.at(Math.max(level[1][pressure], 0.01)) - at);
            return levels.reduce((best, level, i) => (away(level) < away(levels[best]) ? i : best), 0);
        },
    };
}
