// The runs over the recording: what is proved of them, the picture, and the tables.
import { $, count, element, put } from "./dom.js";
import { draw, make, shape } from "./picture.js";

// The most rows that the table of levels has.
const ROWS = 3000;

// How many levels a page up or down is.
const PAGE = 20;

const ALONE = "Nothing runs with the watch until it is accepted. This is the procedure alone.";
const NOTHING = "Nothing runs: the procedure itself is not accepted.";

// The last answer, the picture's cursor, and the level that it is on.
const state = { answer: null, cursor: null, level: 0 };

// All that is shown of an answer.
export function tellRuns(answer) {
    state.answer = answer;
    $("proved").textContent = answer.proved ?? (answer.without ? ALONE : NOTHING);
    $("proved").dataset.empty = !answer.proved;
    put("warning", warned(answer));
    drawPicture();
    drawLevels();
    drawEnds(answer.outcomes ?? []);
    drawTotals(answer.totals ?? []);
    drawNeeds(answer.needs);
}

function warned({ differ = [], cut = [] }) {
    const wrong = `The two runs differ where they may not, first in frame ${differ[0]}. This should not happen: report it.`;
    const early = `A watch ends the run early in ${count(cut.length, "frame")}, first in frame ${cut[0]}: see below.`;
    return differ.length ? wrong : cut.length ? early : "";
}

const levelsShown = () => (state.answer?.with ?? state.answer?.without)?.levels ?? [];
const columns = () => (state.answer?.with ?? state.answer?.without)?.columns ?? [];
const number = (value, [, , tenths]) => value.toFixed(tenths ? 1 : 0).replace("-", "−");
const domainName = (domain) => state.answer?.domains?.[domain] ?? `domain ${domain}`;

function printedAt(marks) {
    const by = new Map();
    for (const [domain, value] of marks) by.set(domain, [...(by.get(domain) ?? []), String(value).replace("-", "−")]);
    return [...by].map(([domain, values]) => `${domainName(domain)}: ${values.join(", ")}`).join("; ");
}

function drawPicture() {
    const { with: full, without } = state.answer ?? {};
    const dew = (full ?? without)?.dew ?? [];
    state.cursor = draw($("picture"), columns(), without?.levels ?? [], full?.levels ?? [], dew);
    const items = [];
    if (without) items.push([sample("wide"), `without the watches: ${count(without.levels.length, "level")}`]);
    if (full) items.push([sample("thin"), `with the watches: ${count(full.levels.length, "level")}`]);
    if (dew.length) items.push([make("svg", {}, stroke("dew", 2, 34)), "dew point, from temperature and humidity"]);
    const printed = (full?.levels ?? []).flatMap(([, , marks]) => marks.map(([domain]) => domain));
    const domains = [...new Set(printed)].sort((a, b) => a - b);
    for (const domain of domains) {
        const levels = full.levels.filter(([, , marks]) => marks.some(([by]) => by === domain)).length;
        items.push([make("svg", {}, shape(domain, 18, 6)), `${domainName(domain)} printed: ${count(levels, "level")}`]);
    }
    $("legend").replaceChildren(...items.map(([picture, text]) => element("li", {}, picture, text)));
    point(Math.min(state.level, levelsShown().length - 1), false);
}

const stroke = (kind, from, to) => make("path", { class: `curve ${kind}`, d: `M${from} 6H${to}` });
const sample = (kind) => make("svg", {}, stroke(`${kind} c0`, 2, 16), stroke(`${kind} c1`, 20, 34));

// Puts the cursor on a level, in the picture and in the table.
function point(i, scroll = true) {
    const levels = levelsShown(), level = levels[i];
    if (!level || !state.cursor) {
        $("reading").textContent = "";
        return;
    }
    state.level = i;
    state.cursor.show(level);
    const values = columns().map((column, n) => `${number(level[1][n], column)} ${column[1] || column[0]}`);
    $("reading").textContent = [`frame ${level[0]}`, ...values, printedAt(level[2])].filter(Boolean).join(" · ");
    for (const row of $("levels").querySelectorAll("[aria-current]")) row.removeAttribute("aria-current");
    const row = $("levels").querySelector(`[data-level="${i}"]`);
    row?.setAttribute("aria-current", "true");
    if (row && scroll) {
        const box = row.closest(".scroll");
        box.scrollTop = row.offsetTop - box.clientHeight / 2;
    }
}

function table(id, head, rows) {
    const cell = (name, value, more) => (value instanceof Node ? value : element(name, { textContent: value, ...more }));
    const headRow = element("tr", {}, ...head.map((text) => cell("th", text, { scope: "col" })));
    const body = rows.map(({ values, ...more }) => {
        const row = element("tr", {}, ...values.map((value) => cell("td", value)));
        if (more.kind) row.className = more.kind;
        if (more.level !== undefined) row.dataset.level = more.level;
        return row;
    });
    $(id).replaceChildren(element("thead", {}, headRow), element("tbody", {}, ...body));
}

const wordsHead = (text) => element("th", { scope: "col", className: "words", textContent: text });

function drawLevels() {
    const only = $("marked").checked;
    const found = levelsShown().map((level, i) => [level, i]).filter(([level]) => !only || level[2].length);
    const named = columns().map(([name, unit]) => element("th", { scope: "col" }, name, element("small", { textContent: unit })));
    const head = ["frame", ...named, wordsHead("watches printed")];
    const rows = found.slice(0, ROWS).map(([[frame, values, marks], i]) => (
        { level: i, values: [frame, ...values.map((value, n) => number(value, columns()[n])),
            element("td", { className: "words", textContent: printedAt(marks) })] }));
    if (found.length > ROWS) rows.push({ values: [`and ${count(found.length - ROWS, "level")} more`] });
    table("levels", head, rows);
    point(state.level, false);
}

function drawEnds(outcomes) {
    const mended = ({ word, mend }) => element("small", { textContent: word === "done" ? "" : mend });
    const told = (ended) => element("td", { className: "words" }, ended.words, mended(ended));
    table("ends", ["outcome", "frames", "first", wordsHead("what it means")],
        outcomes.map((ended) => ({ values: [ended.word, ended.count, ended.first, told(ended)] })));
}

function drawTotals(totals) {
    const shownNumber = (value) => value.toLocaleString("en").replace("-", "−");
    table("totals", ["over the recording", "count", "sum", "least", "greatest", "last"],
        totals.map(([what, ...numbers]) => ({ values: [what, ...numbers.map(shownNumber)] })));
}

function drawNeeds(needs) {
    const why = `This is not known without a run. ${needs?.why} What was used here stands beside the limits.`;
    put("needs-why", needs?.why ? why : "");
    table("needs", ["", "at most", "used here", "limit", ""], (needs?.rows ?? []).map(([word, most, used, limit]) => {
        const part = Math.min(1, (most ?? used ?? 0) / limit), fill = element("i");
        fill.style.width = `${(100 * part).toFixed(1)}%`;
        const bar = element("span", { className: "bar", title: `${(100 * part).toFixed(1)} %` }, fill);
        const text = (value) => (value === null ? "" : value.toLocaleString("en"));
        return { kind: most > limit ? "over" : "", values: [word, text(most), text(used), text(limit), element("td", {}, bar)] };
    }));
}

// A level higher up comes later in an ascent.
function onPictureKey(event) {
    const last = levelsShown().length - 1, { level } = state;
    const steps = { ArrowUp: 1, ArrowRight: 1, ArrowDown: -1, ArrowLeft: -1 };
    const moves = { ...steps, PageUp: PAGE, PageDown: -PAGE, Home: -level, End: last };
    if (moves[event.key] === undefined) return;
    event.preventDefault();
    point(Math.max(0, Math.min(last, level + moves[event.key])));
}

function onPointer(event) {
    if (state.cursor && levelsShown().length) point(state.cursor.nearest(levelsShown(), event.clientY));
}

export function listenToRuns() {
    $("marked").addEventListener("change", drawLevels);
    $("picture").addEventListener("keydown", onPictureKey);
    $("picture").addEventListener("pointermove", onPointer);
    $("picture").addEventListener("pointerdown", onPointer);
    $("levels").addEventListener("click", (event) => {
        const row = event.target.closest("[data-level]");
        if (row) point(Number(row.dataset.level), false);
    });
    new ResizeObserver(() => state.answer && drawPicture()).observe($("picture"));
}
