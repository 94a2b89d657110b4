// The bench's page: the texts, and the verdict as one types. runs.js shows the runs.
import { $, count, element, put } from "./dom.js";
import { listenToRuns, tellRuns } from "./runs.js";

// How long typing must pause before the text is judged, in milliseconds.
const PAUSE = 150;

const NEW_WATCH = `# Prints the temperature of each level that is colder than -60 degrees.

install advice on pointcut {level} as l {
    let (p, (t, h)) = l in
    if t < -600 then print t else ()
}
`;

// The texts and which is shown, the last answer, and the request that is under way.
const state = { texts: [], shown: 0, answer: null, waiting: null, asked: 0, stop: null };

// ---- The texts: the procedure, which is only read, then the watches.

const watches = () => state.texts.filter((text) => text.kind === "watch");
const hung = () => watches().filter((text) => text.hung);
const shown = () => state.texts[state.shown];

// The text that a fault stands in.
function faulty() {
    const fault = state.answer?.fault;
    return fault && (fault.text === "procedure" ? state.texts[0] : hung()[fault.text]);
}

function drawTabs() {
    const tabs = state.texts.map((text, i) => {
        const selected = i === state.shown;
        const named = { id: `tab-${i}`, textContent: text.name, title: text.name };
        const tab = element("button", { type: "button", tabIndex: selected ? 0 : -1, ...named });
        tab.setAttribute("role", "tab");
        tab.setAttribute("aria-controls", "panel");
        tab.setAttribute("aria-selected", selected);
        tab.dataset.fault = faulty() === text;
        tab.dataset.hung = text.kind !== "watch" || text.hung;
        tab.addEventListener("click", () => show(i));
        return tab;
    });
    $("tabs").replaceChildren(...tabs);
    $("panel").setAttribute("aria-labelledby", `tab-${state.shown}`);
}

function show(i) {
    state.shown = i;
    const text = shown(), editor = $("text");
    editor.value = text.text;
    editor.readOnly = text.kind !== "watch";
    const label = text.kind === "watch" ? `The watch ${text.name}` : `The procedure ${text.name}, only to read`;
    editor.setAttribute("aria-label", label);
    $("hang-label").hidden = text.kind !== "watch";
    $("hang").checked = text.hung;
    editor.scrollTop = editor.scrollLeft = 0;
    drawTabs();
    drawMarks();
}

// Line numbers, and the line of a fault if it is in the text that is shown.
function drawMarks() {
    const fault = faulty() === shown() ? state.answer.fault : null;
    const lines = $("text").value.split("\n");
    $("gutter").replaceChildren(...lines.map((_, i) => {
        const number = element("div", { textContent: i + 1 });
        number.dataset.fault = fault?.line === i + 1;
        return number;
    }));
    $("backdrop").replaceChildren(...(fault?.line ? markedLines(lines, fault) : []));
    follow();
}

// The lines before a fault, and its own with the word at its column underlined; the letters are not seen.
function markedLines(lines, { line, column }) {
    const text = lines[line - 1] ?? "", start = Math.max(0, column - 1);
    const length = text.slice(start).match(/^(\w+|\W)/)?.[0].length ?? 0;
    const at = element("span", { className: "at", textContent: text.slice(start, start + length) });
    const marked = element("span", { className: "fault" }, text.slice(0, start), at, text.slice(start + length) || " ");
    return ["\n".repeat(line - 1), marked];
}

// Numbers and marks go along with the text.
function follow() {
    const { scrollTop, scrollLeft } = $("text");
    for (const child of $("gutter").children) child.style.transform = `translateY(${-scrollTop}px)`;
    $("backdrop").style.transform = `translate(${-scrollLeft}px, ${-scrollTop}px)`;
}

function goToFault() {
    const fault = state.answer?.fault, text = faulty();
    if (!text || !fault.line) return;
    show(state.texts.indexOf(text));
    const editor = $("text"), lines = editor.value.split("\n");
    const start = lines.slice(0, fault.line - 1).reduce((sum, line) => sum + line.length + 1, 0) + fault.column - 1;
    editor.focus();
    editor.setSelectionRange(start, start);
    const height = parseFloat(getComputedStyle(editor).lineHeight);
    editor.scrollTop = Math.max(0, (fault.line - 4) * height);
    follow();
}

// A text of one's own stays while the page is loaded again.
function remember() {
    const own = watches().map(({ name, text, hung }) => ({ name, text, hung }));
    try {
        sessionStorage.setItem("watches", JSON.stringify({ began: state.began, own }));
    } catch { /* a browser without such a place forgets them */ }
}

function remembered() {
    try {
        const found = JSON.parse(sessionStorage.getItem("watches"));
        return found?.began === state.began ? found.own : null;
    } catch {
        return null;
    }
}

function keep() {
    const file = new Blob([$("text").value], { type: "text/plain" });
    const link = element("a", { href: URL.createObjectURL(file), download: shown().name });
    link.click();
    setTimeout(() => URL.revokeObjectURL(link.href), 10_000);
}

// ---- The verdict.

function soon() {
    clearTimeout(state.waiting);
    state.waiting = setTimeout(judge, PAUSE);
}

async function judge() {
    state.stop?.abort();
    state.stop = new AbortController();
    const asked = ++state.asked;
    $("verdict").dataset.busy = true;
    try {
        const said = await fetch("/judge", {
            method: "POST", headers: { "Content-Type": "application/json" }, signal: state.stop.signal,
            body: JSON.stringify(hung().map((text) => text.text)),
        });
        const answer = await said.json();
        if (asked === state.asked) said.ok ? tell(answer) : problem(answer.problem);
    } catch (error) {
        if (asked !== state.asked || error.name === "AbortError") return;
        problem("The bench does not answer: is watchtool still running?");
    }
}

function headline(kind, text, message = "", mend = "") {
    $("verdict").dataset.state = kind;
    $("verdict").dataset.busy = false;
    $("headline").textContent = text;
    put("message", message);
    put("mend", mend && `To mend it: ${mend}`);
}

function problem(words) {
    headline("problem", words);
    $("go").hidden = true;
}

function tell(answer) {
    state.answer = answer;
    const { fault } = answer;
    if (fault) {
        const where = faulty()?.name ?? "";
        const line = fault.line ? `, line ${fault.line}` : "";
        const [number, place] = fault.refusal ?? [];
        const refused = number ? `Refused ${number} at byte ${place}: ` : "Not a text that can be read: ";
        headline("fault", `${refused}${where}${line}`, fault.message, fault.mend);
        put("go", fault.line ? `Go to ${where}${line}` : "");
    } else {
        const names = hung().map((text) => text.name).join(", ");
        headline("accepted", `Accepted: ${count(answer.bytes, "byte")}${names ? ` with ${names}` : ", without a watch"}`);
        put("go", "");
    }
    drawTabs();
    drawMarks();
    tellRuns(answer);
}

// ---- What one does.

function onTyped() {
    shown().text = $("text").value;
    drawMarks();
    remember();
    soon();
}

// A new line begins as far in as the last one; the browser's undo knows it.
function onEditorKey(event) {
    if (event.key !== "Enter" || event.ctrlKey || event.metaKey || event.shiftKey) return;
    const editor = event.target, before = editor.value.slice(0, editor.selectionStart).split("\n").pop();
    const indent = before.match(/^ */)[0] + (before.trimEnd().endsWith("{") ? "    " : "");
    if (indent && document.execCommand("insertText", false, `\n${indent}`)) event.preventDefault();
}

function onTabsKey(event) {
    const last = state.texts.length - 1, at = state.shown;
    const keys = { ArrowLeft: Math.max(0, at - 1), ArrowRight: Math.min(last, at + 1), Home: 0, End: last };
    const to = keys[event.key];
    if (to === undefined) return;
    event.preventDefault();
    show(to);
    $(`tab-${to}`).focus();
}

function onShortcut(event) {
    if (event.key === "F8") {
        event.preventDefault();
        goToFault();
    } else if (event.key === "s" && (event.ctrlKey || event.metaKey)) {
        event.preventDefault();
        keep();
    }
}

function addWatch() {
    const name = `watch-${watches().length + 1}.watch`;
    state.texts.push({ kind: "watch", name, text: NEW_WATCH, hung: true });
    show(state.texts.length - 1);
    remember();
    soon();
    $("text").focus();
}

function listen() {
    $("text").addEventListener("input", onTyped);
    $("text").addEventListener("keydown", onEditorKey);
    $("text").addEventListener("scroll", follow);
    $("tabs").addEventListener("keydown", onTabsKey);
    $("hang").addEventListener("change", () => { shown().hung = $("hang").checked; drawTabs(); remember(); soon(); });
    $("new").addEventListener("click", addWatch);
    $("keep").addEventListener("click", keep);
    $("go").addEventListener("click", goToFault);
    document.addEventListener("keydown", onShortcut);
    listenToRuns();
}

async function start() {
    const { procedure, watches: given, frames, began } = await (await fetch("/start")).json();
    state.began = began;
    document.title = `Bench: ${procedure.name}`;
    const recording = `${frames.name}: ${count(frames.count, "frame")} of ${count(frames.length, "byte")}`;
    const left = frames.left ? `; the ${frames.left.toLocaleString("en")} after these are left out` : "";
    $("about").textContent = `${procedure.name} over ${recording}${left}`;
    const own = remembered() ?? given.map((watch) => ({ ...watch, hung: true }));
    state.texts = [{ kind: "procedure", ...procedure }, ...own.map((watch) => ({ kind: "watch", ...watch }))];
    listen();
    if (own.length) {
        show(1);
        judge();
    } else {
        addWatch();
    }
}

start();
