// The filter, the keys, the tab stops, and the place that the address names. Without this script the page is the same, all of it shown.
"use strict";

const form = document.getElementById("filter");
const rows = [...document.querySelectorAll(".tickets tbody tr")];
let current = null;
let naming = 0;

function textOf(row) {
    row.searched ??= [...row.cells].map((cell) => cell.textContent).join(" ").toLowerCase();
    return row.searched;
}

function matches(row, wanted) {
    return (
        (wanted.show === "all" || (wanted.show === "turned" ? row.classList.contains("turned") : row.dataset.reports !== "0")) &&
        (!wanted.kind || row.dataset.kind === wanted.kind) &&
        (!wanted.member || row.dataset.members.split(" ").includes(wanted.member)) &&
        (!wanted.text || textOf(row).includes(wanted.text))
    );
}

function chosen() {
    return {
        text: form.querySelector("#text").value.trim().toLowerCase(),
        show: form.querySelector("[name=show]:checked").value,
        kind: form.querySelector("#kind").value,
        member: form.querySelector("#member").value,
    };
}

function count() {
    const shown = rows.filter((row) => !row.classList.contains("out")).length;
    const extra = current?.classList.contains("out") ? `, and ticket ${current.id.slice(1)}` : "";
    form.querySelector("#count").textContent = `${shown} of ${rows.length} shown${extra}`;
}

function filter() {
    const wanted = chosen();
    for (const row of rows) row.classList.toggle("out", !matches(row, wanted));
    count();
    const table = rows[0].closest("table");
    if (table.stop && !isShown(table.stop)) stopAt(rows.find(isShown));
}

function isShown(row) {
    return row === current || !row.classList.contains("out");
}

function clear() {
    form.reset();
    filter();
}

function mark(target) {
    current?.classList.remove("current");
    current = target;
    current?.classList.add("current");
    if (form) count();
}

// Goes to what the address names: unfolds what it lies in, marks it, and gives a ticket the focus.
function arrive() {
    const target = document.getElementById(location.hash.slice(1));
    mark(target);
    if (!target) return;
    for (let outer = target.parentElement; outer; outer = outer.parentElement) {
        if (outer.tagName === "DETAILS") outer.open = true;
    }
    if (rows.includes(target)) focusOn(target);
    target.scrollIntoView();
}

function focusOn(row) {
    row.tabIndex = -1;
    row.focus({ preventScroll: true });
}

// Tab stops: of each table the links and folds of one row, of each chart one step. The arrow keys go to the others.
const GROUPS = ".chart > svg, table";
const PARTS = ".chart a, tbody tr, tfoot tr";

function linksOf(part) {
    return part.matches("a") ? [part] : [...part.querySelectorAll("a, summary")];
}

function partsOf(group) {
    return [...group.querySelectorAll(PARTS)].filter((part) => linksOf(part).length);
}

function allow(part, tabIndex) {
    for (const link of linksOf(part)) link.setAttribute("tabindex", tabIndex);
}

function stopAt(part) {
    if (!part || !linksOf(part).length) return;
    const group = part.closest(GROUPS);
    if (group.stop) allow(group.stop, -1);
    allow(part, 0);
    group.stop = part;
}

function setStops() {
    for (const group of document.querySelectorAll(GROUPS)) {
        const parts = partsOf(group);
        for (const part of parts) allow(part, -1);
        stopAt(parts.find(isShown));
    }
    document.addEventListener("focusin", (event) => stopAt(event.target.closest(PARTS)));
}

function step(part, by) {
    const parts = partsOf(part.closest(GROUPS));
    const next = parts[parts.indexOf(part) + by];
    if (!next) return;
    if (next.matches("tr")) focusOn(next);
    else next.focus({ preventScroll: true });
    next.scrollIntoView({ block: "nearest" });
}

// The address follows the keys when they rest, since browsers allow only so many changes of it.
function nameSoon(row) {
    clearTimeout(naming);
    naming = setTimeout(() => history.replaceState(null, "", `#${row.id}`), 200);
}

function go(by) {
    const shown = rows.filter(isShown);
    const at = shown.indexOf(document.activeElement.closest(".tickets tbody tr") ?? current);
    const row = shown[at < 0 ? 0 : at + by];
    if (!row) return;
    mark(row);
    focusOn(row);
    row.scrollIntoView({ block: "nearest" });
    nameSoon(row);
}

function toggle(row) {
    const folds = [...row.querySelectorAll("details")];
    const open = !folds.every((fold) => fold.open);
    for (const fold of folds) fold.open = open;
}

const KEYS = {
    "/": () => form.querySelector("#text").select(),
    "?": () => document.getElementById("help").showModal(),
    "j": () => go(1),
    "k": () => go(-1),
    "Escape": clear,
};
const ROW_KEYS = { "ArrowDown": 1, "ArrowUp": -1 };
const CHART_KEYS = { "ArrowRight": 1, "ArrowLeft": -1 };

function act(event) {
    const at = event.target;
    if (event.ctrlKey || event.altKey || event.metaKey || document.querySelector("dialog[open]")) return undefined;
    if (at.matches("[type=search], select")) return event.key === "Escape" ? clear : undefined;
    if (event.key === "Enter" && rows.includes(at)) return () => toggle(at);
    return KEYS[event.key] ?? along(at.closest(PARTS), event.key);
}

function along(part, key) {
    const by = part && (part.matches("tr") ? ROW_KEYS : CHART_KEYS)[key];
    if (!by) return undefined;
    return rows.includes(part) ? () => go(by) : () => step(part, by);
}

function onKey(event) {
    const action = act(event);
    if (!action) return;
    event.preventDefault();
    action();
}

// A print has everything: folds are opened for it and closed again.
function forPrint() {
    const closed = [...document.querySelectorAll("details:not([open])")];
    for (const fold of closed) fold.open = true;
    addEventListener("afterprint", () => closed.forEach((fold) => (fold.open = false)), { once: true });
}

function begin() {
    form.hidden = false;
    form.addEventListener("input", filter);
    form.addEventListener("submit", (event) => event.preventDefault());
    const help = document.getElementById("help");
    const keys = document.getElementById("keys");
    keys.hidden = false;
    document.getElementById("to-filter").hidden = false;
    keys.addEventListener("click", () => help.showModal());
    document.getElementById("close").addEventListener("click", () => help.close());
    document.addEventListener("keydown", onKey);
    filter();
}

document.documentElement.classList.add("js");
if (form) begin();
// When it is loaded all of the page is laid out, and so is there for those who hear it.
function complete() {
    document.documentElement.classList.add("whole");
    if (form) setStops();
    current?.scrollIntoView();
}

addEventListener("load", () => setTimeout(complete));
addEventListener("beforeprint", forPrint);
addEventListener("hashchange", arrive);
if (location.hash) arrive();
