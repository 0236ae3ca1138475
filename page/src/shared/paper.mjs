// The picture on paper: a table of bands of rows, which a page's end does not cut, with the takes over the lanes on each page. It stands
// beside the picture on the screen, as wide as a sheet, only while something is printed.
import { el } from "./dom.mjs";
import { bands, laneWidth, pictureWidth, ROW } from "./lanes.mjs";
import { called } from "./rows.mjs";

const SIZE = 8, SHEET = 700, ROWS = 250;

/** Has the rows of a view on paper while they are printed. */
export function onPaper(rows) {
  let paper = null;
  window.addEventListener("beforeprint", () => {
    paper?.remove();
    if (!rows.record) return;
    paper = table(rows);
    rows.scroller.append(paper);
  });
  window.addEventListener("afterprint", () => paper?.remove());
}

function table({ record, shown, naming: names, list }) {
  const count = record.heads[shown].length, wide = laneWidth(count, SHEET - ROWS), sheets = bands(record, names, shown, wide, SIZE);
  const body = sheets.map((sheet, i) => el("tr", {}, el("td", {}, rowsOf(list, SIZE * i)), el("td", {}, sheet)));
  const head = el("tr", {}, el("th", {}, "step and reply"), el("th", {}, lanes(count, names, wide)));
  return el("table", { class: "paper", "aria-hidden": "true" }, el("thead", {}, head), el("tbody", {}, body));
}

/** The rows of a band, without their marks for keys and readers. */
function rowsOf(list, first) {
  const rows = [...list.children].slice(first, first + SIZE).map(row => row.cloneNode(true));
  for (const row of rows) for (const name of ["id", "role", "aria-selected"]) row.removeAttribute(name);
  const host = el("ol", { class: "rows" }, rows);
  host.style.height = `${ROW * rows.length}px`;
  return host;
}

function lanes(count, names, wide) {
  const host = el("div", { class: "paper-lanes" }, Array.from({ length: count }, (_, t) => called(t, names, wide)));
  host.style.width = `${pictureWidth(count, wide)}px`;
  return host;
}
