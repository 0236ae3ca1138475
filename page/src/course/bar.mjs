// The step view's bar: limits, files, links.
import { el, byId, button } from "../shared/dom.mjs";
import { GREATEST } from "../../../bindings/js/ledger.mjs";
import { address, limitsWord, toBase64 } from "../shared/address.mjs";
import { save, opener } from "../shared/files.mjs";

export function barOf(course) {
  return el("details", {}, el("summary", {}, "limits, files, link"), limitFields(course), fileButtons(course), linkButtons(course));
}

function limitFields(course) {
  const range = name => ({ type: "number", min: 1, max: GREATEST[name], value: GREATEST[name] });
  const field = name => el("input", { ...range(name), id: `limit-${name}`, onchange: () => course.limited() });
  return el("p", {}, Object.keys(GREATEST).map(name => [el("label", {}, `${name} `, field(name)), " "]));
}

function fileButtons(course) {
  return el("p", {},
    opener("open a file", (name, bytes) => course.openFile(name, bytes), "course-open"), " ",
    button("save text", () => save("session.steps", course.editor.text, "text/plain")), " ",
    button("save packed list", () => save("session.list", course.record.list)), " ",
    button("save image at this step", () => save("session.image", course.record.at(course.rows.count).image)));
}

function linkButtons(course) {
  const text = button("link with the text", () => share(course, { text: course.editor.text }));
  const packed = button("link with packed steps", () => share(course, { list: toBase64(course.record.list) }));
  const link = el("input", { id: "link", readonly: true, "aria-label": "link to this list", hidden: true });
  return [el("p", {}, text, " ", packed, " ", button("print", () => print())), link];
}

/** Shows a link to the list, and makes it the page's own address. */
function share(course, body) {
  const link = byId("link"), limits = limitsWord(course.limits), own = limits === limitsWord(GREATEST) ? null : limits;
  link.value = address({ view: "steps", ...body, limits: own, step: course.rows.count });
  link.hidden = false;
  link.select();
  history.replaceState(null, "", link.value);
}
