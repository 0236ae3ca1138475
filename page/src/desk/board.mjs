// The state of a hearing at its end: what can be signed now, what stands in the way of the rest, and what waits for whom.
import { el, replace, button, heading } from "../shared/dom.mjs";
import { packStep, readReply } from "../../../bindings/js/packed.mjs";
import { REFUSALS } from "../../../bindings/js/refusals.mjs";
import { readTake } from "../../../bindings/js/image.mjs";
import { whyNot } from "../shared/reasons.mjs";
import { fates, waitingAt } from "../shared/parcels.mjs";
import { present, trial } from "../shared/offered.mjs";
import { braces, counted, capital } from "../shared/names.mjs";
import { tone, FALLEN_BACK, GONE, WRONG_STATUS } from "../shared/words.mjs";

/** add(bytes) is told of a step that was chosen. */
export function showBoard(host, record, names, add) {
  const session = record.end, live = present(session.image);
  const smallest = new Map(live.map(take => [take, session.smallestVolume(take)]));
  replace(
    host,
    heading("Can be signed now"),
    ready(session, smallest, names, add),
    heading("What stands in the way"),
    hindered(record, live.filter(t => !smallest.get(t) && !settled(session, t)), names),
    heading("What is waiting for whom"),
    waiting(record, names, add),
  );
}

function ready(session, smallest, names, add) {
  const volumes = [...new Set(smallest.values())].filter(Boolean);
  if (!volumes.length) return el("p", { class: "soft" }, "No volume is ready.");
  const sign = v => button(`sign ${braces(v)}`, () => add(packStep("sign", { parcel: v })), { "data-volume": v });
  let all = 0;
  for (let size = 1; size <= 16; size++) all += session.readyCount(size);
  return [
    el("ul", { class: "plain" }, volumes.map(v => el("li", {}, sign(v), ` ${names.volume(v)}`))),
    el("p", { class: "soft" }, `${capital(counted(all, "volume is", "volumes are"))} ready in all; nothing is lost by waiting.`),
  ];
}

/** Whether nothing of the take is to be signed: tried on a copy, it falls back to the same text, resting on the same. */
function settled(session, take) {
  const copy = session.copy(), reply = readReply(copy.run(packStep("fail", { take })), 0);
  const rests = image => (({ text, state }) => JSON.stringify([text, state.filter((_, u) => u !== take)]))(readTake(image, take));
  return reply.outcome === FALLEN_BACK && rests(session.image) === rests(copy.image);
}

function hindered(record, takes, names) {
  if (!takes.length) return el("p", { class: "soft" }, "Nothing.");
  const said = ({ why, help }) => [...why, ...help].join(" ");
  const why = t => el("td", { class: "words" }, said(whyNot(record, record.length, 1 << t, names, true)));
  return el("table", {}, el("tbody", {}, takes.map(t => el("tr", {}, el("th", { scope: "row" }, names.numbered(t)), why(t)))));
}

/** Each waiting parcel: from whom, for whom, and what its receipt would do now. */
function waiting(record, names, add) {
  const parcels = waitingAt(fates(record), record.length).sort((a, b) => a.to - b.to || a.number - b.number);
  if (!parcels.length) return el("p", { class: "soft" }, "No parcel waits.");
  const head = el("tr", {}, ["for", "parcel", "from", "text", "received now"].map(w => el("th", { scope: "col" }, w)));
  const row = p => el("tr", {},
    el("th", { scope: "row" }, names.numbered(p.to)),
    el("td", {}, p.number),
    el("td", { class: "words" }, p.made ? (p.from === null ? "outside" : names.take(p.from)) : "not known"),
    el("td", { class: "words" }, names.bare(p.text)),
    receipt(record, p, names, add));
  return el("table", {}, el("thead", {}, head), el("tbody", {}, parcels.map(row)));
}

function receipt(record, parcel, names, add) {
  const bytes = packStep("receive", { parcel: parcel.number }), reply = trial(record.end, bytes), news = tone(reply);
  const press = news === "refused" ? "" : [button("receive", () => add(bytes)), " "];
  if (news === "done") return el("td", {}, press);
  const turned = { [WRONG_STATUS]: `At work: ${names.take(parcel.to)}; press done first.`, [GONE]: "The take vanished: the parcel can only be lost." };
  const would = { fell: "The take falls by it: it shows that a ground was withdrawn.", dropped: "It is dropped: it carries a withdrawn life." };
  return el("td", { class: "trouble" }, press, turned[reply.outcome] ?? would[news] ?? `Refused: ${REFUSALS[reply.outcome][1]}.`);
}
