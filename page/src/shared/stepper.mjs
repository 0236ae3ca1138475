// Buttons for the steps that the ledger accepts now.
import { el, replace, button } from "./dom.mjs";
import { packStep, readReply, joined, takesOf, volumeOf } from "../../../bindings/js/packed.mjs";
import { offered, present, trial } from "./offered.mjs";
import { braces } from "./names.mjs";
import { REFUSED, HINTS, WITH_TEXT } from "./words.mjs";

export class Stepper {
  /**
   * textField: the input for a text; textOf(): its number, asked when a step is made; add(bytes): a step was chosen;
   * confirm(kind, fields, go): asked before a step is made, where given, and goes on by go(); labels: words for kinds of step.
   */
  constructor(host, { textField, textOf, add, confirm = (kind, fields, go) => go(), labels = {} }) {
    this.host = host;
    this.textField = textField;
    this.textOf = textOf;
    this.add = add;
    this.confirm = confirm;
    /** @type {Record<string, string>} */
    this.labels = labels;
    this.lastTo = new Map();
  }

  show(session, names) {
    const { open, takes, parcels } = offered(session);
    this.session = session;
    this.names = names;
    replace(
      this.host,
      el("p", { class: "fields" }, el("label", {}, "text ", this.textField)),
      el("p", { class: "group" }, open ? this.maker("open a take", "root", {}) : "No more takes can be opened."),
      takes.length ? null : el("p", { class: "soft" }, "Open a take for each list of names and each stretch of pages."),
      takes.map(t => this.takeGroup(t)),
      parcels.map(p => this.parcelGroup(p)),
      this.signing(),
    );
  }

  takeGroup({ take, kinds }) {
    const maker = kind => (kind === "send" ? this.sender(take) : this.maker(this.labels[kind] ?? kind, kind, { take }));
    const name = this.names.numbered(take), makers = kinds.map(kind => [maker(kind), " "]);
    return el("div", { class: "group", role: "group", "aria-label": name }, el("strong", {}, name), " ", this.worker(take), makers);
  }

  /** The send button with its own choice of an addressee, which stays as it was chosen last; null where there is no other take. */
  sender(take) {
    const { session, names } = this, takes = present(session.image).filter(t => t !== take);
    const to = takes.filter(other => trial(session, packStep("send", { take, other })).outcome < REFUSED);
    if (!to.length) return null;
    const option = t => el("option", { value: t, selected: this.lastTo.get(take) === t }, names.numbered(t));
    const said = { class: "to", "data-from": take, "aria-label": `addressee of ${names.take(take)}` };
    const choice = el("select", { ...said, onchange: () => this.lastTo.set(take, Number(choice.value)) }, to.map(option));
    const data = { "data-kind": "send", "data-take": take, title: this.hint("send") };
    const send = button("send to", () => this.make("send", { take, other: Number(choice.value) }), data);
    return el("span", { class: "sender" }, send, " ", choice);
  }

  /** What a button does; with the step's word, where it is called otherwise. */
  hint(kind) {
    return kind in this.labels ? `${kind}: ${HINTS[kind]}` : HINTS[kind];
  }

  parcelGroup({ number, to, text, kinds }) {
    const name = `parcel ${number}`, about = ` for ${this.names.take(to)}, ${this.names.text(text)} `;
    const makers = kinds.map(kind => [this.maker(kind, kind, { parcel: number }), " "]);
    return el("div", { class: "group", role: "group", "aria-label": name }, el("strong", {}, name), about, makers);
  }

  maker(label, kind, fields) {
    const data = { "data-kind": kind, "data-take": fields.take, "data-parcel": fields.parcel };
    return button(label, () => this.make(kind, fields), { ...data, title: this.hint(kind) });
  }

  /** A letter and its receipt, where the ledger would take it in. */
  worker(take) {
    const copy = this.session.copy(), letter = packStep("letter", { take }), made = readReply(copy.run(letter), 0);
    const receive = packStep("receive", { parcel: made.parcel });
    if (made.outcome !== 0 || readReply(copy.run(receive), 0).outcome !== 0) return null;
    const data = { "data-kind": "work", "data-take": take, title: HINTS.work };
    return [button("start work", () => this.add(joined([letter, receive])), data), " "];
  }

  make(kind, fields) {
    this.confirm(kind, fields, () => {
      const text = WITH_TEXT.has(kind) ? { text: this.textOf() } : {};
      this.add(packStep(kind, { ...fields, ...text }));
    });
  }

  /** A box for each take, and the signing of those ticked, where the ledger accepts it. */
  signing() {
    const live = present(this.session.image);
    const go = button("sign", () => this.add(packStep("sign", { parcel: this.ticked() })), { "data-kind": "sign", disabled: true });
    const box = t => el("input", { type: "checkbox", value: t, "data-sign": t, onchange: () => this.weigh(go) });
    this.boxes = el("span", {}, live.map(t => el("label", { class: "tick" }, box(t), ` ${this.names.numbered(t)} `)));
    if (!live.length) return null;
    return el("div", { class: "group", role: "group", "aria-label": "signing" }, el("strong", {}, "volume "), this.boxes, go);
  }

  ticked() {
    return volumeOf([...this.boxes.querySelectorAll("input:checked")].map(box => Number(box.value)));
  }

  /** The sign button says what would be signed, and can be pressed only where the step is not refused. */
  weigh(go) {
    const volume = this.ticked();
    go.disabled = trial(this.session, packStep("sign", { parcel: volume })).outcome >= REFUSED;
    go.textContent = takesOf(volume).length ? `sign ${braces(volume)}` : "sign";
  }
}
