// Plays how a situation came about: deed after deed, each with its sentence.
import { Picture } from "../shared/picture.mjs";
import { linesOf } from "../shared/grounds.mjs";
import { button, el, replace } from "../shared/dom.mjs";
import { mark } from "../shared/marks.mjs";
import { newsOf } from "./spreading.mjs";

const PAUSE = 1500;

export class Playing {
  constructor(player, events) {
    this.player = player;
    this.events = events;
    this.at = 0;
    this.host = el("div", { class: "picture-host" });
    this.caption = el("p", { class: "caption", role: "status" });
    const stop = button(["Stop", mark("stop", 14)], () => this.stop(), { class: "btn bare sm", "data-focus": "play" });
    replace(player.stage, el("div", { class: "board" }, this.host, el("div", { class: "floor" })), el("div", { class: "tools" }, stop), this.caption);
    stop.focus({ preventScroll: true });
    this.picture = new Picture(this.host);
    this.step();
  }

  step() {
    if (this.at >= this.events.length) return this.stop();
    const { player } = this, { record, count } = player.scene, event = this.events[this.at++];
    const layout = linesOf(record, count);
    this.picture.show(record, event.last, player.names, { layout, fresh: event.takes, ...newsOf(record, event.first - 1, event.last), shown: player.screen.shown ?? null });
    this.caption.textContent = event.words;
    this.timer = setTimeout(() => this.step(), PAUSE);
  }

  stop() {
    clearTimeout(this.timer);
    if (this.player.playing !== this) return;
    this.player.playing = null;
    this.player.draw(`[data-focus="play"]`);
  }
}
