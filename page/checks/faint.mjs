// Works in the page, on a picture of it: every word, line and shape in view that has too little contrast to what is around it. The
// functions are sent to the page as they are written, so each takes all that it needs.

/**
 * The pixels of a picture, and sums on colours, which are numbers of three bytes.
 * @param {ImageBitmap} map
 */
function look(map) {
  const { width, height } = map, canvas = Object.assign(document.createElement("canvas"), { width, height }).getContext("2d");
  if (!canvas) throw new Error("no canvas");
  canvas.drawImage(map, 0, 0);
  const { data } = canvas.getImageData(0, 0, width, height), level = c => (c <= 0.04045 ? c / 12.92 : ((c + 0.055) / 1.055) ** 2.4);
  const light = n => 0.2126 * level((n >> 16) / 255) + 0.7152 * level(((n >> 8) & 255) / 255) + 0.0722 * level((n & 255) / 255);
  const at = (x, y) => {
    const i = 4 * (Math.floor(y) * width + Math.floor(x));
    return x >= 0 && y >= 0 && x < width && y < height ? (data[i] << 16) | (data[i + 1] << 8) | data[i + 2] : null;
  };
  return {
    at,
    against: (a, b) => (([x, y]) => (x + 0.05) / (y + 0.05))([light(a), light(b)].sort((p, q) => q - p)),
    inside: r => r.width > 0 && r.height > 0 && r.left >= 0 && r.top >= 0 && r.right <= width && r.bottom <= height,
    /** A colour of a style, unless it can be seen through. */
    number: css => (m => (m && (m[4] === undefined || Number(m[4]) > 0.5) ? (Number(m[1]) << 16) | (Number(m[2]) << 8) | Number(m[3]) : null))(/rgba?\((\d+), (\d+), (\d+)(?:, ([\d.]+))?\)/.exec(css)),
    word: n => `#${n.toString(16).padStart(6, "0")}`,
    /** The colours of a part of the picture, but for a hole in it, by how much of it they have. */
    shares(r, hole = { left: 0, right: 0, top: 0, bottom: 0 }) {
      const counts = new Map(), out = (x, y) => x < hole.left || x > hole.right || y < hole.top || y > hole.bottom;
      for (let y = r.top; y < r.bottom; y++) for (let x = r.left; x < r.right; x++) if (out(x, y)) counts.set(at(x, y), (counts.get(at(x, y)) ?? 0) + 1);
      const all = [...counts.values()].reduce((sum, n) => sum + n, 0);
      return [...counts].filter(([c]) => c !== null).map(([c, n]) => ({ c, share: n / all })).sort((a, b) => b.share - a.share);
    },
  };
}

/** Whether an element is there to be seen: neither hidden, nor clipped by a part that scrolls, nor under something else. */
function shown(e) {
  const svg = e.closest("svg") ?? e, r = svg.getBoundingClientRect(), top = document.elementFromPoint((r.left + r.right) / 2, (r.top + r.bottom) / 2);
  const visible = e.checkVisibility({ opacityProperty: true, visibilityProperty: true, contentVisibilityAuto: true }) && !e.closest(".unseen");
  return visible && (svg.matches(".lines") || (top !== null && (svg.contains(top) || top.contains(svg))));
}

const named = e => `${e.tagName.toLowerCase()}${(e.getAttribute("class") ?? "").trim().replace(/^|\s+/g, ".").replace(/^\.$/, "")}`;

function faintWords({ against, inside, number, shares, word }, least) {
  const found = [], walk = document.createTreeWalker(document.body, NodeFilter.SHOW_TEXT);
  for (let node = walk.nextNode(); node; node = walk.nextNode()) {
    const e = node.parentElement, said = node.textContent?.trim();
    if (!e || !said || e.closest("script, style, option") || !shown(e)) continue;
    const range = document.createRange(), style = getComputedStyle(e), own = number(e instanceof SVGElement ? style.fill : style.color);
    range.selectNodeContents(node);
    const rect = [...range.getClientRects()].find(r => r.width > 3 && inside(r));
    if (Number(style.opacity) < 1 && style.animationName === "none") found.push(`text ${named(e)} “${said.slice(0, 30)}” is faded by ${style.opacity}`);
    const low = rect && own !== null ? shares(rect).slice(0, 3).filter(({ c, share }) => share > 0.14 && against(own, c) < least && against(own, c) > 1.02) : [];
    for (const { c } of low) found.push(`text ${named(e)} “${said.slice(0, 30)}” ${word(own)} on ${word(c)}: ${against(own, c).toFixed(2)}`);
  }
  for (const e of document.querySelectorAll("main:not([hidden]) :is(input, textarea)[placeholder]:placeholder-shown")) {
    const r = e.getBoundingClientRect(), own = number(getComputedStyle(e, "::placeholder").color), around = inside(r) && shown(e) ? shares(r)[0] : null;
    if (own !== null && around && against(own, around.c) < least) found.push(`placeholder of ${named(e)} ${word(own)} on ${word(around.c)}: ${against(own, around.c).toFixed(2)}`);
  }
  return found;
}

function faintShapes({ against, inside, number, shares, word }, least, ignored) {
  const found = [];
  for (const e of document.querySelectorAll("body svg :is(path, circle, rect, line)")) {
    if (e.matches(ignored) || !shown(e)) continue;
    const r = e.getBoundingClientRect(), style = getComputedStyle(e), own = [style.stroke, style.fill].map(number).filter(c => c !== null), line = parseFloat(style.strokeWidth) / 2;
    const grown = by => ({ left: r.left - by, top: r.top - by, right: r.right + by, bottom: r.bottom + by, width: r.width + 2 * by, height: r.height + 2 * by }), box = grown(line + 4);
    const under = /\bon-/.test(e.getAttribute("class") ?? "") && e.previousElementSibling ? number(getComputedStyle(e.previousElementSibling).fill) : null; // a sign on a mark
    const around = !own.length || !inside(box) ? null : under !== null ? { c: under } : shares(box, grown(line + 1)).find(s => !own.includes(s.c)), best = around ? Math.max(...own.map(c => against(c, around.c))) : least;
    if (around && best < least) found.push(`shape ${named(e)} in ${named(e.parentElement)} ${own.map(word)} on ${word(around.c)}: ${best.toFixed(2)}`);
  }
  return found;
}

/** The greatest contrast to the outside on the way over a side of a box: the best of several places along the side. */
function edge({ at, against }, r, side) {
  const flat = side === "top" || side === "bottom", places = Array.from({ length: 17 }, (_, k) => (k + 2) / 20);
  return Math.max(...places.map(part => {
    const colours = Array.from({ length: 14 }, (_, k) => k - 5).map(d => {
      const inward = { left: r.left + d, right: r.right - d - 1, top: r.top + d, bottom: r.bottom - d - 1 }[side];
      return flat ? at(r.left + part * r.width, inward) : at(inward, r.top + part * r.height);
    }).filter(c => c !== null);
    return Math.max(1, ...colours.map(c => against(c, colours[0])));
  }));
}

function faintLines(pixels, least, { telling, outlined }) {
  const found = [], sides = ["top", "right", "bottom", "left"];
  for (const e of document.querySelectorAll("main:not([hidden]) *, header, header *")) {
    const r = e.getBoundingClientRect();
    if (e instanceof SVGElement || !pixels.inside(r) || !shown(e)) continue;
    const style = getComputedStyle(e), best = Object.fromEntries(sides.map(side => [side, edge(pixels, r, side)]));
    const lined = sides.filter(s => pixels.number(style[`border-${s}-color`]) !== null && parseFloat(style[`border-${s}-width`]) && !["none", "hidden"].includes(style[`border-${s}-style`]));
    for (const side of lined) if (best[side] < least) found.push(`line ${side} of ${named(e)}: ${best[side].toFixed(2)}`);
    if (e.matches(outlined) && best.left < least) found.push(`outline of ${named(e)}: ${best.left.toFixed(2)}`);
    if (e.matches(telling) && sides.every(side => best[side] < least)) found.push(`${named(e)} is told by its fill alone`);
  }
  return found;
}

/**
 * @param {string} png in base64
 * @param {{text: number, shape: number, ignored: string, telling: string, outlined: string}} how
 */
async function faint(png, { text, shape, ignored, ...lines }) {
  const pixels = look(await createImageBitmap(new Blob([Uint8Array.from(atob(png), c => c.charCodeAt(0))])));
  return [...new Set([...faintWords(pixels, text), ...faintShapes(pixels, shape, ignored), ...faintLines(pixels, shape, lines)])];
}

/** The call for the page: what is too faint in this picture of it. */
export function askFaint(png, how) {
  const functions = [look, shown, faintWords, faintShapes, edge, faintLines, faint].map(String).join("\n");
  return `(() => { const named = ${named}; ${functions}; return faint(${JSON.stringify(png)}, ${JSON.stringify(how)}); })()`;
}
