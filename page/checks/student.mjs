// A student of the course: what can be pressed and picked on a screen, and what the page says.

const quoted = JSON.stringify;

/** Hands of a student. */
export function student(browser) {
  const on = selector => browser.eval(`document.querySelector(${quoted(selector)}) !== null`);
  const press = async selector => {
    await browser.until(`document.querySelector(${quoted(selector)})`);
    await browser.eval(`(b => { b.focus(); b.click(); })(document.querySelector(${quoted(selector)}))`);
  };
  const target = (screen, x) => {
    if (screen.kind === "takes") return `.stage [data-take="${x}"]`;
    if (screen.kind === "lives") return `.stage [data-life="${x}"]`;
    return screen.kind === "sets" ? `.sets [data-chip="${x}"]` : `[data-choice="${x}"]`;
  };
  const several = screen => ["takes", "lives"].includes(screen.kind) && !screen.one;
  const check = screen => (several(screen) ? press(`[data-focus="check"]`) : null);
  return {
    on, press,
    /** Picks these, and nothing else. */
    async pick(screen, list) {
      for (const picked of await browser.eval(`[...document.querySelectorAll(".stage .picked")].map(e => e.dataset.take ?? e.dataset.life)`)) if (several(screen) && picked !== undefined) await press(target(screen, picked));
      for (const x of list) await press(target(screen, x));
      await check(screen);
    },
    said: () => browser.eval(`(a => (a.querySelectorAll(".tip").forEach(t => t.remove()), [a.className, a.textContent]))(document.querySelector(".answer").cloneNode(true))`),
  };
}
