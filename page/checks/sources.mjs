// The sources themselves: short functions, and lessons that ask.
import assert from "node:assert/strict";
import { readFileSync, readdirSync } from "node:fs";

const FOLDERS = ["page/", ...["", "course/", "desk/", "compare/", "shared/"].map(f => `page/src/${f}`), "page/checks/", "bindings/js/", "bindings/js/tests/"], LONGEST = 40;
const STARTS = /^(\s*)(?:export )?(?:static )?(?:async )?(?:function\b.*|(?:get |set )?[#\w$]+\(.*\)|const \w+ = .*=>|.*[(,=] ?(?:async )?(?:\([^()]*\)|\w+) =>) \{$/;

/** The functions of a text over several lines: first line and how many. */
function functions(text) {
  const lines = text.split("\n");
  return lines.flatMap((line, i) => {
    const start = /^\s*(if|for|while|switch|else|try|catch)\b/.test(line) ? null : STARTS.exec(line);
    return start ? [{ at: i + 1, length: lines.findIndex((l, j) => j > i && l.startsWith(`${start[1]}}`)) - i + 1 }] : [];
  });
}

export async function sourcesChecks({ check, root }) {
  await check(`no function over ${LONGEST} lines`, async () => {
    const files = FOLDERS.flatMap(folder => readdirSync(root + folder).filter(f => f.endsWith(".mjs")).map(f => folder + f));
    const found = files.flatMap(file => functions(readFileSync(root + file, "utf8")).map(f => ({ file, ...f })));
    assert.ok(found.length > 400, `${found.length} functions`);
    assert.deepEqual(found.filter(f => f.length > LONGEST), []);
  });
}
