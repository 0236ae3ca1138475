// bundle WASM-FOLDER OUT: frame.html with the style, the lessons, the library's modules and the scripts in it, as one file. esbuild joins
// the scripts and the styles and leaves out what nobody reads.
import { execFileSync } from "node:child_process";
import { createHash } from "node:crypto";
import { readFileSync, writeFileSync, readdirSync, mkdirSync } from "node:fs";
import { gzipSync } from "node:zlib";
import { dirname, join } from "node:path";
import { fileURLToPath } from "node:url";

const here = dirname(fileURLToPath(import.meta.url));
const [wasm, out] = process.argv.slice(2);
const LIMIT = 350000;

const sha256 = (bytes, form) => createHash("sha256").update(bytes).digest(form);
const bundled = (file, ...more) => execFileSync("esbuild", [join(here, "src", file), "--bundle", "--minify", "--charset=utf8", ...more], { encoding: "utf8" }).trim();

const zipped = bytes => gzipSync(bytes, { level: 9 }).toString("base64");

/** The modules and the lessons, compressed and in base64, and the modules' sums. */
function data() {
  const modules = {}, sums = {};
  for (const name of ["ledger", "looking", "engine", "notation"]) {
    const bytes = readFileSync(join(wasm, `${name}.wasm`));
    modules[name] = zipped(bytes);
    sums[name] = sha256(bytes, "hex");
  }
  const files = readdirSync(join(here, "lessons")).filter(f => /^\d.*\.json$/.test(f)).sort();
  const lessons = files.map(f => ({ name: f.slice(0, -5), ...JSON.parse(readFileSync(join(here, "lessons", f), "utf8")) }));
  return JSON.stringify({ modules, sums, lessons: zipped(JSON.stringify(lessons)) });
}

const script = `${bundled("main.mjs", "--format=iife", "--global-name=page")}\npage.start(${data()});`.replaceAll("</script", "<\\/script");
const style = bundled("style.css");
const source = text => `'sha256-${sha256(text, "base64")}'`;
const policy = `default-src 'none'; script-src ${source(script)} 'wasm-unsafe-eval'; style-src ${source(style)}; base-uri 'none'; form-action 'none'`;
const parts = { POLICY: policy, STYLE: style, SCRIPT: script };
const html = readFileSync(join(here, "frame.html"), "utf8").replace(/@([A-Z]+)@/g, (_, part) => parts[part]);
mkdirSync(dirname(out), { recursive: true });
writeFileSync(out, html);
console.log(`${out}: ${Buffer.byteLength(html)} bytes`);
if (Buffer.byteLength(html) > LIMIT) throw new Error(`over ${LIMIT} bytes`);
