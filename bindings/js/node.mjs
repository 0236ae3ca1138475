// For node: loads the modules from the folder wasm beside this file, as in the package, or from where bindings/js/build left them.
import { existsSync, readFileSync } from "node:fs";
import { join } from "node:path";
import { fileURLToPath } from "node:url";
import { load } from "./ledger.mjs";

const BESIDE = fileURLToPath(new URL("./wasm/", import.meta.url));
export const FOLDER = existsSync(BESIDE) ? BESIDE : fileURLToPath(new URL("../../target/wasm/", import.meta.url));

/**
 * Throws where bindings/js/build has not been run.
 * @param {string} [folder]
 */
export async function loadFrom(folder = FOLDER) {
  const [ledger, looking, engine, notation] = ["ledger", "looking", "engine", "notation"].map(name => readFileSync(join(folder, `${name}.wasm`)));
  await load({ ledger, looking, engine, notation });
}
