// A hearing as a file for another laptop.
import { save } from "../shared/files.mjs";
import { begun, toFile } from "../shared/hearing.mjs";
import { toLog } from "../shared/log.mjs";
import { Record } from "../shared/record.mjs";

/** A title as the beginning of a file's name. */
export const baseOf = (/** @type {string} */ title) => (title || "hearing").replace(/[^\p{L}\p{M}\p{N}_-]+/gu, "-").slice(0, 60);

/** Saves a hearing: its log, which the store reads too; one that starts from an image has none, and goes as the desk's file. */
export async function fileOf(hearing) {
  const log = await toLog(hearing, new Record(begun(hearing), hearing.list));
  if (log) save(`${baseOf(hearing.title)}.hearing`, log.text, "text/plain");
  else save(`${baseOf(hearing.title)}.json`, toFile(hearing), "application/json");
}
