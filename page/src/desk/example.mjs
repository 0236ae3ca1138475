// An example hearing: three speakers and six pages, two of them ready to be signed.
import { Session, GREATEST } from "../../../bindings/js/ledger.mjs";
import { joined } from "../../../bindings/js/packed.mjs";
import { emptyHearing } from "../shared/hearing.mjs";
import { freezing } from "../shared/deeds.mjs";
import { opening } from "./wishes.mjs";

/**
 * Names, and pages with what they are set from.
 * @type {[name: string, words: string, grounds?: number[]][]}
 */
const CARDS = [
  ["Mr. Abara", "witness"], ["Ms. Lindqvist", "counsel"], ["Judge Okoro", "chair"],
  ["Page 1", "MR. ABARA: Good morning.", [0]], ["Page 2", "MS. LINDQVIST: Exhibit 4, please.", [1]], ["Page 3", "JUDGE OKORO: We are on the record.", [2]],
  ["Page 4", "Q. by Ms. Lindqvist, A. by Mr. Abara", [0, 1]], ["Page 5", "MR. ABARA: It was the crane.", [3]], ["Page 6", "JUDGE OKORO: Sustained.", [5]],
];
const FROZEN = [2, 5];

export function exampleHearing() {
  const hearing = { ...emptyHearing(GREATEST), title: "Harbour inquiry, day 3" }, session = Session.begin(GREATEST), parts = [];
  const add = list => {
    session.runAll(list);
    parts.push(list);
  };
  CARDS.forEach(([name, words, grounds], take) => {
    const page = Array.isArray(grounds), text = take + 1;
    add(opening(session, text, page ? grounds : []));
    hearing.takes[take] = name;
    hearing.texts[text] = page ? words : name;
    hearing.about[take] = page ? { kind: "page" } : { kind: "name", role: words };
  });
  for (const take of FROZEN) add(freezing(session, take));
  return { ...hearing, list: joined(parts) };
}
