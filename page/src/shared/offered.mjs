// Which steps the ledger accepts now: each is tried on a copy of the session, and those that are not refused are offered.
import { packStep, readReply } from "../../../bindings/js/packed.mjs";
import { readHeads, readParcels } from "../../../bindings/js/image.mjs";
import { REFUSED } from "./words.mjs";

const OF_A_TAKE = ["write", "read", "freeze", "done", "new", "send", "fall", "fail", "letter"];
const OF_A_PARCEL = ["receive", "lose"];

/** The reply that a step would get now. */
export function trial(session, bytes) {
  return readReply(session.copy().run(bytes), 0);
}

/** The takes that are opened and have not vanished. */
export function present(image) {
  const heads = readHeads(image);
  return heads.map((_, t) => t).filter(t => heads[t].status !== "vanished");
}

const accepted = (session, kind, fields) => trial(session, packStep(kind, fields)).outcome < REFUSED;

/** For the session: whether a take can be opened; for each live take its kinds; for each waiting parcel receive and lose. */
export function offered(session) {
  const image = session.image, fields = (kind, take) => (kind === "send" ? { take, other: take } : { take });
  const takes = present(image).map(take => ({ take, kinds: OF_A_TAKE.filter(kind => accepted(session, kind, fields(kind, take))) }));
  const parcels = readParcels(image).map(({ number, to, text }) => {
    return { number, to, text, kinds: OF_A_PARCEL.filter(kind => accepted(session, kind, { parcel: number })) };
  });
  return { open: accepted(session, "root", {}), takes: takes.filter(t => t.kinds.length), parcels };
}
