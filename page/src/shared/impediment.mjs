// Why no volume with a take could be signed now: what is in the way, and the takes from the one asked about to it, each resting on the
// next. The answers are the library's.
import { Refusal } from "../../../bindings/js/ledger.mjs";

/** kind: nothing, withdrawn (with the ground), all signed, or not frozen; path: from the take to the one that is in the way. */
export function impediment(session, take) {
  const found = session.impediment(take), path = [take];
  if (found.kind === "nothing") return { kind: "nothing", path: [] };
  while (path.at(-1) !== found.take) {
    const ground = found.kind === "withdrawn" ? namedGround(session, path.at(-1)) : null;
    if (ground !== null) return { kind: found.kind, ground, path };
    path.push(session.impediment(path.at(-1)).next);
  }
  return { kind: found.kind, ground: found.ground, path };
}

/** A ground of the take itself that the ledger names as withdrawn; null where it names something else first, or the take has all its signings. */
function namedGround(session, take) {
  try {
    const { kind, ground } = session.obstacle(1 << take);
    return kind === "withdrawn" ? ground : null;
  } catch (e) {
    if (!(e instanceof Refusal)) throw e;
    return null;
  }
}
