"""Slips put into a copy of the schemas, one at a time: the checks must find each: slips.py sqlite|postgres. A slip is what
stands in the schema, and what is put in its place."""
import os
import subprocess
import sys
import tempfile

import sql

HERE = os.path.dirname(os.path.abspath(__file__))
SQLITE = {
    "nobody asks whose a take is": ("THEN RAISE(ABORT, 'this step is not yours')", "THEN NULL"),
    "nobody asks for the house": ("WHEN acts = 'house' AND new.who <> house", "WHEN false"),
    "strangers take part": (
        "WHERE new.who NOT IN (SELECT house FROM hearing UNION ALL SELECT owner FROM holder);\n  SELECT CASE",
        "WHERE false;\n  SELECT CASE",
    ),
    "a volume is anybody's": ("(acts = 'take' OR acts = 'volume' AND new.who <> house)", "acts = 'take'"),
    "the first owner stays": (
        "(SELECT max(entry) FROM take u WHERE u.take = t.take)",
        "(SELECT min(entry) FROM take u WHERE u.take = t.take)",
    ),
    "owners give takes away": (
        "(new.who <> holder.owner OR coalesce(new.owner, new.who) <> new.who)",
        "new.who <> holder.owner",
    ),
    "a call is played twice": ("THEN RAISE(IGNORE) ELSE", "THEN NULL ELSE"),
    "another step under a call's number": ("ELSE RAISE(ABORT, 'this call was another step')", "ELSE RAISE(IGNORE)"),
    "rows can be replaced": (
        "SELECT RAISE(ABORT, 'the log is kept') WHERE EXISTS (SELECT 1 FROM step WHERE number = new.number);",
        "",
    ),
    "numbers with gaps": ("WHERE new.number <> steps + 1;", "WHERE new.number <= steps;"),
    "steps can be deleted": (
        "BEFORE DELETE ON step BEGIN SELECT RAISE(ABORT, 'the log is kept'); END",
        "BEFORE DELETE ON step BEGIN SELECT 1; END",
    ),
    "any image can be put in": ("new.at <> now.steps OR new.image <> now.image", "false"),
    "the sum leaves out who": (
        "at || ' ' || ledger_hex(who) || ' ' || coalesce(call, '-'), sum FROM step",
        "at || ' ' || coalesce(call, '-'), sum FROM step",
    ),
    "the sum leaves out the one before": (
        "UPDATE step SET sum = ledger_sha256((SELECT ledger_hex(sum) FROM last) || ' ' ||",
        "UPDATE step SET sum = ledger_sha256(",
    ),
    "the check forgets rights": ("WHERE NOT CASE\n      WHEN by_house", "WHERE false AND NOT CASE\n      WHEN by_house"),
    "the check forgets strangers": ("ELSE owned <> 0 AND takes & ~owned = 0", "ELSE takes & ~owned = 0"),
    "the check forgets who said words": ("OR w.who <> h.house AND NOT EXISTS (", "OR false AND NOT EXISTS ("),
    "the check forgets words said twice": (
        "WHERE EXISTS (SELECT 1 FROM words v WHERE v.text = w.text AND v.entry < w.entry) OR",
        "WHERE",
    ),
    "the check forgets takes that nobody opened": (
        "WHERE NOT EXISTS (SELECT 1 FROM step s WHERE s.opened = t.take AND s.entry < t.entry)\n    OR",
        "WHERE",
    ),
    "the check forgets whoever opened a take": ("SELECT 'owner', s.entry FROM step s WHERE", "SELECT 'owner', s.entry FROM step s WHERE false AND"),
    "the check forgets calls": ("SELECT 'call', number FROM step s WHERE", "SELECT 'call', number FROM step s WHERE false AND"),
    "the check forgets a missing hearing": ("(SELECT count(*) FROM hearing) <> 1", "false"),
    "the check forgets a missing snapshot": ("SELECT 'image', 0 FROM hearing WHERE", "SELECT 'image', 0 FROM hearing WHERE false AND"),
    "the last sum by the numbers of a table": (
        "FROM played, (SELECT entry, sum FROM entry ORDER BY entry DESC LIMIT 1) last LEFT JOIN",
        "FROM played, last LEFT JOIN",
    ),
    "a step without a reply": ("SELECT RAISE(ABORT, 'no reply to this step: ask hearing_check')", "SELECT 1"),
    "the check forgets replies": ("WHERE s.reply IS NOT r.reply OR s.opened IS NOT r.opened", "WHERE false"),
    "the check forgets the image": ("AND s.image <> ledger_run(", "AND false AND s.image <> ledger_run("),
    "the check forgets the sums": ("WHERE entry IS NOT place OR sum IS NOT right", "WHERE false"),
    "words can be said twice": ("WHERE EXISTS (SELECT 1 FROM words WHERE text = new.text)", "WHERE false"),
}
POSTGRES = {
    "nobody asks whose a take is": ("OR p.takes & ~mine = 0\n      END) THEN", "OR true\n      END) THEN"),
    "nobody asks for the house": ("WHEN 'house' THEN (h).house = session_user", "WHEN 'house' THEN true"),
    "strangers take part": ("IF h.id IS NULL OR NOT hearings.takes_part($1) THEN", "IF h.id IS NULL THEN"),
    "strangers read": ("USING (hearing = ANY ((SELECT mine())::integer[]))", "USING (true)"),
    "whoever asks is whoever he says": (
        "RETURN (SELECT coalesce(bit_or(1 << o.take), 0) FROM (SELECT DISTINCT ON (t.take) t.take, t.owner FROM hearings.take t\n    WHERE t.hearing = $1 ORDER BY t.take, t.entry DESC) o",
        "RETURN (SELECT coalesce(bit_or(1 << o.take), 0) FROM (SELECT DISTINCT ON (t.take) t.take, t.owner FROM hearings.take t\n    WHERE t.hearing = $1 ORDER BY t.take, t.entry) o",
    ),
    "a call is played twice": ("IF was = $2 THEN RETURN; END IF;\n  IF was IS NOT NULL", "IF was <> $2"),
    "the client's setting is heeded": (
        "PERFORM set_config('synchronous_commit', CASE WHEN $4 THEN 'on' ELSE 'off' END, true)",
        "PERFORM 1",
    ),
    "any isolation will do": ("IF current_setting('transaction_isolation') <> 'read committed' THEN", "IF false THEN"),
    "in a block of one's own": ("PERFORM ledger.ledger_alone();", ""),
    "the client's functions in the place of the server's": (
        "OUT first bigint, OUT replies bytea)\nLANGUAGE plpgsql SECURITY DEFINER SET search_path = pg_catalog, pg_temp AS",
        "OUT first bigint, OUT replies bytea)\nLANGUAGE plpgsql SECURITY DEFINER AS",
    ),
    "the image of another moment": (
        "UPDATE hearings.hearing SET image = ledger.ledger_run(now.image, $2), image_at",
        "UPDATE hearings.hearing SET image = now.image, image_at",
    ),
    "play notifies": (
        "  first := now.steps + 1;\n",
        "  first := now.steps + 1; PERFORM pg_notify('hearing_' || $1, first::text);\n",
    ),
    "the sum leaves out who": ("moment(s.at), hex(s.who),", "moment(s.at), hex('x'),"),
    "anybody gives takes away": (
        "IF h.house <> session_user AND (was.owner <> session_user",
        "IF false AND (was.owner <> session_user",
    ),
    "the check forgets rights": (
        "WHERE NOT CASE\n      WHEN l.who = h.house",
        "WHERE false AND NOT CASE\n      WHEN l.who = h.house",
    ),
    "the check forgets strangers": ("SELECT coalesce(bit_or(1 << o.take), 0) <> 0 AND p.takes &", "SELECT p.takes &"),
    "the check forgets who said words": ("WHERE w.who <> h.house AND NOT EXISTS", "WHERE false AND NOT EXISTS"),
    "the check forgets takes that nobody opened": (
        "WHERE NOT EXISTS (SELECT FROM log l WHERE l.opened = t.take AND l.entry < t.entry)\n    OR",
        "WHERE",
    ),
    "the check forgets whoever opened a take": ("SELECT 'owner', l.entry FROM log l WHERE", "SELECT 'owner', l.entry FROM log l WHERE false AND"),
    "the check forgets the order of the log": ("OR l.number <> l.place_in_log", ""),
    "the check forgets the sums": ("WHERE c.entry <> c.place OR c.sum <> c.made", "WHERE false"),
}


def main():
    which, done = sys.argv[1], sql.Counted()
    file, slips, variable, check = {
        "sqlite": ("store/hearing.sql", SQLITE, "HEARING_SQL", "hearing_sqlite.py"),
        "postgres": ("store/postgres/hearings.sql", POSTGRES, "HEARINGS_SQL", "hearing_postgres.py"),
    }[which]
    with open(os.path.join(sql.ROOT, file), encoding="utf-8") as opened:
        schema = opened.read()
    with tempfile.TemporaryDirectory() as folder:
        os.chmod(folder, 0o755)
        copy = os.path.join(folder, "slip.sql")
        for name, (old, new) in slips.items():
            done.must(f"{name}: stands nowhere in {file}", old in schema)
            with open(copy, "w", encoding="utf-8") as out:
                out.write(schema.replace(old, new))
            run = subprocess.run(
                [sys.executable, os.path.join(HERE, check)],
                env=dict(os.environ, **{variable: copy}),
                capture_output=True,
                text=True,
            )
            told = (run.stdout or run.stderr).strip().split("\n")
            print(f"{name}: {(told[-2] if run.stdout and len(told) > 1 else told[-1])[:150]}", flush=True)
            done.holds(f"{name}: not found", run.returncode != 0)
    done.end()


if __name__ == "__main__":
    main()
