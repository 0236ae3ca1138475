"""Figures, each beside a table without the ledger in the same run: figures.py [ROUNDS]. Steps a second by one and by sixteen
clients, bytes a step, the time of hearing_check for 10,000 steps; each as a row, with the ratio of the two. The ways take turns
of a second each, and the figure of a way is the median of its rounds: a disk that others use too is fast in one second and slow
in the next. Five rounds take four minutes. What is not built yet is built first."""
import multiprocessing
import os
import re
import statistics
import subprocess
import sys
import tempfile
import time

import sql
from cluster import Cluster, Laptop, room

PLAIN = "CREATE TABLE plain(number INTEGER PRIMARY KEY, step BLOB, who TEXT, reply BLOB, at TEXT, sum BLOB)"
TO_PLAIN = ("INSERT INTO plain(step, who, reply, at, sum) VALUES (x'6000000000000001', 'clerk', x'0000000000000000',"
            " strftime('%Y-%m-%dT%H:%M:%fZ', 'now'), zeroblob(32))")
TO_HEARING = "INSERT INTO step(step, who) VALUES (x'6000000000000001', 'clerk')"


def row(what, unit, ledger, plain):
    """One row of the table."""
    print(f"| {what} | {ledger:,.0f} {unit} | {plain:,.0f} {unit} | {ledger / plain:.2f} |", flush=True)


def lite(path):
    connection = sql.connect(path, timeout=120)
    connection.execute("PRAGMA synchronous = FULL")
    return connection


def insert(path, text, seconds, counted):
    connection, n, until = lite(path), 0, time.time() + seconds
    while time.time() < until:
        connection.execute(text)
        n += 1
    counted.put(n)


def rate_sqlite(path, text, clients, seconds):
    counted = multiprocessing.Queue()
    processes = [multiprocessing.Process(target=insert, args=(path, text, seconds, counted)) for _ in range(clients)]
    for process in processes:
        process.start()
    total = sum(counted.get() for _ in processes)
    for process in processes:
        process.join()
    return total / seconds


def in_turns(ways, rounds):
    """Each way once a round; the median of each."""
    seen = [[] for _ in ways]
    for _ in range(rounds):
        for figures, way in zip(seen, ways):
            figures.append(way())
    return [statistics.median(figures) for figures in seen]


def sqlite(folder, rounds):
    path = os.path.join(folder, "figures.db")
    connection = lite(path)
    sql.hearing(connection)
    connection.execute(PLAIN)
    connection.execute("INSERT INTO hearing(title, house) VALUES ('figures', 'clerk')")
    for text in ("root text 1", "letter to 0 text 1", "receive 0"):
        connection.execute("INSERT INTO step(step, who) VALUES (ledger_pack(?), 'clerk')", (text,))
    for clients in (1, 16):
        plain, hearing = in_turns([lambda text=text: rate_sqlite(path, text, clients, 1) for text in (TO_PLAIN, TO_HEARING)], rounds)
        row(f"SQLite, {clients} client{'s' * (clients > 1)}", "steps/s", hearing, plain)
    connection.execute("BEGIN")
    begun = time.time()
    for _ in range(2000):
        connection.execute(TO_HEARING)
    hearing, begun = time.time() - begun, time.time()
    for _ in range(2000):
        connection.execute(TO_PLAIN)
    plain = time.time() - begun
    connection.execute("COMMIT")
    row("SQLite, processor alone, without the disk", "us a step", hearing / 2000 * 1e6, plain / 2000 * 1e6)
    checked_sqlite(folder)


def checked_sqlite(folder):
    sizes, path = [], os.path.join(folder, "check.db")
    connection = lite(path)
    sql.hearing(connection)
    connection.execute("INSERT INTO hearing(title, house) VALUES ('figures', 'clerk')")
    for text in ("root text 1", "letter to 0 text 1", "receive 0"):
        connection.execute("INSERT INTO step(step, who) VALUES (ledger_pack(?), 'clerk')", (text,))
    size = lambda: connection.execute("PRAGMA wal_checkpoint(TRUNCATE)").fetchall() and os.path.getsize(path)
    sizes.append(size())
    connection.execute("BEGIN")
    for _ in range(10000):
        connection.execute(TO_HEARING)
    connection.execute("COMMIT")
    sizes.append(size())
    connection.execute(PLAIN)
    begun = time.time()
    holds = connection.execute("SELECT holds FROM hearing_check").fetchone()[0]
    took, begun = time.time() - begun, time.time()
    connection.execute("SELECT count(*), sum(length(line)) FROM entry").fetchall()
    read = time.time() - begun
    assert holds == 1
    row("SQLite, hearing_check of 10,003 steps, beside reading them", "ms", took * 1000, read * 1000)
    connection.execute("BEGIN")
    for _ in range(10000):
        connection.execute(TO_PLAIN)
    connection.execute("COMMIT")
    sizes.append(size())
    row("SQLite, in the file", "bytes a step", (sizes[1] - sizes[0]) / 10000, (sizes[2] - sizes[1]) / 10000)


def pgbench(cluster, script, clients, seconds=1):
    file = os.path.join(os.path.dirname(cluster.folder), "script.sql")
    with open(file, "w", encoding="utf-8") as out:
        out.write("\\set r random(0, 4294967295)\n\\set call random(1, 9000000000000000000)\n" + script)
    before = cluster.psql("-c", "CHECKPOINT", "-c", "SELECT pg_current_wal_insert_lsn()").strip()
    words = f"-n -M prepared -h {cluster.folder} -p {cluster.port} -U clerk -c {clients} -j {min(clients, 2)} -T {seconds} -f {file} t"
    run = subprocess.run(["/usr/lib/postgresql/15/bin/pgbench", *words.split()], capture_output=True, text=True, check=True).stdout
    bytes_ = float(cluster.psql("-c", f"SELECT pg_wal_lsn_diff(pg_current_wal_insert_lsn(), '{before}')"))
    n = int(re.search(r"actually processed: (\d+)", run)[1])
    return float(re.search(r"tps = ([\d.]+)", run)[1]), bytes_ / n


def postgres(folder, rounds, **settings):
    with Cluster(folder, **settings) as cluster:
        cluster.database()
        cluster.roles(["clerk"], [])
        cluster.psql("-c", "CREATE TABLE hearings.plain (LIKE hearings.step INCLUDING ALL)", "-c", "CREATE SEQUENCE hearings.plain_seq",
                     "-c", "GRANT ALL ON hearings.plain, hearings.plain_seq TO clerk")
        clerk = Laptop(cluster, "clerk")
        hearings = [clerk.one("SELECT hearings.open_hearing('figures')")[0] for _ in range(16)]
        for h in hearings:
            clerk.do(h, "root text 1\nletter to 0 text 1\nreceive 0")
        write = "int8send(6917529027641081856 + :r)"  # write 0 text r
        plain = ("INSERT INTO hearings.plain(hearing, number, step, who, call, reply, at, entry, sum) VALUES (1,"
                 " nextval('hearings.plain_seq'), int8send(:r), session_user, :call, int8send(:r), clock_timestamp(), 1,"
                 " sha256(int8send(:r)));\n")
        sure = "SELECT ledger.ledger_sure();\n"
        said = "".join(f", {key} {value}" for key, value in settings.items())
        ways = {"plain table": plain,
                "play, waiting": f"SELECT first FROM hearings.play(1, {write}, :call);\n",
                "play, then ledger_sure": f"SELECT first FROM hearings.play(1, {write}, :call, false);\n{sure}",
                "a hearing each, then ledger_sure": f"SELECT first FROM hearings.play(1 + :client_id, {write}, :call, false);\n{sure}"}
        for clients in (1, 16):
            wal = {}
            turns = [lambda way=way: pgbench_rate(cluster, ways[way], clients, wal, way) for way in ways]
            rates = in_turns(turns, rounds)
            for way, rate in list(zip(ways, rates))[1:]:
                row(f"PostgreSQL{said}, {clients} client{'s' * (clients > 1)}, {way}", "steps/s", rate, rates[0])
            for way in list(ways)[1:] if not said else ():
                row(f"PostgreSQL, {clients} client{'s' * (clients > 1)}, {way}: its log", "bytes a step", wal[way], wal["plain table"])
        if settings:
            return
        many = f"(SELECT string_agg({write.replace(':r', 'i')}, '') FROM generate_series(1, 256) i)"
        batch = f"SELECT first FROM hearings.play(1, {many}, :call);\n"
        batched, single = pgbench(cluster, batch, 1, 2)[0] * 256, pgbench(cluster, plain, 1, 2)[0]
        row("PostgreSQL, 1 client, 256 steps a call, beside one row a call", "steps/s", batched, single)
        h = clerk.one("SELECT hearings.open_hearing('check')")[0]
        clerk.do(h, "root text 1\nletter to 0 text 1\nreceive 0")
        for _ in range(10):
            clerk.do(h, "\n".join(f"write 0 text {i}" for i in range(1000)))
        begun = time.time()
        holds = clerk.one("SELECT holds FROM hearings.hearing_check(?)", h)[0]
        took, begun = time.time() - begun, time.time()
        clerk.one("SELECT count(*), sum(length(line)) FROM hearings.entry WHERE hearing = ?", h)
        read = time.time() - begun
        assert holds
        row("PostgreSQL, hearing_check of 10,003 steps, beside reading them", "ms", took * 1000, read * 1000)
        kept = [float(cluster.psql("-c", f"SELECT pg_total_relation_size('hearings.{t}')::float / count(*) FROM hearings.{t}")) for t in ("step", "plain")]
        row("PostgreSQL, kept, with index", "bytes a step", *kept)


def pgbench_rate(cluster, script, clients, wal, way):
    rate, wal[way] = pgbench(cluster, script, clients)
    return rate


def main():
    rounds = int((sys.argv[1:] or ["5"])[0])
    for built, script in ((sql.EXTENSION + ".so", "store/sqlite/build"), ("/usr/lib/postgresql/15/lib/take_ledger.so", "store/postgres/build")):
        if not os.path.exists(built):
            subprocess.run([os.path.join(sql.ROOT, script)], check=True, stdout=subprocess.DEVNULL)
    begun = time.time()
    print("| | with the ledger | plain table | ratio |\n|---|---|---|---|", flush=True)
    with tempfile.TemporaryDirectory() as folder:
        sqlite(folder, rounds)
    for settings in ({}, {"fsync": "off"}):
        with room() as folder:
            postgres(folder, rounds, **settings)
    print(f"({rounds} rounds, {time.time() - begun:.0f} seconds)")


if __name__ == "__main__":
    main()
