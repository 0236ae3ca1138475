"""Sixteen roles and the house play at once in PostgreSQL; clients are killed, the server is stopped at once, a standby takes over:
crowd_postgres.py [STEPS [STOPS]].

Each client is a process. It tells its own file what it is about to do (T), then what came of it: A with number and replies, E
where it was turned back. A client whose connection broke asks again with the same number. Half of the calls wait, half play
without waiting and ask ledger_sure() before they count as answered; every client has set synchronous_commit = off, which play must
not heed. In the end every acknowledged step must stand in the log, where its answer said, in its client's order and once; what
was turned back must not; and what stands there without an answer was asked for."""
import collections
import glob
import os
import random
import signal
import subprocess
import sys
import threading
import time

import psycopg2

import sql
from cluster import Cluster, Laptop, room

HOUSE, HEARINGS, GREATEST = 16, 2, 8  # a call has at most so many steps


def name(n):
    return "house" if n == HOUSE else f"laptop {n}"


def choose(rnd, laptop, hearing, n):
    """Steps for a client, and whether it may say them."""
    takes = dict((t, (status, offer)) for t, status, offer in laptop.rows(
        "SELECT t.take, t.status, t.offer FROM hearings.image_now(?) i, ledger.ledger_takes(i.image) t", hearing))
    if n == HOUSE:
        to = [t for t, (status, offer) in takes.items() if offer is None][: GREATEST - 2] or [rnd.randrange(16)]
        return "\n".join([f"letter to {t} text {rnd.randrange(99)}" for t in to] + [f"sign {{{rnd.randrange(16)}}}"]), True
    other = (n + rnd.randrange(1, 16)) % 16
    status, offer = takes[n]
    own = rnd.choice([f"read {n}\nwrite {n} text {rnd.getrandbits(32)}", f"send {n} to {other} text {rnd.getrandbits(16)}", f"done {n}",
                      f"freeze {n}", f"write {n} text {rnd.getrandbits(32)}", f"sign {{{n}}}"])
    if offer is not None and status == "idle":
        own = f"receive {offer}\n{own}"
    if rnd.random() < 0.05:
        foreign = rnd.choice([f"write {other} text 6", f"fail {other}", f"fall {other}", f"sign {{{n},{other}}}", "root text 1",
                              f"letter to {n} text 1"])
        waits = takes[other][1]
        if rnd.random() < 0.5 or waits is None:
            return (f"{own}\n" if rnd.random() < 0.5 else "") + foreign, False
        return f"receive {waits}", None  # another's, unless it was received meanwhile: then nobody's
    return own, True


def client(folder, port, n, generation, file, stop):
    rnd = random.Random(1000 * generation + n)
    out = os.open(file, os.O_WRONLY | os.O_CREAT | os.O_APPEND)
    say = lambda *words: os.write(out, (" ".join(map(str, words)) + "\n").encode())
    cluster, laptop, asked, call = Cluster(os.path.dirname(folder), os.path.basename(folder), port), None, None, 0
    while not os.path.exists(stop):
        try:
            laptop = laptop or Laptop(cluster, name(n), options="-c synchronous_commit=off")
            if asked is None:
                hearing = rnd.randint(1, HEARINGS)
                text, mine = choose(rnd, laptop, hearing, n)
                call += 1
                asked = hearing, laptop.one("SELECT ledger.ledger_pack(?)", text)[0], 1000000 * generation + call, rnd.random() < 0.5
                say("T", hearing, asked[2], {True: "own", False: "foreign", None: "either"}[mine], asked[1].hex())
            first, replies = laptop.one("SELECT first, replies FROM hearings.play(?, ?, ?, ?)", *asked)
            if not asked[3]:
                laptop.one("SELECT ledger.ledger_sure()")
            say("A", first, replies.hex())
            asked = None
        except sql.Wrong as error:
            if error.code is None or error.code[:2] in ("08", "57"):  # no answer: ask again
                laptop = None
                time.sleep(0.1)
            else:
                say("E", "not yours" if "not yours" in str(error) else str(error))
                asked = None
        except psycopg2.Error:
            laptop = None
            time.sleep(0.1)


def prepare(cluster):
    cluster.database()
    cluster.roles(["house"], [name(i) for i in range(16)])
    house = Laptop(cluster, "house")
    laptops = [Laptop(cluster, name(i)) for i in range(16)]
    for _ in range(HEARINGS):
        h = house.one("SELECT hearings.open_hearing('a crowd', every => 64)")[0]
        house.do(h, "\n".join(f"root text {i}" for i in range(16)))
        for i, laptop in enumerate(laptops):
            house.rows("SELECT hearings.give(?, ?, ?)", h, i, name(i))
        house.do(h, "\n".join(f"letter to {i} text 1" for i in range(16)))
        for i, laptop in enumerate(laptops):
            laptop.do(h, f"receive {i}\nwrite {i} text 1\nfreeze {i}\nsign {{{i}}}")
    return logged(cluster)


def logged(cluster):
    try:
        with cluster.connect() as connection, connection.cursor() as cursor:
            cursor.execute("SELECT count(*) FROM hearings.step")
            return cursor.fetchone()[0]
    except psycopg2.Error:
        return -1


class Crowd:
    """The clients as processes; their files go on from one cluster to the next."""

    def __init__(self, folder):
        self.folder, self.generation, self.killed, self.stopped = folder, 0, 0, 0
        self.stop = os.path.join(folder, "stop")

    def start(self, cluster, n):
        self.generation += 1
        file = os.path.join(self.folder, f"{n:02}-{self.generation:04}.txt")
        words = ["client", cluster.folder, str(cluster.port), str(n), str(self.generation), file, self.stop]
        return subprocess.Popen([sys.executable, os.path.abspath(__file__), *words])

    def play(self, cluster, steps, stops, kills, at_end):
        running = [self.start(cluster, n) for n in range(17)]
        rnd, base, begun, stopped, killed = random.Random(7), logged(cluster), time.time(), 0, 0
        while (done := logged(cluster) - base) < steps:
            time.sleep(0.3)
            if stopped < stops and done > steps * (stopped + 1) / (stops + 1):
                cluster.do("immediate")
                cluster.do("start")
                stopped += 1
            if killed < kills and done > steps * (killed + 1) / (kills + 1):
                n = rnd.randrange(17)
                running[n].send_signal(signal.SIGKILL)
                running[n].wait()
                running[n] = self.start(cluster, n)
                killed += 1
        took = time.time() - begun
        at_end()
        open(self.stop, "w").close()
        for process in running:
            process.wait()
        os.remove(self.stop)
        return f"{done} steps in {took:.0f} s, {killed} clients killed, {stopped} immediate stops"


def told(folder):
    """Of each client's file: client, file, hearing, call, whose, steps, and what came of it."""
    for file in sorted(glob.glob(os.path.join(folder, "??-????.txt"))):
        lines = [line.split(" ") for line in open(file, encoding="utf-8").read().split("\n")[:-1]]
        calls = [i for i, line in enumerate(lines) if line[0] == "T" and len(line) == 5]
        for i in calls:
            came = lines[i + 1] if i + 1 < len(lines) and lines[i + 1][0] != "T" else None
            yield int(os.path.basename(file)[:2]), file, int(lines[i][1]), int(lines[i][2]), lines[i][3], bytes.fromhex(lines[i][4]), came


def read_log(cluster):
    rows = Laptop(cluster, "house").rows("SELECT hearing, number, who, call, step, reply FROM hearings.step ORDER BY 1, 2")
    return {(h, number): (who, call, step, reply) for h, number, who, call, step, reply in rows}


def judge(done, folder, cluster, before):
    log, counts, last = read_log(cluster), collections.Counter(), {}
    by_call = collections.defaultdict(list)
    for (h, number), (who, call, step, reply) in log.items():
        by_call[h, who, call].append((number, step, reply))
    for n, file, h, call, whose, steps, came in told(folder):
        rows = by_call.pop((h, name(n), call), [])
        played, replies = b"".join(r[1] for r in rows), b"".join(r[2] for r in rows)
        numbers = [r[0] for r in rows]
        once = not rows or played == steps and numbers == list(range(numbers[0], numbers[0] + len(rows)))
        done.must(f"{file} {call}: played as asked, whole and once", once)
        if came and came[0] == "A":
            counts["acknowledged"] += len(rows)
            kept = rows and numbers[0] == int(came[1]) and replies.hex() == came[2]
            done.must(f"{file} {call}: answered and not in the log as answered", kept)
            done.must(f"{file} {call}: in its client's order", numbers[0] > last.get((h, n), 0))
            last[h, n] = numbers[-1]
        elif came:
            counts["refused"] += 1
            done.must(f"{file} {call}: turned back, and in the log", not rows)
            done.must(f"{file} {call}: {' '.join(came)}", whose != "own" and came[1:] == ["not", "yours"])
        else:
            counts["unanswered"] += len(rows)
        done.must(f"{file} {call}: another's step was played", whose == "own" or not rows or whose == "either" and replies[0] == 24)
    left = sum(len(rows) for (h, who, call), rows in by_call.items())
    done.equal("steps that nobody asked for", left - before, 0)
    house = Laptop(cluster, "house")
    for h in range(1, HEARINGS + 1):
        done.equal("hearing_check", house.one("SELECT holds, fault FROM hearings.hearing_check(?)", h), (True, None))
    return log, dict(counts)


def unsure(done, cluster, standby):
    """Without its standby a call can't be sure, and a cancelled wait is an error, not an answer."""
    standby.do("immediate")
    house = Laptop(cluster, "house")
    once = house.one("SELECT first, replies FROM hearings.play(1, '\\x1000000000000000', 999999999, false)")
    said = []

    def ask():
        try:
            said.append(house.one("SELECT ledger.ledger_sure()"))
        except sql.Wrong as error:
            said.append(str(error))

    thread = threading.Thread(target=ask)
    thread.start()
    thread.join(2)
    done.holds("ledger_sure waits for the standby", thread.is_alive())
    house.connection.cancel()
    thread.join()
    done.holds(f"cancelled, it is an error: {said}", "not known to be on the standby" in str(said[0]))
    standby.do("start")
    again = house.one("SELECT first, replies FROM hearings.play(1, '\\x1000000000000000', 999999999, true)")
    done.equal("asked again once the standby is there: the same answer", again, once)


def synchronous(cluster):
    """Whether the standby follows within two minutes."""
    until = time.time() + 120
    while (state := cluster.psql("-c", "SELECT sync_state FROM pg_stat_replication").strip()) != "sync" and time.time() < until:
        time.sleep(0.2)
    return state == "sync"


def follow(done, folder, crowd, cluster, before, steps):
    """A synchronous standby; the primary dies; the standby is promoted: nothing acknowledged is lost, and the bytes are the same."""
    standby = Cluster(folder, "b", cluster.port + 1)
    standby.do("standby", cluster.name, cluster.port)
    standby.do("start")
    try:
        cluster.psql("-c", "ALTER SYSTEM SET synchronous_standby_names = 'standby'", "-c", "SELECT pg_reload_conf()")
        done.holds("the standby follows", synchronous(cluster))
        cluster.psql("-c", "CREATE ROLE late")  # a commit waits for the standby from now on
        unsure(done, cluster, standby)
        print(crowd.play(cluster, steps, 0, 3, at_end=lambda: cluster.do("immediate")))
        standby.do("promote")
        new, counts = judge(done, folder, standby, before + 1)
        print("the promoted standby:", counts)
        cluster.do("start")
        old = read_log(cluster)
        done.holds("the same bytes on the dead primary", all(old.get(key) == row for key, row in new.items()))
        standby.psql("-c", "ALTER SYSTEM RESET synchronous_standby_names", "-c", "SELECT pg_reload_conf()")
        house = Laptop(standby, "house")
        last = house.one("SELECT max(number) FROM hearings.step WHERE hearing = 1")[0]
        done.equal("it plays on", house.play(1, "letter to 3 text 1")[0], last + 1)
    finally:
        standby.do("immediate")


def main():
    if sys.argv[1:2] == ["client"]:
        return client(sys.argv[2], int(sys.argv[3]), int(sys.argv[4]), int(sys.argv[5]), sys.argv[6], sys.argv[7])
    steps, stops = int((sys.argv[1:] or ["2000"])[0]), int((sys.argv[2:] or ["2"])[0])
    done = sql.Counted()
    with room() as folder, Cluster(folder) as cluster:
        before = prepare(cluster)
        crowd = Crowd(folder)
        print(crowd.play(cluster, steps, stops, 8, at_end=lambda: None))
        _, counts = judge(done, folder, cluster, before)
        print("after the stops:", counts)
        done.holds(f"some were refused: {counts}", counts["refused"] > 0 and counts["acknowledged"] >= steps // 2)
        follow(done, folder, crowd, cluster, before, max(steps // 4, 300))
    done.end()


if __name__ == "__main__":
    main()
