"""Sixteen laptops and the house write to one file of SQLite; some die inside their transaction: crowd_sqlite.py [STEPS].

Each is a process. It tells its own file what it is about to do (T), then what came of it: A with number and reply once the
transaction is committed, E where it was turned back, D where it is about to die inside the transaction: half of those in the
midst of the triggers, half between the INSERT and the COMMIT. The parent kills others whenever it likes. In the end every
acknowledged step must stand in the log, where its answer said, in its laptop's order; nothing that died inside its
transaction may; and what stands there without an answer was asked for."""
import glob
import os
import random
import signal
import sqlite3
import subprocess
import sys
import tempfile
import time

import sql

HOUSE, DEATHS = 16, 0.015


def name(n):
    return "house" if n == HOUSE else f"laptop {n}"


def choose(rnd, connection, n):
    """A step for laptop n, and whether it may say it."""
    offer = connection.execute("SELECT offer, status FROM takes WHERE take = ?", (n % 16,)).fetchone()
    if n == HOUSE:
        to = rnd.randrange(16)
        return rnd.choice([f"letter to {to} text {rnd.randrange(9)}"] * 8 + [f"lose {rnd.randrange(99)}", f"sign {{{to}}}"]), True
    other = (n + rnd.randrange(1, 16)) % 16
    if rnd.random() < 0.05:
        foreign = [f"write {other} text 1", f"fail {other}", f"sign {{{n},{other}}}", f"letter to {n} text 1", "root text 1"]
        return rnd.choice(foreign), False
    if offer[0] is not None and offer[1] == "idle" and rnd.random() < 0.9:
        return f"receive {offer[0]}", True
    return rnd.choice([f"write {n} text {rnd.getrandbits(32)}", f"read {n}", f"send {n} to {other} text {rnd.getrandbits(16)}",
                       f"freeze {n}", f"done {n}", f"sign {{{n}}}"]), True


def dies(rnd, connection, say):
    """Says that this process is about to die inside its transaction; half of the time it dies in the midst of the triggers,
    after so many operations of SQLite's machine, else after the INSERT."""
    say("D")
    if rnd.random() < 0.5:
        connection.set_progress_handler(lambda: os.kill(os.getpid(), signal.SIGKILL), rnd.randrange(1, 1000))


def laptop(path, n, generation, file, stop):
    rnd = random.Random(1000 * generation + n)
    out = os.open(file, os.O_WRONLY | os.O_CREAT | os.O_APPEND)
    say = lambda *words: os.write(out, (" ".join(map(str, words)) + "\n").encode())
    connection = sql.connect(path, timeout=120)
    connection.execute("PRAGMA synchronous = FULL")
    call = 0
    while not os.path.exists(stop):
        text, mine = choose(rnd, connection, n)
        call += 1
        number = 1000000 * generation + call
        say("T", number, "own" if mine else "foreign", text)
        try:
            connection.execute("BEGIN IMMEDIATE")
            last = connection.execute("SELECT coalesce(max(number), 0) FROM step").fetchone()[0]
            dying = mine and rnd.random() < DEATHS
            if dying:
                dies(rnd, connection, say)
            connection.execute("INSERT INTO step(step, who, call) VALUES (ledger_pack(?), ?, ?)", (text, name(n), number))
            if dying:
                os.kill(os.getpid(), signal.SIGKILL)
            reply = connection.execute("SELECT hex(reply) FROM step WHERE number = ?", (last + 1,)).fetchone()[0]
            connection.execute("COMMIT")
            say("A", last + 1, reply)
        except sqlite3.Error as error:
            if connection.in_transaction:
                connection.execute("ROLLBACK")
            say("E", str(error).replace(" ", "_"))


def prepare(path):
    connection = sql.connect(path)
    sql.hearing(connection)
    connection.execute("INSERT INTO hearing(title, house) VALUES ('a crowd', 'house')")
    do = lambda text, who: connection.execute("INSERT INTO step(step, who) VALUES (ledger_pack(?), ?)", (text, who))
    connection.execute("BEGIN")
    for i in range(16):
        do(f"root text {i}", "house")
        connection.execute("INSERT INTO take(take, owner, who) VALUES (?, ?, 'house')", (i, name(i)))
    for i in range(16):
        do(f"letter to {i} text 1", "house")
        for text in (f"receive {i}", f"write {i} text 1", f"freeze {i}", f"sign {{{i}}}"):
            do(text, name(i))
    connection.execute("COMMIT")
    return connection, connection.execute("SELECT max(number) FROM step").fetchone()[0]


def crowd(room, path, connection, steps):
    """Plays until so many steps stand in the log; how long it took, and how many were killed from outside."""
    stop = os.path.join(room, "stop")

    def start(n, generation):
        file = os.path.join(room, f"{n:02}-{generation:03}.txt")
        words = ["laptop", path, str(n), str(generation), file, stop]
        return subprocess.Popen([sys.executable, os.path.abspath(__file__), *words])

    running, generation, killed = [start(n, 0) for n in range(17)], 0, 0
    rnd, begun = random.Random(5), time.time()
    while connection.execute("SELECT max(number) FROM step").fetchone()[0] < steps:
        time.sleep(0.2)
        if rnd.random() < 0.1:
            running[rnd.randrange(17)].send_signal(signal.SIGKILL)
            killed += 1
        for n, process in enumerate(running):
            if process.poll() is not None:
                generation += 1
                running[n] = start(n, generation)
    took = time.time() - begun
    open(stop, "w").close()
    for process in running:
        process.wait()
    return took, killed


def told(room):
    """Of each laptop's file: number of the call, what it is, and what came of it."""
    for file in sorted(glob.glob(os.path.join(room, "??-???.txt"))):
        n = int(os.path.basename(file)[:2])
        lines = [line.split(" ") for line in open(file, encoding="utf-8").read().split("\n") if line]
        calls = [i for i, line in enumerate(lines) if line[0] == "T"]
        for i, j in zip(calls, calls[1:] + [len(lines)]):
            yield n, file, int(lines[i][1]), lines[i][2], " ".join(lines[i][3:]), lines[i + 1 : j]


def judge(done, room, connection, before):
    log = {r[0]: r[1:] for r in connection.execute("SELECT number, step, hex(reply), who, call FROM step WHERE number > ?", (before,))}
    by_call = {(who, call): number for number, (_, _, who, call) in log.items()}
    counts = dict(acknowledged=0, refused=0, died=0, unanswered=0)
    last = {}
    for n, file, call, whose, text, came in told(room):
        answer = came[-1] if came else ["nothing"]
        number = by_call.get((name(n), call))
        step = connection.execute("SELECT ledger_pack(?)", (text,)).fetchone()[0]
        if answer[0] == "A":
            counts["acknowledged"] += 1
            done.must(f"{file} {call}: answered, and not in the log", number == int(answer[1]))
            done.must(f"step {number}: {log[number]}", log[number] == (step, answer[2], name(n), call))
            done.must(f"{file} {call}: in its laptop's order", number > last.get(n, 0))
            last[n] = number
        elif answer[0] == "D":
            counts["died"] += 1
            done.must(f"{file} {call}: died inside its transaction, and is in the log", number is None)
        elif answer[0] == "E":
            counts["refused"] += 1
            done.must(f"{file} {call}: turned back, and is in the log", number is None)
            done.must(f"{file} {call}: {answer[1]}", whose == "foreign" and ("not_yours" in answer[1] or "house's" in answer[1]))
        else:
            counts["unanswered"] += number is not None
            done.must(f"{file} {call}: not as asked", number is None or log[number][0] == step)
        done.must(f"{file} {call}: {text} of another was played", whose == "own" or number is None)
        by_call.pop((name(n), call), None)
    done.equal("steps in the log that nobody asked for", by_call, {})
    return counts, len(log)


def main():
    if sys.argv[1:2] == ["laptop"]:
        return laptop(sys.argv[2], int(sys.argv[3]), int(sys.argv[4]), sys.argv[5], sys.argv[6])
    steps, done = int((sys.argv[1:] or ["1500"])[0]), sql.Counted()
    with tempfile.TemporaryDirectory() as room:
        path = os.path.join(room, "crowd.db")
        connection, before = prepare(path)
        took, killed = crowd(room, path, connection, before + steps)
        counts, logged = judge(done, room, connection, before)
        check = connection.execute("SELECT holds, fault, steps FROM hearing_check").fetchone()
        done.holds(f"every answer kept: {counts}", counts["acknowledged"] >= steps // 2)
        done.equal("hearing_check", check[:2], (1, None))
        done.equal("SQLite's own check", connection.execute("PRAGMA integrity_check").fetchone()[0], "ok")
        done.holds(f"some were refused and some died: {counts}", counts["refused"] > 0 and counts["died"] > 0)
        print(f"{logged} steps in {took:.0f} s; {killed} killed from outside, {counts['died']} inside their transaction; {counts}")
    done.end()


if __name__ == "__main__":
    main()
