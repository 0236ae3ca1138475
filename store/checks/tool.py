"""The program take-ledger on hearings' files, held to lines written by hand."""
import hashlib
import os
import sqlite3
import subprocess
import tempfile

import sql

TOOL = os.path.join(sql.ROOT, os.environ.get("TOOL", "target/tool/take-ledger"))
NAMES = 'take,name,owner\r\n0,names,anna\r\n1,page 12,ben\r\n2,"page 1, ""old""",ben\r\n'
WORDS = "\ufefftext;speaker;words\n9;Mr Smith;I was there.\n10;;\"two\nlines; and \"\"quotes\"\"\"\n"


class Tool:
    def __init__(self, folder, done):
        self.folder, self.done, self.file = folder, done, "h.db"

    def write(self, name, text, encoding="utf-8"):
        with open(os.path.join(self.folder, name), "w", encoding=encoding, newline="") as file:
            file.write(text)

    def run(self, *words, **options):
        return subprocess.run([TOOL, *words], cwd=self.folder, capture_output=True, text=True, **options)

    def gives(self, status, lines, verb, *words):
        run = self.run(verb, self.file, *words)
        self.done.equal(f"take-ledger {verb} {' '.join(words)}", (run.returncode, run.stdout + run.stderr), (status, lines))

    def tells(self, verb, *words):
        return subprocess.run([TOOL, verb, self.file, *words], cwd=self.folder, capture_output=True, check=True).stdout


def wrong(words):
    return f"take-ledger: {words}\n"


def session(tool):
    tool.gives(0, "", "new", "Inquiry", "clerk")
    tool.gives(2, wrong("there is such a file already: h.db"), "new", "Inquiry", "clerk")
    tool.gives(0, "1 root text 7 # done take 0\n", "do", "root text 7")
    tool.gives(0, "2 root text 8 # done take 1\n", "do", "root text 8")
    tool.gives(0, "3 root text 0 # done take 2\n", "do", "root")
    tool.write("names.csv", NAMES)
    tool.write("words.csv", WORDS)
    tool.gives(0, "", "import", "names", "names.csv")
    tool.gives(0, "", "import", "words", "words.csv", "--as", "anna")
    tool.gives(0, "4 letter to 0 text 5 # done take 0 parcel 0\n", "do", "letter to names text 5")
    tool.gives(1, wrong("this step is not yours"), "do", "receive 0")
    tool.gives(0, "5 receive 0 # done take 0 parcel 0 text 5\n", "do", "receive 0", "--as", "anna")
    tool.gives(0, "6 write 0 text 9 # done take 0\n", "do", "--as", "anna", "write names text 9")
    tool.gives(0, "7 send 0 to 1 text 0 # done take 0 parcel 1\n", "do", "send names to page 12", "--as", "anna")
    tool.gives(0, "8 receive 1 # done take 1 parcel 1 text 0\n", "do", "receive 1", "--as", "ben")
    tool.gives(0, "9 write 1 text 10 # done take 1\n", "do", "write page 12 text 10", "--as", "ben")
    tool.gives(0, "10 freeze 1 # done take 1\n", "do", "freeze page 12", "--as", "ben")
    tool.gives(0, "11 sign {1} # not ready\n", "do", "sign {page 12}")
    waiting = "take 1 (page 12) rests on take 0 (names)\ntake 0 (names) is not frozen\n"
    tool.gives(1, waiting, "why", "page 12")
    tool.gives(1, "take 0 (names) is not frozen\n", "why", "names", "1")
    tool.gives(2, wrong("no take has this name: page 13"), "why", "page 13")
    tool.gives(0, "rest on it: {0,1} (names, page 12)\nthrough others too: {0,1} (names, page 12)\nat work with it: {1} (page 12)\n"
                  "parcels that carry it: 0\n", "who", "names")
    tool.gives(0, "freeze 0 (names)\nsign {0,1} (names, page 12)\n", "plan", "page 12")
    tool.gives(1, '{"kind": "not frozen", "take": 0, "ground": 0}\n', "why", "page 12", "--json")
    tool.gives(0, 'take 0 (names, anna): at work, text 9 "I was there."\ntake 1 (page 12, ben): at work, text 10 "two\\nlines; and "quotes"", frozen\n'
                  'take 2 (page 1, "old", ben): idle, text 0\n', "status")
    tool.gives(0, "12 freeze 0 # done take 0\n", "do", "freeze names", "--as", "anna")
    tool.gives(0, "can be signed: {0,1} (names, page 12)\n", "why", "names", "page 12")
    tool.gives(0, "can be signed: {0,1} (names, page 12)\n", "why", "page 12")
    tool.gives(0, "13 sign {0,1} # done\n", "do", "sign {names, page 12}")
    tool.gives(1, wrong("read nonsense: column 6: expected a take, 0 to 15"), "do", "read nonsense")
    tool.gives(1, wrong("one step is wanted"), "do", "# nothing")
    tool.gives(1, wrong("one step is wanted"), "do", "root text 1\nroot text 2")
    tool.gives(2, wrong("no such option of this verb: --force"), "log", "--force")
    tool.done.equal("nothing beside the file when nobody is at work", [n for n in os.listdir(tool.folder) if n.startswith("h.db")], ["h.db"])


def manners(tool, done):
    """Help, options, statuses, colours: those of take-ledger."""
    for verb in ("new", "do", "log", "status", "check", "export", "import"):
        run = tool.run("help", verb)
        done.holds(f"help {verb}: {run.stdout}", run.returncode == 0 and run.stdout.startswith(f"  take-ledger {verb} HEARING"))
        done.equal(f"{verb} --help", tool.run(verb, "--help").stdout, run.stdout)
        done.equal(f"{verb} without words", (tool.run(verb).returncode, tool.run(verb).stderr), (2, run.stdout))
    done.equal("version", tool.run("--version").stdout, f"take-ledger {open(os.path.join(sql.ROOT, 'VERSION')).read().strip()}\n")
    done.equal("behind --", tool.run("log", "--", "-h.db").stderr, wrong("can't read -h.db: No such file or directory"))
    coloured = subprocess.run(["script", "-qec", f"{TOOL} do h.db 'read 9' --as clerk", "/dev/null"], cwd=tool.folder, capture_output=True, text=True)
    done.holds("a step that is not yours", "not yours" in coloured.stdout)
    shown = lambda **more: subprocess.run(["script", "-qec", f"{TOOL} log h.db", "/dev/null"], cwd=tool.folder, capture_output=True, text=True,
                                          env=dict(os.environ, **more)).stdout
    done.holds("colours on a terminal", "\033[" in shown())
    done.holds("but not with NO_COLOR", "\033[" not in shown(NO_COLOR="1"))
    alone = os.path.join(tool.folder, "alone")
    os.link(os.path.realpath(TOOL), alone) if os.stat(TOOL).st_dev == os.stat(tool.folder).st_dev else subprocess.run(["cp", TOOL, alone], check=True)
    run = subprocess.run([alone, "log", "h.db"], cwd=tool.folder, capture_output=True, text=True)
    if not os.environ.get("TOOL"):
        done.equal("without its other half", (run.returncode, run.stderr),
                   (2, wrong("hearings need the program take-ledger-hearing beside this one: No such file or directory")))


def round_trip(tool, done):
    """What goes out comes in again, in another file."""
    told = {kind: tool.tells("export", kind) for kind in ("text", "packed", "names", "words")}
    done.equal("names", told["names"].decode(), NAMES.replace("\r\n", "\n"))
    done.equal("words", told["words"].decode(), 'text,speaker,words\n9,Mr Smith,I was there.\n10,,"two\nlines; and ""quotes"""\n')
    done.equal("text", told["text"].decode().split("\n")[:4], ["root text 7 # names", "root text 8 # page 12", 'root text 0 # page 1, "old"', "letter to 0 text 5"])
    done.equal("packed", len(told["packed"]), 8 * 13)
    check = tool.tells("check").decode()
    done.holds(f"check: {check}", check.startswith("holds: 13 steps, sum ") and len(check) == len("holds: 13 steps, sum ") + 65)
    for kind in ("names", "words"):
        tool.write("same.csv", told[kind].decode())
        tool.gives(0, "", "import", kind, "same.csv")
        done.equal(f"{kind} as they are leave no trace", tool.tells("check").decode(), check)
    tool.file = "again.db"
    tool.gives(0, "", "new", "Again", "clerk", "--limits", "4,8,2")
    tool.write("steps.txt", "".join(told["text"].decode().split("letter")[0]))
    tool.gives(0, "", "import", "text", "steps.txt")
    done.equal("names by comments", tool.tells("export", "names").decode(), NAMES.replace("\r\n", "\n").replace("anna", "clerk").replace("ben", "clerk"))
    tool.gives(2, wrong("text, packed, names, words or log is wanted, and not pages"), "export", "pages")
    for text, told in {"take,name\n0,x\n": "2: a row of the table has not its three columns", "take,name,owner\n0,x,y\nzero,x,y\n": "3: the first column is no number",
                       "0,x,anna\n1x,y,ben\n": "2: the first column is no number", '0,"x,anna\n': "1: a quote is not closed",
                       "0,x,anna\n9,y,ben\n": "2: no such take was opened", "0,x\0,anna\n": "a zero byte in a text: UTF-8 is wanted"}.items():
        tool.write("bad.csv", text)
        tool.gives(1, wrong(f"bad.csv:{told}" if told[0] in "123" else f"bad.csv: {told}"), "import", "names", "bad.csv")
    tool.write("latin.csv", "0,Zeugin Müller,anna\n", "latin-1")
    tool.gives(1, wrong("latin.csv: a text that is not UTF-8"), "import", "names", "latin.csv")
    tool.write("half.txt", "root text 1\nread 99\n")
    tool.gives(1, "half.txt:2:6: expected a take, 0 to 15\n", "import", "text", "half.txt")
    tool.write("none.txt", "root text 1\nwrite 9 text 1\n")
    tool.gives(1, wrong("none.txt: this step is not yours"), "import", "text", "none.txt")
    done.equal("all or nothing", tool.tells("check").decode()[:15], "holds: 3 steps,")
    tool.gives(2, wrong("can't read missing.txt: No such file or directory"), "import", "text", "missing.txt")
    tool.file = "none.db"
    tool.gives(2, wrong("can't read none.db: No such file or directory"), "log")
    tool.gives(1, wrong("refused 33: limits out of range: takes 1 to 16, parcels waiting 1 to 32, signings 1 to 15"), "new", "x", "y", "--limits", "17,1,1")
    done.equal("which leaves no file", [n for n in os.listdir(tool.folder) if n.startswith("none.db") or n.startswith(".ledger")], [])
    tool.file = "steps.txt"
    tool.gives(1, wrong("steps.txt is no hearing"), "log")
    sqlite3.connect(os.path.join(tool.folder, "other.db")).execute("CREATE TABLE t(x)").connection.close()
    tool.file = "other.db"
    tool.gives(1, wrong("other.db is a file of SQLite, but no hearing"), "log")


def named(tool, done):
    """Names that would have a step say something else."""
    tool.file = "named.db"
    tool.gives(0, "", "new", "Named", "clerk")
    for _ in range(6):
        tool.run("do", "named.db", "root text 1")
    tool.write("names.csv", '0,names,anna\n1,page 1,ben\n2,"0,1",ben\n3,1 text 10,ben\n4,page 1 text 7,ben\n5,page 1,ben\n')
    tool.gives(0, "", "import", "names", "names.csv")
    tool.gives(0, "7 sign {0,1} # not ready\n", "do", "sign {0,1}")
    tool.gives(0, "8 letter to 1 text 10 # done take 1 parcel 0\n", "do", "letter to 1 text 10")
    tool.gives(1, wrong("takes 1 and 5 have the same name, so give a number: page 1"), "do", "letter to page 1 text 7")
    tool.gives(1, wrong("takes 1 and 5 have the same name, so give a number: page 1"), "why", "page 1")
    tool.gives(0, "9 fail 5 # vanished take 5\n", "do", "fail 5", "--as", "ben")
    tool.gives(0, "10 letter to 1 text 7 # done take 1 parcel 1\n", "do", "letter to page 1 text 7")
    tool.gives(1, "take 2 (0,1) is not frozen\n", "why", "0,1")
    forged = "eve\n99 sign {0,1} # done (clerk, 2026-01-01T00:00:00.000Z)\033[2J\u202e\u009b"
    tool.write("names.csv", f'0,"{forged}","{forged}"\n')
    tool.gives(0, "", "import", "names", "names.csv")
    tool.run("do", "named.db", "read 0", "--as", forged)
    log = tool.tells("log").decode().split("\n")
    done.holds(f"a name is no line of the log: {log[-2:]}", len(log) == 12 and "\\n99 sign" in log[10] and "\\x1b[2J\\xe2\\x80\\xae\\xc2\\x9b" in log[10])
    done.holds("nor of the status", b"\n99 sign" not in tool.tells("status") and b"\033" not in tool.tells("status"))
    done.holds("nor of an answer", b"\033" not in tool.tells("show") and b"\n99" not in tool.tells("show"))


def checked(tool, done):
    """A file whose own views lie, and a printed sum."""
    tool.file = "h.db"
    told = tool.tells("check").decode()
    last = told.strip().split(" ")[-1]
    tool.gives(0, told + "the sum that was given is the last one\n", "check", last.upper())
    path = os.path.join(tool.folder, "h.db")
    db = sql.connect(path)
    third = db.execute("SELECT ledger_hex(sum), at FROM step WHERE number = 3").fetchone()
    rows = db.execute("SELECT max(entry) - (SELECT entry FROM step WHERE number = 3) FROM entry").fetchone()[0]
    tool.gives(0, told + f"the sum that was given is that of step 3, {third[1]}; {rows} rows came after it\n", "check", third[0])
    tool.gives(1, told + "FAULT: no row has the sum that was given\n", "check", "0" * 64)
    tool.gives(2, told + wrong("64 digits of a sum are wanted, and not abc"), "check", "abc")
    for trigger in ("step_update", "step_delete"):
        db.execute(f"DROP TRIGGER {trigger}")
    db.execute("UPDATE step SET who = 'ben' WHERE number = 12")
    db.execute("DROP VIEW hearing_check")
    db.execute(f"CREATE VIEW hearing_check(holds, steps, entries, fault, fault_at, sum) AS SELECT 1, 13, 20, NULL, NULL, '{last}'")
    done.equal("the file says that it holds", db.execute("SELECT holds, sum FROM hearing_check").fetchone(), (1, last))
    db.close()
    missing = "".join(f"FAULT: the file has not this program's {what}\n" for what in ("trigger step_update", "trigger step_delete", "view hearing_check"))
    tool.gives(1, f"{missing}FAULT: rights at 12; 13 steps, sum {last}\n", "check")
    db = sql.connect(path)
    db.execute("CREATE TRIGGER more AFTER INSERT ON step BEGIN SELECT 1; END")
    db.close()
    tool.gives(1, f"{missing}FAULT: the file has not this program's trigger more\nFAULT: rights at 12; 13 steps, sum {last}\n", "check")


def wide(tool, done):
    """A file that keeps its texts in UTF-16."""
    db = sql.connect(os.path.join(tool.folder, "wide.db"))
    db.execute("PRAGMA encoding = 'UTF-16le'")
    db.execute("CREATE TABLE mine(x)")
    sql.hearing(db)
    db.execute("INSERT INTO hearing(title, house) VALUES ('Anhörung', 'Müller')")
    db.close()
    tool.file = "wide.db"
    tool.gives(0, "1 root text 7 # done take 0\n", "do", "root text 7")
    tool.write("names.csv", "0,Zeugin Müller,anna\n")
    tool.gives(0, "", "import", "names", "names.csv")
    tool.gives(0, "2 letter to 0 text 9 # done take 0 parcel 0\n", "do", "letter to Zeugin Müller text 9")
    done.holds("who, in words", " (Müller, 20" in tool.tells("log").decode())
    done.equal("names", tool.tells("export", "names").decode(), "take,name,owner\n0,Zeugin Müller,anna\n")
    check = tool.tells("check")
    done.holds("the check", check.startswith(b"holds: 2 steps"))
    tool.write("wide.log", tool.tells("export", "log").decode())
    tool.file = "narrow.db"
    tool.gives(0, "", "import", "log", "wide.log")
    tool.gives(0, check.decode(), "check")


def kept(tool, done):
    """No other verb writes over a hearing; those that ask an image take it."""
    path = os.path.join(tool.folder, "named.db")
    before = open(path, "rb").read()
    for words in (("run", "steps.txt", "named.db", "--force"), ("pack", "steps.txt", "named.db"), ("unpack", "named.db", "x.txt"), ("fmt", "named.db")):
        done.holds(f"{words}", tool.run(*words).returncode != 0)
    done.equal("as it was", open(path, "rb").read(), before)
    tool.file = "named.db"
    tool.gives(0, "0\n", "offer", "1")
    tool.gives(0, "parcel 0 would be taken in\n", "decide", "0")
    tool.write("one.txt", "root text 3\n")
    done.equal("run --from", tool.run("run", "one.txt", "image.img", "--from", "named.db").stdout, "root text 3 # done take 6\n")
    done.holds("diff", "> take 6: idle, text 3, saved 0" in tool.run("diff", "named.db", "image.img").stdout)
    done.equal("no list of names", tool.run("show", "named.db", "--names", "one.txt").stderr, wrong("a hearing has its names: --names is for images"))


def whole_log(tool, done):
    """The log goes out with its times and sums, and comes in as a file that ends in the same sum; one that was changed does not."""
    tool.file = "h.db"
    told, check = tool.tells("export", "log").decode(), tool.tells("check").decode()
    lines = told.splitlines()
    done.equal("the last sum", lines[-1][:64], check.split()[-1])
    before = ""
    for line in lines:
        done.equal(f"the sum of {line[65:90]}", line[:64], hashlib.sha256(f"{before}{line[65:]}".encode()).hexdigest())
        before = f"{line[:64]} "
    done.equal("the first line", lines[0][65:84], "hearing 16 32 15 20")
    tool.write("h.log", "# beside it\r\n\n" + told.replace("\n", "\r\n"))
    tool.file = "carried.db"
    tool.gives(0, "", "import", "log", "h.log")
    tool.gives(0, check, "check")
    done.equal("the log again", tool.tells("export", "log").decode(), told)
    tool.gives(2, wrong("there is such a file already: carried.db"), "import", "log", "h.log")
    tool.gives(0, "14 root text 3 # done take 3\n", "do", "root text 3")
    tool.gives(1, wrong("this step is not yours"), "do", "read 0", "--as", "ben")
    tool.file = "faulty.db"
    tool.gives(2, wrong("a log says who said each of its rows: --as is for steps, names and words"), "import", "log", "h.log", "--as", "anna")
    tool.gives(2, wrong("can't read missing.log: No such file or directory"), "import", "log", "missing.log")
    turned_back(tool, done, lines)


def turned_back(tool, done, lines):
    """Logs that do not come in, and what is said of them; no file is left of one."""
    taken = [i for i, line in enumerate(lines) if line[65:].startswith("step 7 ")][0]
    whole = lambda rows: "".join(row + "\n" for row in rows)
    forged, before = [], ""
    for line in lines[:taken] + [lines[taken].replace("616e6e61", "62656e")] + lines[taken + 1:]:
        forged.append(f"{hashlib.sha256((before + line[65:]).encode()).hexdigest()} {line[65:]}")
        before = forged[-1][:65]
    fault = " the log does not hold: "
    faults = [(whole(lines).replace("616e6e61 -", "62656e -", 1), None), (whole(lines[:taken] + lines[taken + 1:]), None), (whole(forged), fault + "rights at 7"),
              (whole([lines[0].upper()]), "1: this is no line of a log"), (whole(["", lines[0] + "0"]), "2: half a byte"),
              (whole([lines[0][:-1] + "g"]), "1: a byte is two digits, 0 to 9 and a to f"), (whole([lines[0] + "ff"]), "1: a text that is not UTF-8"),
              (whole([lines[0] + "00"]), "1: a zero byte in a text: UTF-8 is wanted"), (whole([lines[0], "words"]), "2: this line has no sum"),
              (whole([lines[0], lines[0] + " 00"]), "2: this is no line of a log"), (whole([lines[0] + " 00" * 9]), "1: this is no line of a log"),
              (whole([lines[0].replace("hearing 16", "hearing 016")]), "1: a field is no number"), (whole([lines[0].replace("hearing 16", "hearing 15")]), fault + "sum at 0"), ("", " there is no hearing in this log"),
              ("a\0", " a zero byte in a text: UTF-8 is wanted"), (whole(lines[1:]), " there is no hearing in this log")]
    for text, told in faults:
        tool.write("faulty.log", text)
        run = tool.run("import", "faulty.db", "log", "faulty.log")
        said = told is None and run.stderr.startswith(wrong("faulty.log:" + fault)[:-1]) or run.stderr == wrong(f"faulty.log:{told}")
        done.holds(f"turned back: {told}: {run.stdout}{run.stderr}", run.returncode == 1 and run.stdout == "" and said)
        done.equal("no file is left", [n for n in os.listdir(tool.folder) if n.startswith("faulty.db") or n.startswith(".ledger")], [])


def main():
    done = sql.Counted()
    with tempfile.TemporaryDirectory() as folder:
        tool = Tool(folder, done)
        session(tool)
        manners(tool, done)
        round_trip(tool, done)
        whole_log(tool, done)
        named(tool, done)
        checked(tool, done)
        kept(tool, done)
        wide(tool, done)
    done.end()


if __name__ == "__main__":
    main()
