"""Both databases behind one way of asking, for the checks of this folder."""
import os
import re
import sqlite3

ROOT = os.path.dirname(os.path.dirname(os.path.dirname(os.path.abspath(__file__))))
EXTENSION = os.environ.get("TAKE_LEDGER", os.path.join(ROOT, "target/store/take_ledger"))
IMAGE, OLD = 42616, 22132


class Refused(Exception):
    """An error of SQL that carries a refusal's number."""

    def __init__(self, number, sentence):
        super().__init__(sentence)
        self.number = number


class Wrong(Exception):
    """Any other error of SQL; of PostgreSQL with its code, which is None where the connection broke."""

    def __init__(self, sentence, code=None):
        super().__init__(sentence)
        self.code = code


def raised(error):
    found = re.search(r"refused (\d+): (.*)", str(error))
    return Refused(int(found[1]), found[0]) if found else Wrong(str(error).split("\n")[0], getattr(error, "pgcode", None))


class Sqlite:
    name = "sqlite"

    def __init__(self, path=":memory:", **options):
        self.connection = connect(path, **options)

    def rows(self, text, *values):
        try:
            return self.connection.execute(text, values).fetchall()
        except sqlite3.Error as error:
            raise raised(error) from None

    def one(self, text, *values):
        rows = self.rows(text, *values)
        assert len(rows) == 1, (text, len(rows))
        return rows[0]


class Postgres:
    name = "postgres"

    def __init__(self, **where):
        import psycopg2

        self.error = psycopg2.Error
        self.connection = psycopg2.connect(**where)
        self.connection.autocommit = True

    def rows(self, text, *values):
        with self.connection.cursor() as cursor:
            try:
                cursor.execute(text.replace("%", "%%").replace("?", "%s"), values)
            except self.error as error:
                raise raised(error) from None
            return [tuple(plain(v) for v in row) for row in cursor.fetchall()] if cursor.description else []

    one = Sqlite.one


def plain(value):
    return bytes(value) if isinstance(value, memoryview) else value


def connect(path=":memory:", **options):
    """A connection to SQLite with the extension; every statement is a transaction of its own unless BEGIN is said."""
    connection = sqlite3.connect(path, isolation_level=None, **options)
    connection.enable_load_extension(True)
    connection.load_extension(EXTENSION)
    return connection


def hearing(connection):
    """The tables of a hearing in an empty file; HEARING_SQL names another schema, with a slip in it (store/slips)."""
    with open(os.environ.get("HEARING_SQL", os.path.join(ROOT, "store/hearing.sql")), encoding="utf-8") as schema:
        connection.executescript(schema.read())


def database(name):
    """sqlite, or postgres: where the latter is, is said by PGHOST, PGPORT, PGDATABASE and PGUSER."""
    return Sqlite() if name == "sqlite" else Postgres()


class Counted:
    """Counts what holds; the first thing that does not hold ends the check."""

    def __init__(self):
        self.passed = 0

    def must(self, what, so):
        """Not counted: one of many of a kind, of which a run has now more and now fewer."""
        if not so:
            print(f"not so: {what}")
            print(f"{self.passed} passed, 1 failed")
            raise SystemExit(1)

    def holds(self, what, so):
        self.must(what, so)
        self.passed += 1

    def equal(self, what, got, expected):
        self.holds(f"{what}: {got!r:.300} and not {expected!r:.300}", got == expected)

    def refused(self, what, number, call):
        try:
            got = call()
        except Refused as refusal:
            self.equal(what, refusal.number, number)
            self.holds(f"{what}: words of refusal {number}", re.fullmatch(rf"refused {number}: [a-z].*[a-z0-9]", str(refusal)))
        else:
            self.holds(f"{what}: refused with {number}, and not {got!r:.200}", False)

    def wrong(self, what, words, call):
        """An error that is no refusal, with these words."""
        try:
            got = call()
        except Wrong as error:
            self.holds(f"{what}: {error} has not the words {words!r}", words in str(error))
        else:
            self.holds(f"{what}: an error, and not {got!r:.200}", False)

    def end(self):
        print(f"{self.passed} passed, 0 failed")
