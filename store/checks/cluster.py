"""A cluster of PostgreSQL of its own, for the checks: on a Unix socket in a temporary folder, by the user postgres."""
import itertools
import os
import subprocess
import tempfile

import psycopg2

import sql

SCRIPT = os.path.join(sql.ROOT, "store/postgres/cluster")
SCHEMA = os.environ.get("HEARINGS_SQL", os.path.join(sql.ROOT, "store/postgres/hearings.sql"))  # or one with a slip
CALLS = itertools.count(1)  # numbers of calls, none used twice


def room():
    """A folder that the user postgres can reach."""
    folder = tempfile.TemporaryDirectory(prefix="store-")
    os.chmod(folder.name, 0o755)
    return folder


def quoted(name):
    return '"' + name.replace('"', '""') + '"'


class Cluster:
    def __init__(self, folder, name="a", port=5747, **settings):
        self.folder, self.name, self.port, self.settings = os.path.join(folder, name), name, port, settings

    def do(self, what, *more):
        subprocess.run([SCRIPT, what, self.folder, str(self.port), *map(str, more)], check=True)

    def __enter__(self):
        if not os.path.exists(os.path.join(self.folder, "data")):
            self.do("init")
            with open(os.path.join(self.folder, "data/postgresql.conf"), "a", encoding="utf-8") as file:
                file.writelines(f"{key} = '{value}'\n" for key, value in self.settings.items())
        self.do("start")
        return self

    def __exit__(self, *_):
        if os.path.exists(os.path.join(self.folder, "data/postmaster.pid")):
            self.do("immediate")

    def connect(self, user="postgres", database="t", **options):
        connection = psycopg2.connect(host=self.folder, port=self.port, user=user, dbname=database, **options)
        connection.autocommit = True
        return connection

    def psql(self, *words, database="t", user="postgres", **options):
        return subprocess.run(["psql", "-qXAt", "-v", "ON_ERROR_STOP=1", "-h", self.folder, "-p", str(self.port), "-U", user,
                               "-d", database, *words], check=True, capture_output=True, text=True, **options).stdout

    def database(self, name="t", schema=True, options=""):
        self.psql("-c", f"CREATE DATABASE {name} {options}", database="postgres")
        if schema:
            self.psql("-f", SCHEMA, database=name)

    def roles(self, houses, parties):
        for group, names in (("ledger_houses", houses), ("ledger_parties", parties)):
            for name in names:
                self.psql("-c", f"CREATE ROLE {quoted(name)} LOGIN IN ROLE {group}")


class Laptop(sql.Postgres):
    """A role's connection."""

    def __init__(self, cluster, user, database="t", **options):
        self.error = psycopg2.Error
        self.user = user
        self.connection = cluster.connect(user, database, **options)

    def play(self, hearing, text, call=None, sure=True):
        """Steps as text; gives the number of the first, and the replies in words."""
        steps = self.one("SELECT ledger.ledger_pack(?)", text)[0]
        first, replies = self.one("SELECT first, replies FROM hearings.play(?, ?, ?, ?)", hearing, steps,
                                  next(CALLS) if call is None else call, sure)
        if not sure:
            self.one("SELECT ledger.ledger_sure()")
        return first, self.one("SELECT ledger.ledger_reply_text(?, ?)", steps, replies)[0].rstrip("\n")

    def do(self, hearing, text):
        return self.play(hearing, text)[1]
