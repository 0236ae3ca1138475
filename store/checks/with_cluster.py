"""Runs a check of this folder with a cluster of PostgreSQL of its own: with_cluster.py kit.py."""
import os
import subprocess
import sys

from cluster import Cluster, room

with room() as folder, Cluster(folder, fsync="off") as cluster:
    cluster.database()
    where = dict(os.environ, PGHOST=cluster.folder, PGPORT=str(cluster.port), PGDATABASE="t", PGUSER="postgres")
    where["PGOPTIONS"] = "-c search_path=ledger"
    script = os.path.join(os.path.dirname(os.path.abspath(__file__)), sys.argv[1])
    where.pop("PRELOAD", None)
    status = subprocess.run([sys.executable, script, "postgres"], env=where).returncode
    if status != 0:
        with open(os.path.join(cluster.folder, "log"), encoding="utf-8", errors="replace") as log:
            print("".join(line[:200].rstrip("\n") + "\n" for line in log.readlines()[-90:]), file=sys.stderr)
sys.exit(status)
