"""`examples/postgres` between two PostgreSQL servers, beside the truth by SQL."""

from __future__ import annotations

import functools
import re
import sys
import time
from collections.abc import Callable
from pathlib import Path

from common import TOP, Count, Said, own_folder
from store_servers import Postgres, example, proxy, ran, served, two_postgres

FILL = """
CREATE TABLE people (id bigint PRIMARY KEY, name text, born timestamptz, money numeric(12, 2), size float8, doc jsonb,
  bits bytea, tags text[], note text);
INSERT INTO people SELECT g, 'name ' || g, timestamptz '2020-01-01 00:00:00+00' + g * interval '7 minutes', g * 1.25,
  1.0 / g, jsonb_build_object('g', g), decode(md5(g::text), 'hex'), ARRAY['a' || g, 'b'], repeat(md5((g * 7)::text), 3)
  FROM generate_series(1, {rows}) g;
"""
# 50 rows: 20 changed, 15 that are gone there, 15 that are new there.
CHANGE = """
UPDATE people SET note = E'changed \\\\ ''here''\\n\\t' || id WHERE id % ({rows} / 20) = 3;
DELETE FROM people WHERE id % ({rows} / 20) = 5 AND id <= {rows} / 20 * 15;
INSERT INTO people SELECT {rows} + g, 'new', NULL, -g, 'NaN', NULL, NULL, NULL, '' FROM generate_series(1, 15) g;
"""
ODD = """
CREATE TABLE "Odd 'table" (part text, "no:2" int, always int GENERATED ALWAYS AS IDENTITY, twice int GENERATED ALWAYS AS
  ("no:2" * 2) STORED, rangesync text, PRIMARY KEY (part, "no:2"));
INSERT INTO "Odd 'table" (part, "no:2", rangesync) SELECT p, n, 'same' FROM generate_series(1, 5) n, unnest(ARRAY['a',
  '', E'line\\nfeed', E'tab\\t"\\\\n', 'it''s', repeat('long', 30), U&'\\00e4', 'a,b', ':x', '$$']) p;
"""
ODD_CHANGES = [
    """UPDATE "Odd 'table" SET rangesync = E'a\\\\b:x ''q''\\n' WHERE "no:2" = 1;""",
    """UPDATE "Odd 'table" SET rangesync = NULL WHERE "no:2" = 2;""",
    """DELETE FROM "Odd 'table" WHERE "no:2" = 3;""",
    """INSERT INTO "Odd 'table" (part, "no:2") SELECT part, 9 FROM "Odd 'table" WHERE "no:2" = 1;""",
]
ODD_NAME = "\"Odd 'table\""


def table_of(server: Postgres, name: str, key: str) -> dict[str, str]:
    """The truth: all rows, by the text of their key. Fields of JSON have no line feed."""
    text = f"SELECT to_json({key}) || E'\\t' || to_json(t::text) FROM {name} t"
    lines = server.sql(f"SET timezone = 'UTC'; {text};").output.splitlines()
    pairs = (line.partition("\t") for line in lines)
    return {key: row for key, _, row in pairs}


def kinds(here: dict[str, str], there: dict[str, str]) -> tuple[int, int, int]:
    """How many rows are ours, theirs, and differ."""
    both = here.keys() & there.keys()
    return len(here.keys() - both), len(there.keys() - both), sum(here[key] != there[key] for key in both)


def lines_of(said: Said) -> list[str]:
    return [line for line in said.output.splitlines() if not line.startswith(("rows ", "repair "))]


def counts(said: Said) -> tuple[int, int, int]:
    lines = lines_of(said)
    words = ("ours ", "theirs ", "differs ")
    return tuple(sum(line.startswith(word) for line in lines) for word in words)  # type: ignore[return-value]


class Compared:
    """Two servers, one of which is served, and a folder."""

    def __init__(self, one: Postgres, other: Postgres, folder: Path) -> None:
        self.one, self.other, self.folder = one, other, folder
        self.repair = folder / "repair.sql"

    def serve_words(self, table: str, db: str = "") -> list[str]:
        words = ["serve", "--table", table, "--db", db or self.other.db, "--addr", "127.0.0.1:0"]
        return [*example("postgres"), *words]

    def compare(self, table: str, address: str, in_a_part: int = 0, check: bool = False) -> Said:
        """Runs `compare` at the first server, with parts of so many items."""
        self.repair.unlink(missing_ok=True)
        words = ["compare", "--table", table, "--db", self.one.db, "--repair", str(self.repair), address]
        words += ["--check"] if check else []
        if not in_a_part:
            return ran([*example("postgres"), *words])
        lines = f"import sys, runpy; sys.path.insert(0, {str(TOP / 'examples')!r}); import parts; "
        lines += f"parts.IN_A_PART = {in_a_part}; sys.argv = {['postgres', *words]!r}; "
        lines += f"runpy.run_path({str(TOP / 'examples/postgres')!r}, run_name='__main__')"
        return ran([sys.executable, "-c", lines])


def dump_and_diff(pair: Compared) -> str:
    """What a user would do instead: both tables in the order of their keys, and `diff`."""
    began = time.monotonic()
    paths = []
    for server in pair.one, pair.other:
        path = pair.folder / f"{server.folder.name}.dump"
        copy = "COPY (SELECT * FROM people ORDER BY id) TO STDOUT"
        said = ran(["sh", "-c", 'psql -Xq -d "$1" -c "$2" > "$3"', "sh", server.db, copy, str(path)])
        paths.append(path)
        assert said.status == 0, said.error
    ran(["diff", *map(str, paths)])
    seconds = time.monotonic() - began
    ran(["gzip", "-6", "-k", str(paths[1])])
    size, packed = paths[1].stat().st_size, Path(f"{paths[1]}.gz").stat().st_size
    return f"bytes {size}, as .gz {packed}, seconds {seconds:.1f}"


def people(count: Count, pair: Compared, rows: int, in_a_part: int) -> None:
    """A table of which 50 rows differ, compared and mended."""
    for each in pair.one, pair.other:
        each.sql(FILL.format(rows=rows))
    pair.other.sql(CHANGE.format(rows=rows))
    with served(pair.folder, pair.serve_words("people")) as server:
        said = pair.compare("people", server.address, in_a_part)
    here, there = table_of(pair.one, "people", "id"), table_of(pair.other, "people", "id")
    wanted = sorted(
        [f"ours {key}" for key in here.keys() - there.keys()]
        + [f"theirs {key}" for key in there.keys() - here.keys()]
        + [f"differs {key}" for key in here.keys() & there.keys() if here[key] != there[key]]
    )
    count.same("people: the truth has 50", (15, 15, 20), kinds(here, there))
    count.same("people: what is printed", (0, wanted, ""), (said.status, lines_of(said), said.error))
    cost = "; ".join(line for line in said.output.splitlines() if line.startswith(("rows ", "repair ")))
    count.holds("people: 4 parts", " sessions 4 " in cost, "sessions 4", cost)
    print(f"postgres, {rows} rows, 50 differ: {cost}")
    print(f"postgres, {rows} rows, dump and diff: {dump_and_diff(pair)}", flush=True)
    count.same("people: mended", Said(0, "", ""), pair.one.file(pair.repair))
    mended = table_of(pair.one, "people", "id")
    count.same("people: only rows that are gone there differ", (15, 0, 0), kinds(mended, there))
    with served(pair.folder, pair.serve_words("people")) as server:
        count.same("people: compared once more", (15, 0, 0), counts(pair.compare("people", server.address, in_a_part)))


def odd_names(count: Count, pair: Compared) -> None:
    """Keys of two columns, long ones, and such that SQL and psql could take for something else."""
    for each in pair.one, pair.other:
        each.sql(ODD)
    pair.other.sql("".join(ODD_CHANGES))
    with served(pair.folder, pair.serve_words(ODD_NAME)) as server:
        said = pair.compare(ODD_NAME, server.address)
        count.same("odd names: found", (0, "", (10, 10, 20)), (said.status, said.error, counts(said)))
        for wanted in (f'differs ({"long" * 30},1)', r'ours ("line\nfeed",3)', "theirs (:x,9)"):
            count.holds("odd names: a key", wanted in lines_of(said), wanted, lines_of(said)[:8])
        count.same("odd names: mended", Said(0, "", ""), pair.one.file(pair.repair))
        key = 'ROW(part, "no:2")::text'
        here, there = table_of(pair.one, ODD_NAME, key), table_of(pair.other, ODD_NAME, key)
        count.same("odd names: the truth", (10, 0, 0), kinds(here, there))


def checked(count: Count, pair: Compared) -> None:
    """The statuses with `--check`: 0 if both sides are equal, and 4 if they differ."""
    for each in pair.one, pair.other:
        each.sql("CREATE TABLE checked (id int PRIMARY KEY, note text); INSERT INTO checked VALUES (1, 'a'), (2, 'b');")
    with served(pair.folder, pair.serve_words("checked")) as server:
        said = pair.compare("checked", server.address, check=True)
        count.same("checked: equal", (0, [], ""), (said.status, lines_of(said), said.error))
        pair.other.sql("UPDATE checked SET note = 'c' WHERE id = 2;")
        said = pair.compare("checked", server.address, check=True)
        count.same("checked: different", (4, ["differs 2"], ""), (said.status, lines_of(said), said.error))
        count.same("checked: mended", Said(0, "", ""), pair.one.file(pair.repair))
        said = pair.compare("checked", server.address, check=True)
        count.same("checked: equal since it was mended", (0, [], ""), (said.status, lines_of(said), said.error))
        pair.one.sql("INSERT INTO checked VALUES (3, 'd');")
        said = pair.compare("checked", server.address, check=True)
        count.same("checked: a row here alone", (4, ["ours 3"], ""), (said.status, lines_of(said), said.error))


def changed_meanwhile(count: Count, pair: Compared) -> None:
    """Rows that change between the comparison and the repair, there or here."""
    for each in pair.one, pair.other:
        each.sql("CREATE TABLE moving AS SELECT g AS id, 'old'::text AS note FROM generate_series(1, 100) g;")
        each.sql("ALTER TABLE moving ADD PRIMARY KEY (id);")
    pair.other.sql("UPDATE moving SET note = 'new' WHERE id <= 4; INSERT INTO moving VALUES (200, 'n'), (201, 'n');")

    def heard(first: bytes) -> None:
        if b'"tell"' in first:
            pair.other.sql("UPDATE moving SET note = 'newer' WHERE id = 1; DELETE FROM moving WHERE id IN (2, 200);")

    with served(pair.folder, pair.serve_words("moving")) as server, proxy(server.address, heard) as address:
        said = pair.compare("moving", address)
    count.same("changed there: found", (0, (0, 2, 4)), (said.status, counts(said)))
    wanted = [f"postgres: changed there meanwhile, not mended: {key}" for key in (1, 2, 200)]
    count.same("changed there: told", wanted, sorted(said.error.splitlines()))
    pair.one.sql("UPDATE moving SET note = 'mine' WHERE id = 3; INSERT INTO moving VALUES (201, 'mine');")
    said = pair.one.file(pair.repair)
    lines = set(said.output.split("\n")) - {""}
    count.same("changed here: told", (0, {"not mended 201", "not mended 3"}), (said.status, lines))
    came = pair.one.sql("SELECT id || ' ' || note FROM moving WHERE note <> 'old' ORDER BY id").output
    count.same("changed meanwhile: nothing wrong is mended", "3 mine\n4 new\n201 mine\n", came)


def stopped(count: Count, pair: Compared) -> None:
    """A server that stops in the middle of a session, of the rows, or was not there."""

    def sees(case: str, said: Said, pattern: str) -> None:
        is_so = said.status == 1 and bool(re.search(pattern, said.error)) and len(said.error.splitlines()) == 1
        count.holds(f"{case}: told", is_so, (1, pattern), said)
        count.holds(f"{case}: nothing is written", not pair.repair.exists(), "no file", "a file")

    with served(pair.folder, pair.serve_words("people")) as server:
        pair.other.sql("UPDATE people SET note = 'x' WHERE id % 10 = 0;")
        asked: list[bytes] = []

        def kill(total: int) -> None:
            if total > 3000 and b'"session"' in asked[-1]:
                server.process.kill()

        with proxy(server.address, asked.append, kill) as address:
            sees("killed in a session", pair.compare("people", address), "^postgres: stopped by .*nothing was written$")
    with served(pair.folder, pair.serve_words("moving")) as server:

        def stop(first: bytes) -> None:
            if b'"tell"' in first:
                pair.other.stop()

        with proxy(server.address, stop) as address:
            said = pair.compare("moving", address)
            sees("PostgreSQL stops before the rows", said, "^postgres: the peer says: psql: .*nothing was written$")
        said = pair.compare("moving", server.address)
        sees("PostgreSQL is not there", said, "^postgres: the peer says: psql: .*nothing was written$")
        pair.other.start()
        count.same("PostgreSQL is there again", 0, pair.compare("moving", server.address).status)
    sees("nobody listens", pair.compare("moving", server.address), "^postgres: stopped by ConnectionRefusedError")


def refused(count: Count, pair: Compared) -> None:
    """What cannot be compared."""
    for each, kind in (pair.one, "int"), (pair.other, "bigint"):
        each.sql(f"CREATE TABLE other (id {kind} PRIMARY KEY); CREATE TABLE keyless (id int);")
    for table, pattern in [
        ("other", "^postgres: public.other has other columns here than there"),
        ("keyless", "^postgres: (the peer says: )?public.keyless has no primary key"),
        ("nowhere", "^postgres: (the peer says: )?there is no table nowhere"),
        ("x'; DROP TABLE other; --", "^postgres: "),
    ]:
        with served(pair.folder, pair.serve_words(table)) as server:
            said = pair.compare(table, server.address)
            count.holds(f"refused: {table}", said.status == 1 and bool(re.search(pattern, said.error)), pattern, said)
    pair.other.sql("CREATE DATABASE latin ENCODING 'LATIN1' TEMPLATE template0")
    latin = pair.other.db.replace("dbname=postgres", "dbname=latin")
    with served(pair.folder, pair.serve_words("other", latin)) as server:
        said = pair.compare("other", server.address)
        wanted = "postgres: the peer says: the database is in LATIN1, not in UTF8\n"
        count.same("refused: another encoding", Said(1, "", wanted), said)
    count.same("refused: nothing is done", "0\n", pair.one.sql("SELECT count(*) FROM other").output)


def postgres(count: Count, is_full: bool) -> None:
    rows, in_a_part = (200_000, 0) if is_full else (20_000, 5_000)
    with own_folder() as folder:
        folder.chmod(0o711)
        with two_postgres(folder) as servers:
            if isinstance(servers, str):
                count.not_run(f"postgres: {servers}")
                return
            pair = Compared(*servers, folder)
            people(count, pair, rows, in_a_part)
            for test in odd_names, checked, changed_meanwhile, refused, stopped:
                count.tries(f"postgres: {test.__name__}", functools.partial(call_with, test, pair))


def call_with(test: Callable[[Count, Compared], None], pair: Compared, count: Count) -> None:
    test(count, pair)
