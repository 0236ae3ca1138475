/* The verbs of hearings that play and ask: do, log, status, check, export, import. */
#include <ctype.h>
#include <string.h>

#include "hearing.h"

/* ---- playing */

/* Says a step, for whoever --as names, else for the house. */
static void say(const uint8_t *step) {
    sqlite3_stmt *statement = asked("INSERT INTO step(who, step) VALUES (coalesce(?1, (SELECT house FROM hearing)), ?2)", 1,
                                    &options.as);
    sqlite3_bind_blob(statement, 2, step, LEDGER_STEP, SQLITE_TRANSIENT);
    next_row(statement);
    sqlite3_finalize(statement);
}

int verb_do(int count, char **words) {
    uint8_t step[LEDGER_STEP];
    (void)count;
    open_hearing(words[0]);
    step_said(words[1], step);
    say(step);
    sqlite3_stmt *row = asked("SELECT number, step, reply FROM step WHERE number = last_insert_rowid()", 0, NULL);
    if (next_row(row)) tell_row(row), putchar('\n');
    sqlite3_finalize(row);
    return DONE;
}

/* ---- asking */

int verb_log(int count, char **words) {
    (void)count;
    open_hearing(words[0]);
    sqlite3_stmt *row = asked("SELECT number, step, reply, who, at FROM step ORDER BY number", 0, NULL);
    while (next_row(row)) {
        tell_row(row);
        fputs(" (", stdout), tell_text(stdout, column(row, 3));
        fputs(", ", stdout), tell_text(stdout, column(row, 4));
        puts(")");
    }
    sqlite3_finalize(row);
    return DONE;
}

int verb_status(int count, char **words) {
    (void)count;
    open_hearing(words[0]);
    tell_rows("SELECT 'take', take || coalesce(' (' || name || ', ' || owner || ')', ' (' || owner || ')', '') || ':', status ||"
              " coalesce(', text ' || text || coalesce(' \"' || words || '\"', ''), '') || iif(frozen, ', frozen', '') ||"
              " iif(signings > 0, ', signed ' || signings || iif(signings = 1, ' time', ' times'), '') ||"
              " coalesce(', parcel ' || offer || ' waits', '') FROM takes ORDER BY take");
    return DONE;
}

/* ---- the check. The views of a file stand in the file: whoever changes its log can change them as well. So its rows are
 * copied, and asked by the views of this program; and where the file has other ones, that is a fault. */

static void copy_rows(void) {
    static const char *const tables[] = {"hearing", "step", "take", "words", "snapshot"};
    done("BEGIN", 0, NULL); /* all of one moment */
    for (size_t i = 0; i < sizeof tables / sizeof *tables; i++) {
        char *text = sqlite3_mprintf("INSERT INTO main.%s SELECT * FROM theirs.%s", tables[i], tables[i]);
        if (!text) fail("no memory for", tables[i]);
        done(text, 0, NULL);
        sqlite3_free(text);
    }
    done("COMMIT", 0, NULL);
}

static void without_triggers(void) {
    sqlite3_str *all = sqlite3_str_new(db);
    sqlite3_stmt *names = asked("SELECT name FROM ours WHERE type = 'trigger'", 0, NULL);
    while (next_row(names)) sqlite3_str_appendf(all, "DROP TRIGGER %s;", (const char *)sqlite3_column_text(names, 0));
    sqlite3_finalize(names);
    char *whole = sqlite3_str_finish(all);
    if (!whole || sqlite3_exec(db, whole, NULL, NULL, NULL) != SQLITE_OK) turned_back(sqlite3_errmsg(db));
    sqlite3_free(whole);
}

/* An empty hearing in memory, without triggers, and the file beside it as `theirs`; `ours` is what a file should have. */
static void open_beside(const char *name) {
    const char *path = name[0] == '/' ? name : sqlite3_mprintf("./%s", name);
    open_hearing(name);
    sqlite3_stmt *kept = asked("PRAGMA encoding", 0, NULL);
    const char *word = next_row(kept) ? (const char *)sqlite3_column_text(kept, 0) : "UTF-8";
    char *encoding = sqlite3_mprintf("PRAGMA encoding = '%s'", word);
    sqlite3_finalize(kept);
    close_file();
    int opened = sqlite3_open_v2(":memory:", &db, SQLITE_OPEN_READWRITE | SQLITE_OPEN_CREATE, NULL);
    if (opened != SQLITE_OK || !path || !encoding) fail("no memory for", name);
    prepare_connection();
    done(encoding, 0, NULL); /* two files side by side have the same one, which the first table fixes */
    done("CREATE TABLE first(x)", 0, NULL);
    put_schema();
    done("DROP TABLE first", 0, NULL);
    sqlite3_free(encoding);
    done("CREATE TEMP TABLE ours AS SELECT type, name, sql FROM sqlite_schema", 0, NULL);
    without_triggers();
    done("ATTACH ?1 AS theirs", 1, &path);
}

/* What of the file's own tables, triggers and views is missing or other; how many. */
static int other_schema(void) {
    int others = 0;
    sqlite3_stmt *row = asked(
        "SELECT o.type || ' ' || o.name FROM ours o LEFT JOIN theirs.sqlite_schema t ON t.type = o.type AND t.name = o.name"
        " WHERE o.sql IS NOT t.sql UNION ALL SELECT 'trigger ' || t.name FROM theirs.sqlite_schema t WHERE t.type = 'trigger'"
        " AND t.tbl_name IN (SELECT name FROM ours) AND t.name NOT IN (SELECT name FROM ours)", 0, NULL);
    for (; next_row(row); others++) {
        fputs("FAULT: the file has not this program's ", stdout);
        tell_text(stdout, column(row, 0));
        putchar('\n');
    }
    sqlite3_finalize(row);
    return others;
}

/* The row of the log that a printed sum is of. */
static int sum_missing(const char *sum) {
    char lower[65] = "";
    const char *value = lower;
    if (strlen(sum) != 64 || strspn(sum, "0123456789abcdefABCDEF") != 64) fail("64 digits of a sum are wanted, and not", sum);
    for (int i = 0; i < 64; i++) lower[i] = (char)tolower((unsigned char)sum[i]);
    sqlite3_stmt *row = asked("SELECT kind || ' ' || id, at, (SELECT max(entry) FROM entry) - entry FROM entry"
                              " WHERE ledger_hex(sum) = ?1", 1, &value);
    int there = next_row(row);
    if (!there) puts("FAULT: no row has the sum that was given");
    else if (sqlite3_column_int64(row, 2) == 0) puts("the sum that was given is the last one");
    else {
        fputs("the sum that was given is that of ", stdout), tell_text(stdout, column(row, 0));
        fputs(", ", stdout), tell_text(stdout, column(row, 1));
        printf("; %lld rows came after it\n", (long long)sqlite3_column_int64(row, 2));
    }
    sqlite3_finalize(row);
    return !there;
}

int verb_check(int count, char **words) {
    open_beside(words[0]);
    int wrong = other_schema();
    copy_rows();
    tell_rows("SELECT iif(holds, 'holds:', 'FAULT: ' || fault || ' at ' || fault_at || ';'), steps, 'steps, sum', sum"
              " FROM hearing_check");
    if (count > 1) wrong += sum_missing(words[1]);
    sqlite3_stmt *statement = asked("SELECT holds FROM hearing_check", 0, NULL);
    int holds = next_row(statement) && sqlite3_column_int(statement, 0);
    sqlite3_finalize(statement);
    return holds && wrong == 0 ? DONE : NO;
}

/* ---- out and in */

static int wrong_kind(const char *kind) {
    fail("text, packed, names, words or log is wanted, and not", kind);
    return WRONG;
}

static void export_list(int packed) {
    sqlite3_stmt *row = asked("SELECT ledger_list(number, step) FROM step", 0, NULL);
    struct bytes list = next_row(row) ? column(row, 0) : (struct bytes){0};
    if (packed) save(NULL, NULL, STEPS_FILE, list.at, list.length);
    sqlite3_finalize(row);
    if (packed) return;
    row = asked("SELECT rtrim(ledger_text(s.step), char(10)), h.name FROM step s LEFT JOIN holder h ON h.take = s.opened"
                " ORDER BY number", 0, NULL);
    while (next_row(row)) {
        struct bytes step = column(row, 0), name = column(row, 1);
        fwrite(step.at, 1, step.length, stdout);
        if (name.length > 0) fputs(" # ", stdout);
        for (size_t i = 0; i < name.length; i++) putchar(name.at[i] == '\n' ? ' ' : name.at[i]);
        putchar('\n');
    }
    sqlite3_finalize(row);
}

int verb_export(int count, char **words) {
    (void)count;
    open_hearing(words[0]);
    if (strcmp(words[1], "names") == 0) tell_table("SELECT take, name, owner FROM holder ORDER BY take");
    else if (strcmp(words[1], "words") == 0) tell_table("SELECT text, speaker, words FROM words ORDER BY text");
    else if (strcmp(words[1], "text") == 0 || strcmp(words[1], "packed") == 0) export_list(words[1][0] == 'p');
    else if (strcmp(words[1], "log") == 0) tell_log();
    else return wrong_kind(words[1]);
    return DONE;
}

/* A row that says nothing new leaves no trace: a table may come in as it went out. */
static void import_name(const char *const *fields) {
    const char *values[4] = {fields[0], fields[1][0] ? fields[1] : NULL, fields[2][0] ? fields[2] : NULL, options.as};
    done("INSERT INTO take(take, name, owner, who) SELECT cast(?1 AS INTEGER), ?2, ?3, coalesce(?4, house) FROM hearing"
         " WHERE NOT EXISTS (SELECT 1 FROM holder WHERE take = cast(?1 AS INTEGER) AND name IS coalesce(?2, name)"
         " AND owner = coalesce(?3, owner))", 4, values);
}

static void import_words(const char *const *fields) {
    const char *values[4] = {fields[0], fields[1][0] ? fields[1] : NULL, fields[2], options.as};
    done("INSERT INTO words(text, speaker, words, who) SELECT cast(?1 AS INTEGER), ?2, ?3, coalesce(?4, house) FROM hearing"
         " WHERE NOT EXISTS (SELECT 1 FROM words WHERE text = cast(?1 AS INTEGER) AND speaker IS ?2 AND words = ?3)", 4, values);
}

/* The comment behind a step that opens a take is its name. */
static void import_steps(const char *name) {
    struct bytes file = load(name), list = list_of(name, file);
    size_t steps = list.length / LEDGER_STEP;
    struct bytes *comments = comments_of(list.at == file.at ? (struct bytes){0} : file, steps);
    for (size_t i = 0; i < steps; i++) {
        struct bytes given = name_in(list.at + LEDGER_STEP * i, comments[i]), comment = room(given.length);
        const char *value = (const char *)comment.at;
        reading = (struct place){name, 0};
        if (given.length > 0) memcpy(comment.at, given.at, given.length), must_be_text(given);
        say(list.at + LEDGER_STEP * i);
        if (given.length > 0)
            done("INSERT INTO take(take, name, who) SELECT opened, ?1, who FROM step WHERE opened IS NOT NULL AND number ="
                 " (SELECT steps FROM played)", 1, &value);
    }
}

int verb_import(int count, char **words) {
    (void)count;
    if (strcmp(words[1], "log") == 0) return import_log(words[0], words[2]), DONE;
    open_hearing(words[0]);
    done("BEGIN IMMEDIATE", 0, NULL); /* all of it or nothing */
    if (strcmp(words[1], "names") == 0) read_table(words[2], import_name);
    else if (strcmp(words[1], "words") == 0) read_table(words[2], import_words);
    else if (strcmp(words[1], "text") == 0 || strcmp(words[1], "packed") == 0) import_steps(words[2]);
    else return wrong_kind(words[1]);
    reading = (struct place){NULL, 0};
    done("COMMIT", 0, NULL);
    return DONE;
}
