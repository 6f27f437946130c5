/* The benchmark Voter with Leaderboard in SQLite through its C interface, in memory, each statement prepared once.

       cc -O2 -o sqlite_voter sqlite_voter.c -lsqlite3
       ./sqlite_voter SEED VOTES [tables]

   The statements and the transactions are those of `Show` in voter.py, in the same order, and the votes those of
   docs/FORMATS.md ("The script of a show"). There is one thread, so SQLite is asked for no locks. With the word
   `tables` the tables are printed at the end in the lines of a report; nothing else is printed. Where something is
   wrong it ends with a message and status 1. It needs SQLite's header and library (Debian: libsqlite3-dev). */

#include <errno.h>
#include <sqlite3.h>
#include <stdio.h>
#include <stdlib.h>
#include <string.h>

#define MOST_VOTES 200000

static const char SCHEMA[] =
    "CREATE TABLE contestants (id INTEGER PRIMARY KEY, show INTEGER, name TEXT, n INTEGER);"
    "CREATE TABLE votes (phone INTEGER PRIMARY KEY, contestant INTEGER);"
    "CREATE INDEX votes_of ON votes (contestant);"
    "CREATE TABLE show (id INTEGER PRIMARY KEY, every INTEGER, n INTEGER, live INTEGER, due INTEGER);"
    "CREATE TABLE board (kind TEXT, id INTEGER, n INTEGER, PRIMARY KEY (kind, id)) WITHOUT ROWID;"
    "CREATE TABLE trend (number INTEGER PRIMARY KEY, x INTEGER);";

enum statement {
    BEGIN, COMMIT, ROLLBACK,
    BEGIN_SHOW, ADD, ONE_MORE_LIVE,
    IS_CONTESTANT, HAS_VOTED, RECORD, COUNT_FOR_CONTESTANT,
    NOT_DUE, COUNT_FOR_SHOW, UNIT_COMES, UNIT_GOES, CLEAR_TRENDING, TRENDING, CLEAR_BOARD, TOP, BOTTOM, DUE,
    REMOVE_VOTES, REMOVE_CONTESTANT, REMOVE_FROM_BOARD, ONE_LESS_LIVE,
    STATEMENTS
};

static const char *const TEXTS[STATEMENTS] = {
    [BEGIN] = "BEGIN",
    [COMMIT] = "COMMIT",
    [ROLLBACK] = "ROLLBACK",
    [BEGIN_SHOW] = "INSERT INTO show VALUES (1, 500, 0, 0, 1)",
    [ADD] = "INSERT INTO contestants VALUES (?, 1, ?, 0)",
    [ONE_MORE_LIVE] = "UPDATE show SET live = live + 1 WHERE id = 1",
    [IS_CONTESTANT] = "SELECT COUNT(*) FROM contestants WHERE id = ?",
    [HAS_VOTED] = "SELECT COUNT(*) FROM votes WHERE phone = ?",
    [RECORD] = "INSERT INTO votes VALUES (?, ?)",
    [COUNT_FOR_CONTESTANT] = "UPDATE contestants SET n = n + 1 WHERE id = ?",
    [NOT_DUE] = "UPDATE show SET due = 1",
    [COUNT_FOR_SHOW] = "UPDATE show SET n = n + 1, due = (n + 1) % every WHERE id = 1",
    [UNIT_COMES] = "INSERT INTO trend VALUES (?, ?)",
    [UNIT_GOES] = "DELETE FROM trend WHERE number = ?",
    [CLEAR_TRENDING] = "DELETE FROM board WHERE kind = 'trending'",
    [TRENDING] = "INSERT INTO board SELECT 'trending', x, COUNT(*) FROM trend GROUP BY x ORDER BY 3 DESC, 2 LIMIT 3",
    [CLEAR_BOARD] = "DELETE FROM board WHERE kind <> 'trending'",
    [TOP] = "INSERT INTO board SELECT 'top', id, n FROM contestants ORDER BY 3 DESC, 2 LIMIT 3",
    [BOTTOM] = "INSERT INTO board SELECT 'bottom', id, n FROM contestants ORDER BY 3, 2 LIMIT 3",
    [DUE] = "SELECT contestants.n, contestants.id FROM contestants JOIN show ON contestants.show = show.id "
            "WHERE show.due = 0 AND show.live > 1 ORDER BY 1, 2 LIMIT 1",
    [REMOVE_VOTES] = "DELETE FROM votes WHERE contestant = ?",
    [REMOVE_CONTESTANT] = "DELETE FROM contestants WHERE id = ?",
    [REMOVE_FROM_BOARD] = "DELETE FROM board WHERE id = ?",
    [ONE_LESS_LIVE] = "UPDATE show SET live = live - 1 WHERE id = 1",
};

static sqlite3 *base;
static sqlite3_stmt *prepared[STATEMENTS];
static sqlite3_int64 units; /* that have joined the window */

/* ---- SQLite */

static void fail(const char *doing, const char *why) {
    fprintf(stderr, "sqlite_voter: %s: %s\n", doing, why);
    exit(1);
}

static void check(int code, int wanted, const char *doing) {
    if (code != wanted)
        fail(doing, base ? sqlite3_errmsg(base) : sqlite3_errstr(code));
}

static void open_base(void) {
    int flags = SQLITE_OPEN_READWRITE | SQLITE_OPEN_CREATE | SQLITE_OPEN_NOMUTEX;
    check(sqlite3_open_v2(":memory:", &base, flags, NULL), SQLITE_OK, "opening");
    check(sqlite3_exec(base, SCHEMA, NULL, NULL, NULL), SQLITE_OK, "the schema");
    for (int which = 0; which < STATEMENTS; which++) {
        const char *text = TEXTS[which];
        int code = sqlite3_prepare_v3(base, text, -1, SQLITE_PREPARE_PERSISTENT, &prepared[which], NULL);
        check(code, SQLITE_OK, text);
    }
}

static void close_base(void) {
    for (int which = 0; which < STATEMENTS; which++)
        sqlite3_finalize(prepared[which]);
    check(sqlite3_close(base), SQLITE_OK, "closing");
}

static void bind(enum statement which, int at, sqlite3_int64 value) {
    check(sqlite3_bind_int64(prepared[which], at, value), SQLITE_OK, TEXTS[which]);
}

/* Whether it gives a row. */
static int has_row(enum statement which) {
    int code = sqlite3_step(prepared[which]);
    if (code != SQLITE_ROW)
        check(code, SQLITE_DONE, TEXTS[which]);
    return code == SQLITE_ROW;
}

static sqlite3_int64 column(enum statement which, int at) {
    return sqlite3_column_int64(prepared[which], at);
}

static void reset(enum statement which) {
    check(sqlite3_reset(prepared[which]), SQLITE_OK, TEXTS[which]);
}

static void run(enum statement which) {
    while (has_row(which)) {
    }
    reset(which);
}

static void run_with(enum statement which, sqlite3_int64 value) {
    bind(which, 1, value);
    run(which);
}

static void run_with_two(enum statement which, sqlite3_int64 first, sqlite3_int64 second) {
    bind(which, 2, second);
    run_with(which, first);
}

static sqlite3_int64 count_with(enum statement which, sqlite3_int64 value) {
    bind(which, 1, value);
    if (!has_row(which))
        fail(TEXTS[which], "no row");
    sqlite3_int64 count = column(which, 0);
    reset(which);
    return count;
}

/* ---- the procedures of the catalogue */

static void start_show(void) {
    char name[] = "c0";
    run(BEGIN_SHOW);
    for (int id = 1; id <= 6; id++) {
        name[1]++;
        check(sqlite3_bind_text(prepared[ADD], 2, name, -1, SQLITE_TRANSIENT), SQLITE_OK, TEXTS[ADD]);
        run_with(ADD, id);
        run(ONE_MORE_LIVE);
    }
}

/* Whether the vote is recorded. */
static int validate(sqlite3_int64 phone, sqlite3_int64 contestant) {
    run(BEGIN);
    if (count_with(IS_CONTESTANT, contestant) == 0 || count_with(HAS_VOTED, phone) > 0) {
        run(ROLLBACK);
        return 0;
    }
    run_with_two(RECORD, phone, contestant);
    run_with(COUNT_FOR_CONTESTANT, contestant);
    run(COMMIT);
    return 1;
}

/* One more unit of the window, which slides by one and has four once there are so many; and its trigger. */
static void unit(sqlite3_int64 contestant) {
    units++;
    run_with_two(UNIT_COMES, units, contestant);
    run_with(UNIT_GOES, units - 4);
    if (units >= 4) {
        run(CLEAR_TRENDING);
        run(TRENDING);
    }
}

/* The contestant that is to go, or 0. */
static sqlite3_int64 leaderboard(int recorded, sqlite3_int64 contestant) {
    run(BEGIN);
    run(NOT_DUE);
    if (recorded) {
        run(COUNT_FOR_SHOW);
        unit(contestant);
    }
    run(CLEAR_BOARD);
    run(TOP);
    run(BOTTOM);
    sqlite3_int64 doomed = has_row(DUE) ? column(DUE, 1) : 0;
    reset(DUE);
    run(COMMIT);
    return doomed;
}

static void remove_contestant(sqlite3_int64 doomed) {
    run(BEGIN);
    if (doomed) {
        run_with(REMOVE_VOTES, doomed);
        run_with(REMOVE_CONTESTANT, doomed);
        run_with(REMOVE_FROM_BOARD, doomed);
        run(ONE_LESS_LIVE);
    }
    run(COMMIT);
}

static void vote(sqlite3_int64 phone, sqlite3_int64 contestant) {
    int recorded = validate(phone, contestant);
    remove_contestant(leaderboard(recorded, contestant));
}

static void all_votes(unsigned long long state, unsigned long long votes) {
    for (unsigned long long number = 0; number < votes; number++) {
        state = state * 6364136223846793005ULL + 1442695040888963407ULL;
        vote(1000000 + (state >> 33) % (2 * votes), 1 + (state >> 20) % 6);
    }
}

/* ---- the tables, by the bytes of their names, and their rows by their keys */

static void print_value(sqlite3_stmt *rows, int at) {
    if (sqlite3_column_type(rows, at) == SQLITE_TEXT)
        printf("\"%s\"", (const char *)sqlite3_column_text(rows, at));
    else
        printf("%lld", (long long)sqlite3_column_int64(rows, at));
}

static sqlite3_stmt *query(const char *format, const char *table) {
    char text[80];
    sqlite3_stmt *rows;
    snprintf(text, sizeof text, format, table);
    check(sqlite3_prepare_v2(base, text, -1, &rows, NULL), SQLITE_OK, text);
    return rows;
}

static void print_table(const char *name) {
    int code;
    sqlite3_stmt *count = query("SELECT COUNT(*) FROM %s", name);
    check(sqlite3_step(count), SQLITE_ROW, name);
    printf("[\"table\",\"%s\",%lld]\n", name, (long long)sqlite3_column_int64(count, 0));
    sqlite3_finalize(count);
    sqlite3_stmt *rows = query("SELECT * FROM %s ORDER BY 1, 2", name);
    while ((code = sqlite3_step(rows)) == SQLITE_ROW) {
        printf("[\"row\",\"%s\",[", name);
        for (int at = 0; at < sqlite3_column_count(rows); at++) {
            if (at > 0)
                putchar(',');
            print_value(rows, at);
        }
        puts("]]");
    }
    check(code, SQLITE_DONE, name);
    sqlite3_finalize(rows);
}

static void print_tables(void) {
    print_table("board");
    print_table("contestants");
    print_table("show");
    print_table("votes");
    if (fflush(stdout) != 0 || ferror(stdout))
        fail("printing", strerror(errno));
}

/* ---- words */

static unsigned long long number(const char *word, unsigned long long most) {
    char *end;
    errno = 0;
    unsigned long long value = strtoull(word, &end, 10);
    if (word[0] < '0' || word[0] > '9' || *end != '\0' || errno != 0 || value > most)
        fail(word, "no number, or too great");
    return value;
}

int main(int many, char **words) {
    int tables = many == 4 && strcmp(words[3], "tables") == 0;
    if (many != 3 && !tables)
        fail("the words", "SEED VOTES [tables] are wanted");
    unsigned long long seed = number(words[1], ~0ULL), votes = number(words[2], MOST_VOTES);
    open_base();
    start_show();
    all_votes(seed, votes);
    if (tables)
        print_tables();
    close_base();
    return 0;
}
