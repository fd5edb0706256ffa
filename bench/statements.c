/* Runs a list of statements through Debian's C SQLite and tells how long it took. Used by bench/books.py; not part of the gate.

   Usage: statements BOOK LIST        (built by: cc -O2 -o statements statements.c -lsqlite3)

   LIST has one line for each thing to do; fields are parted by tabs.
     T text          a text, prepared once; texts are numbered from 0
     Q number ..     a query: all rows are read, every column of each
     X number ..     a statement that answers no rows
     B, E            begins a transaction, ends it
     O               what was done so far belongs to the opening
   A parameter is its type and its value: iNUMBER, tTEXT, bBYTES, or n for NULL.

   Printed: seconds of the opening, seconds of the rest, how many transactions were ended, and seconds of processor time of the rest. */
#include <sqlite3.h>
#include <stdio.h>
#include <stdlib.h>
#include <string.h>
#include <sys/resource.h>
#include <time.h>

#define MOST_TEXTS 64

static sqlite3 *db;
static sqlite3_stmt *texts[MOST_TEXTS];
static int known_texts;
static long ended;
static volatile long looked_at;

static void fail(const char *what) {
    fprintf(stderr, "%s: %s\n", what, db ? sqlite3_errmsg(db) : "no database");
    exit(1);
}

static double now(void) {
    struct timespec at;
    clock_gettime(CLOCK_MONOTONIC, &at);
    return (double)at.tv_sec + (double)at.tv_nsec / 1e9;
}

/* Processor time so far, the system's for this process too. */
static double spent(void) {
    struct rusage used;
    getrusage(RUSAGE_SELF, &used);
    return (double)(used.ru_utime.tv_sec + used.ru_stime.tv_sec) + (double)(used.ru_utime.tv_usec + used.ru_stime.tv_usec) / 1e6;
}

static void run(const char *sql) {
    if (sqlite3_exec(db, sql, NULL, NULL, NULL) != SQLITE_OK) fail(sql);
}

/* The next field of a line, which is cut off there; NULL at its end. */
static char *field(char **rest) {
    char *found = *rest, *tab;
    if (!found) return NULL;
    tab = strchr(found, '\t');
    if (tab) *tab++ = 0;
    *rest = tab;
    return found;
}

static void bind(sqlite3_stmt *text, int place, char *value) {
    int told;
    switch (value[0]) {
    case 'i': told = sqlite3_bind_int64(text, place, atoll(value + 1)); break;
    case 't': told = sqlite3_bind_text(text, place, value + 1, -1, SQLITE_STATIC); break;
    case 'b': told = sqlite3_bind_blob(text, place, value + 1, (int)strlen(value + 1), SQLITE_STATIC); break;
    default: told = sqlite3_bind_null(text, place);
    }
    if (told != SQLITE_OK) fail("bind");
}

/* Looks at every column of a row, as a caller would that reads it. */
static void look(sqlite3_stmt *text) {
    for (int i = 0; i < sqlite3_column_count(text); i++) {
        looked_at += sqlite3_column_type(text, i) == SQLITE_INTEGER ? (long)sqlite3_column_int64(text, i)
                                                                    : ((const char *)sqlite3_column_blob(text, i) ? sqlite3_column_bytes(text, i) : 0);
    }
}

static void step(char *rest) {
    int number = atoi(field(&rest)), place = 1, told;
    sqlite3_stmt *text = texts[number];
    char *value;
    while ((value = field(&rest))) bind(text, place++, value);
    while ((told = sqlite3_step(text)) == SQLITE_ROW) look(text);
    if (told != SQLITE_DONE) fail(sqlite3_sql(text));
    sqlite3_reset(text);
}

static void line(char *text) {
    char *rest = text, *what = field(&rest);
    switch (what[0]) {
    case 'T':
        if (known_texts == MOST_TEXTS) fail("too many texts");
        if (sqlite3_prepare_v2(db, rest, -1, &texts[known_texts++], NULL) != SQLITE_OK) fail(rest);
        break;
    case 'B': run("BEGIN"); break;
    case 'E': run("COMMIT"); ended++; break;
    default: step(rest);
    }
}

/* The whole file, so that reading it takes no part of the time. */
static char *read_all(const char *name) {
    FILE *file = fopen(name, "rb");
    long size;
    char *text;
    if (!file || fseek(file, 0, SEEK_END) || (size = ftell(file)) < 0) fail(name);
    rewind(file);
    text = malloc((size_t)size + 1);
    if (!text || fread(text, 1, (size_t)size, file) != (size_t)size) fail(name);
    text[size] = 0;
    fclose(file);
    return text;
}

int main(int count, char **words) {
    char *list, *end;
    double begun, opened, before;
    if (count != 3) fail("usage: statements BOOK LIST");
    list = read_all(words[2]);
    begun = opened = now();
    before = spent();
    if (sqlite3_open(words[1], &db) != SQLITE_OK) fail(words[1]);
    run("PRAGMA locking_mode = EXCLUSIVE");
    run("PRAGMA journal_mode = WAL");
    run("PRAGMA synchronous = FULL");
    for (; *list; list = end) {
        end = strchr(list, '\n');
        if (end) *end++ = 0;
        else end = list + strlen(list);
        if (list[0] == 'O') {
            opened = now();
            before = spent();
        } else line(list);
    }
    printf("%.6f %.6f %ld %.6f\n", opened - begun, now() - opened, ended, spent() - before);
    return 0;
}
