// Writes the rows of one database of a registry into another, new one by SQLite's own library, or
// reads those of its objects. The last COUNT objects are added one by one, each with its maintainer
// in one transaction, and those before them in one transaction together. It prints how many
// microseconds the two parts took, or how many objects were read and how many microseconds that
// took.
#include <sqlite3.h>
#include <stdio.h>
#include <stdlib.h>
#include <string.h>
#include <time.h>

struct row {
    int class, key_size, body_size, maintainer_size;
    char *key, *body, *maintainer;
};

struct rows {
    struct row *items;
    size_t count, room;
};

static long long now(void) {
    struct timespec time;
    clock_gettime(CLOCK_MONOTONIC, &time);
    return time.tv_sec * 1000000LL + time.tv_nsec / 1000;
}

static void stop(sqlite3 *database) {
    const char *other = "the databases are not as they should be";
    fprintf(stderr, "rows: %s\n", database ? sqlite3_errmsg(database) : other);
    exit(1);
}

static void run(sqlite3 *database, const char *text) {
    if (sqlite3_exec(database, text, NULL, NULL, NULL) != SQLITE_OK)
        stop(database);
}

static sqlite3 *opened(const char *path) {
    sqlite3 *database;
    if (sqlite3_open(path, &database) != SQLITE_OK)
        stop(database);
    run(database, "PRAGMA journal_mode = WAL; PRAGMA synchronous = FULL");
    return database;
}

static sqlite3_stmt *prepared(sqlite3 *database, const char *text) {
    sqlite3_stmt *statement;
    if (sqlite3_prepare_v2(database, text, -1, &statement, NULL) != SQLITE_OK)
        stop(database);
    return statement;
}

static char *copied(const void *bytes, int size) {
    char *copy = malloc(size + 1);
    if (!copy)
        abort();
    memcpy(copy, bytes, size);
    return copy;
}

static struct row *added(struct rows *rows) {
    if (rows->count == rows->room) {
        rows->room = rows->room ? 2 * rows->room : 1024;
        rows->items = realloc(rows->items, rows->room * sizeof *rows->items);
        if (!rows->items)
            abort();
    }
    return &rows->items[rows->count++];
}

// The rows of the objects as a query gives them, each copied.
static struct rows objects(sqlite3 *database, const char *text) {
    struct rows rows = {0};
    sqlite3_stmt *statement = prepared(database, text);
    int step;
    while ((step = sqlite3_step(statement)) == SQLITE_ROW) {
        struct row *row = added(&rows);
        row->class = sqlite3_column_int(statement, 0);
        row->key_size = sqlite3_column_bytes(statement, 1);
        row->key = copied(sqlite3_column_text(statement, 1), row->key_size);
        row->body_size = sqlite3_column_bytes(statement, 2);
        row->body = copied(sqlite3_column_blob(statement, 2), row->body_size);
    }
    if (step != SQLITE_DONE)
        stop(database);
    sqlite3_finalize(statement);
    return rows;
}

// Gives each object the one maintainer that names it, which stands in the same order.
static void name(sqlite3 *database, struct rows *rows) {
    sqlite3_stmt *statement =
        prepared(database, "SELECT maintainer, okey FROM named ORDER BY rowid");
    size_t place = 0;
    int step;
    while ((step = sqlite3_step(statement)) == SQLITE_ROW) {
        struct row *row = &rows->items[place++];
        if (place > rows->count || row->key_size != sqlite3_column_bytes(statement, 1)
            || memcmp(row->key, sqlite3_column_text(statement, 1), row->key_size))
            stop(NULL);
        row->maintainer_size = sqlite3_column_bytes(statement, 0);
        row->maintainer = copied(sqlite3_column_text(statement, 0), row->maintainer_size);
    }
    if (step != SQLITE_DONE || place != rows->count)
        stop(NULL);
    sqlite3_finalize(statement);
}

static void step_once(sqlite3 *database, sqlite3_stmt *statement) {
    if (sqlite3_step(statement) != SQLITE_DONE)
        stop(database);
    sqlite3_reset(statement);
}

static void add(sqlite3 *database, sqlite3_stmt *object, sqlite3_stmt *named,
                const struct row *row) {
    sqlite3_bind_int(object, 1, row->class);
    sqlite3_bind_text(object, 2, row->key, row->key_size, SQLITE_STATIC);
    sqlite3_bind_blob(object, 3, row->body, row->body_size, SQLITE_STATIC);
    step_once(database, object);
    sqlite3_bind_text(named, 1, row->maintainer, row->maintainer_size, SQLITE_STATIC);
    sqlite3_bind_int(named, 2, row->class);
    sqlite3_bind_text(named, 3, row->key, row->key_size, SQLITE_STATIC);
    step_once(database, named);
}

static void write_rows(const char *from, const char *to, size_t count) {
    sqlite3 *source = opened(from);
    struct rows rows = objects(source, "SELECT class, okey, body FROM object ORDER BY rowid");
    name(source, &rows);
    sqlite3_close(source);
    if (count > rows.count)
        stop(NULL);
    sqlite3 *database = opened(to);
    long long begun = now();
    run(database,
        "BEGIN;"
        "CREATE TABLE meta (name TEXT NOT NULL PRIMARY KEY, value TEXT NOT NULL) STRICT;"
        "CREATE TABLE object (class INTEGER NOT NULL CHECK (class >= 1 AND class <= 7),"
        " okey TEXT NOT NULL,"
        " body BLOB NOT NULL, PRIMARY KEY (class, okey)) STRICT;"
        "CREATE TABLE named (maintainer TEXT NOT NULL, class INTEGER NOT NULL, okey TEXT NOT NULL,"
        " PRIMARY KEY (maintainer, class, okey)) STRICT;"
        "INSERT INTO meta (name, value) VALUES ('version', '2')");
    sqlite3_stmt *object =
        prepared(database, "INSERT INTO object (class, okey, body) VALUES (?1, ?2, ?3)");
    sqlite3_stmt *named =
        prepared(database, "INSERT INTO named (maintainer, class, okey) VALUES (?1, ?2, ?3)");
    sqlite3_stmt *begin = prepared(database, "BEGIN"), *commit = prepared(database, "COMMIT");
    for (size_t place = 0; place < rows.count - count; place++)
        add(database, object, named, &rows.items[place]);
    step_once(database, commit);
    long long filled = now();
    for (size_t place = rows.count - count; place < rows.count; place++) {
        step_once(database, begin);
        add(database, object, named, &rows.items[place]);
        step_once(database, commit);
    }
    printf("%lld %lld\n", filled - begun, now() - filled);
}

static void read_rows(const char *from) {
    sqlite3 *database = opened(from);
    long long begun = now();
    struct rows rows =
        objects(database, "SELECT class, okey, body FROM object ORDER BY class, okey");
    printf("%zu %lld\n", rows.count, now() - begun);
}

int main(int count_of_words, char **words) {
    if (count_of_words == 4)
        write_rows(words[1], words[2], strtoul(words[3], NULL, 10));
    else if (count_of_words == 2)
        read_rows(words[1]);
    else
        stop(NULL);
    return 0;
}
