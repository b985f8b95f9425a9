// peer DATABASES COMMANDS BATCH: the work of a run's state machines by SQLite, in memory. Each database takes every command: it adds an
// amount to one of sixteen keys, and keeps the last rank and reply of the command's session, BATCH commands in a transaction. Prints how
// many commands were taken.
#include <sqlite3.h>
#include <stdio.h>
#include <stdlib.h>

struct replica {
    sqlite3 *db;
    sqlite3_stmt *begin, *add, *keep, *commit;
};

static void must(sqlite3 *db, int got, int wanted) {
    if (got != wanted) {
        fprintf(stderr, "peer: %s\n", sqlite3_errmsg(db));
        exit(1);
    }
}

static sqlite3_stmt *prepared(sqlite3 *db, const char *text) {
    sqlite3_stmt *statement;
    must(db, sqlite3_prepare_v2(db, text, -1, &statement, NULL), SQLITE_OK);
    return statement;
}

static void opened(struct replica *r) {
    must(r->db, sqlite3_open(":memory:", &r->db), SQLITE_OK);
    const char *tables = "create table entries (name text primary key, amount integer) without rowid;"
                         "create table sessions (number integer primary key, rank integer, reply integer);";
    must(r->db, sqlite3_exec(r->db, tables, NULL, NULL, NULL), SQLITE_OK);
    r->begin = prepared(r->db, "begin");
    r->commit = prepared(r->db, "commit");
    r->add = prepared(r->db, "insert into entries values (?1, ?2) on conflict (name) do update set amount = amount + excluded.amount "
                             "returning amount");
    r->keep = prepared(r->db, "insert into sessions values (?1, ?2, ?3) on conflict (number) do update set rank = excluded.rank, "
                              "reply = excluded.reply");
}

static void done(struct replica *r, sqlite3_stmt *statement) {
    must(r->db, sqlite3_step(statement), SQLITE_DONE);
    sqlite3_reset(statement);
}

static void taken(struct replica *r, const char *key, int amount, int session, int rank) {
    sqlite3_bind_text(r->add, 1, key, -1, SQLITE_STATIC);
    sqlite3_bind_int(r->add, 2, amount);
    must(r->db, sqlite3_step(r->add), SQLITE_ROW);
    sqlite3_int64 reply = sqlite3_column_int64(r->add, 0);
    done(r, r->add);
    sqlite3_bind_int(r->keep, 1, session);
    sqlite3_bind_int(r->keep, 2, rank);
    sqlite3_bind_int64(r->keep, 3, reply);
    done(r, r->keep);
}

int main(int count, char **words) {
    int databases = count > 1 ? atoi(words[1]) : 0, commands = count > 2 ? atoi(words[2]) : 0, batch = count > 3 ? atoi(words[3]) : 0;
    if (databases < 1 || databases > 8 || commands < 0 || batch < 1) {
        fprintf(stderr, "usage: peer DATABASES COMMANDS BATCH\n");
        return 2;
    }
    struct replica replicas[8] = {{0}};
    for (int i = 0; i < databases; i++) opened(&replicas[i]);
    for (int first = 0; first < commands; first += batch) {
        for (int i = 0; i < databases; i++) {
            struct replica *r = &replicas[i];
            done(r, r->begin);
            for (int n = first; n < first + batch && n < commands; n++) {
                char key[8];
                snprintf(key, sizeof key, "k%d", ((n + 1) * 7) % 16);
                taken(r, key, (n + 1) % 100, n % databases, n / databases + 1);
            }
            done(r, r->commit);
        }
    }
    printf("%d\n", commands);
    return 0;
}
