/* The tour: tour FOLDER, a folder that is there. */
#include <inttypes.h>
#include <stdio.h>
#include <stdlib.h>
#include <timestore_file.h>

static int32_t ask(int32_t code, const char *what) {
    if (code < 0) {
        fprintf(stderr, "%s: %s\n", what, ts_text(code));
        exit(1);
    }
    return code;
}

/* Adds one to the number in a record, in a transaction that is made again where another one was ahead, at most so often.
   A conflict ends the transaction, and so what it read is read again. */
static int32_t count(ts_file *file, uint64_t record, int attempts, ts_info *info) {
    ts *store = ts_file_store(file);
    int32_t code;
    do {
        uint8_t value[TS_VALUE_MOST] = {1, 1, 0};
        if ((code = ts_begin(store, info)) != TS_OK) return code;
        uint64_t txn = info->a;
        code = ts_get(store, txn, 1, record, value, sizeof value, info);
        value[2]++;
        if (code >= 0) code = ts_put(store, txn, 1, record, value, 3);
        if (code == TS_OK) code = ts_file_commit(file, txn, 9, ts_now(), info);
        else ts_abort(store, txn);
    } while (code == TS_CONFLICT && --attempts > 0);
    return code;
}

/* Writes the rows of a cursor, of which it takes a block at a time. */
static void print_rows(ts_cursor *cursor) {
    const ts_row *rows;
    const uint8_t *values;
    size_t found;
    while (ts_cursor_next(cursor, 64, &rows, &found, &values) == TS_OK)
        for (size_t i = 0; i < found; i++)
            printf("%" PRIu64 " %" PRIu64 " %.*s\n", rows[i].from, rows[i].upto, values[rows[i].at + 1],
                   (const char *)values + rows[i].at + 2);
}

int main(int argc, char **argv) {
    ts_file *file;
    ts_info info, view;
    uint8_t value[TS_VALUE_MOST];
    if (argc != 2) return 2;
    ask(ts_file_format(argv[1], 1024), "format");
    ask(ts_file_open(argv[1], &file, &info), "open");
    ts *store = ts_file_store(file);

    ask(ts_begin(store, &info), "begin");
    printf("snapshot %" PRIu64 "\n", info.b);
    uint64_t txn = info.a;
    const uint8_t a[] = {1, 1, 'a'}; /* one field of one byte */
    ask(ts_put(store, txn, 1, 7, a, sizeof a), "put");
    ask(ts_file_commit(file, txn, 9, 100, &info), "commit");
    printf("done %" PRIu64 "\n", info.a);

    const uint8_t *archive;
    size_t archive_len;
    ask(ts_view(store, &view), "view");
    ask(ts_file_archive(file, &archive, &archive_len), "archive");
    ask(ts_at(store, view.a, 1, 7, 100, archive, archive_len, value, sizeof value, &info), "at");
    printf("at 100: %.*s\n", value[1], (const char *)value + 2);
    int32_t code = ts_at(store, view.a, 1, 7, 101, archive, archive_len, value, sizeof value, &info);
    printf("refused: %s %" PRIu64 "\n", ts_text(code), info.a);
    ts_cursor *cursor; /* over the records 1 to 9, of which 7 has a value */
    ask(ts_cursor_between(store, view.a, 1, 1, 9, 0, 101, archive, archive_len, &cursor, &info), "between");
    print_rows(cursor);
    ts_cursor_free(cursor);
    ask(ts_end(store, view.a), "end");

    for (int n = 0; n < 3; n++) ask(count(file, 8, 10, &info), "count");
    ask(ts_file_get(file, 1, 8, value, sizeof value, &info), "get");
    printf("counted %d\n", value[2]);
    ts_file_close(file);
    return 0;
}
