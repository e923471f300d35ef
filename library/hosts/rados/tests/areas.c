/* The areas and the window without a store: areas CONF. What was written is compared with the same in memory, before and after the
 * areas are opened again; what a query would read is compared too, through a window with less room than the area has bytes. */
#define _GNU_SOURCE
#include "../../../tests/check.h"
#include "../rados_parts.h"
#include <errno.h>

enum { CALLS = 1000, ROOM = 24 << 20, LONGEST = 96 << 10 };

const char *ts_text(int32_t code) { return code == TS_OK ? "ok" : "a refusal"; } /* of the library, which is not linked */

static uint64_t chance_state;

static uint64_t chance(uint64_t below) {
    chance_state ^= chance_state << 13;
    chance_state ^= chance_state >> 7;
    chance_state ^= chance_state << 17;
    return chance_state % below;
}

static ts_rados_place place = {.user = "store", .pool = "store", .lease = 10};
static owner own;

static void open_own(bool take_over) {
    memset(&own, 0, sizeof own);
    CHECK(TS_OK, tsr_owner_connect(&own, &place));
    CHECK(TS_OK, tsr_owner_take(&own, take_over));
}

/* The bytes that an area has, in memory. */
typedef struct model {
    uint8_t bytes[ROOM];
    uint64_t len;
} model;

static model models[AREAS];
static area areas[AREAS];
static const char *const NAMES[AREAS] = {"status", "heap", "archive"};

static void open_areas(void) {
    for (int n = 0; n < AREAS; n++) {
        CHECK(TS_OK, tsr_area_of_objects(&areas[n], &own, NAMES[n]));
        HOLDS(areas[n].len == models[n].len);
    }
}

static void close_areas(bool well) {
    for (int n = 0; n < AREAS; n++) tsr_area_close(&areas[n]);
    tsr_owner_close(&own, well);
}

/* A place for so many bytes; often over the end of an object. */
static uint64_t some_place(uint64_t len) {
    uint64_t at = chance(ROOM - len);
    if (chance(4) == 0 && at > PIECE) at = at / PIECE * PIECE - chance(len);
    return at;
}

static void write_some(int n, uint64_t at, size_t len) {
    static uint8_t bytes[LONGEST];
    for (size_t i = 0; i < len; i++) bytes[i] = (uint8_t)chance(256);
    CHECK(TS_OK, tsr_area_write(&areas[n], at, bytes, len));
    memcpy(models[n].bytes + at, bytes, len);
    if (at + len > models[n].len) models[n].len = at + len;
    if (chance(8) == 0) CHECK(TS_OK, tsr_area_sync(&areas[n]));
}

static void compare(int n, uint64_t at, size_t len) {
    static uint8_t got[ROOM];
    CHECK(TS_OK, tsr_area_read(&areas[n], at, got, len));
    HOLDS(memcmp(got, models[n].bytes + at, len) == 0);
}

static void compare_all(void) {
    for (int n = 0; n < AREAS; n++) compare(n, 0, (size_t)models[n].len);
}

static void random_calls(void) {
    int compared = 0;
    for (int call = 0; call < CALLS; call++) {
        int n = (int)chance(AREAS);
        size_t len = 1 + chance(chance(8) == 0 ? LONGEST : 9000);
        uint64_t at = some_place(len);
        if (chance(2) == 0) write_some(n, at, len);
        else if (at + len <= models[n].len) {
            compare(n, at, len);
            compared++;
        }
    }
    HOLDS(compared > CALLS / 5);
    for (int n = 0; n < AREAS; n++) CHECK(TS_OK, tsr_area_sync(&areas[n]));
}

/* Reads through a window, amid writes to the area. */
static void random_window(uint64_t cache) {
    window w;
    const uint8_t *at;
    size_t len;
    CHECK(TS_OK, tsr_window_open(&w, &areas[TS_ARCHIVE], cache));
    for (int call = 0; call < CALLS; call++) {
        size_t some = 1 + chance(9000);
        uint64_t from = chance(models[TS_ARCHIVE].len - some);
        if (chance(16) == 0) {
            write_some(TS_ARCHIVE, from, some);
            tsr_window_changed(&w, from, some);
        }
        CHECK(TS_OK, tsr_window_lend(&w, &at, &len));
        HOLDS(len == models[TS_ARCHIVE].len && memcmp(at + from, models[TS_ARCHIVE].bytes + from, some) == 0);
        CHECK(TS_OK, tsr_window_lent(&w));
    }
    CHECK(TS_OK, tsr_window_lend(&w, &at, &len));
    HOLDS(memcmp(at, models[TS_ARCHIVE].bytes, len) == 0);
    if (cache) HOLDS(w.count == cache / BLOCK && cache < len);
    tsr_window_close(&w);
}

/* A block that can't be read is told behind the query, and read again once it can be. */
static void window_of_a_stranger(void) {
    window w;
    owner stranger = {0};
    const uint8_t *at;
    size_t len;
    ts_rados_place place_of_stranger = place;
    place_of_stranger.user = "stranger";
    CHECK(TS_OK, tsr_owner_connect(&stranger, &place_of_stranger));
    CHECK(TS_OK, tsr_window_open(&w, &areas[TS_ARCHIVE], 1 << 20));
    CHECK(TS_OK, tsr_window_lend(&w, &at, &len));
    areas[TS_ARCHIVE].own = &stranger;
    HOLDS(at[0] == 0);
    CHECK(TS_SYSTEM, tsr_window_lent(&w));
    HOLDS(tsr_last_cause()->error == EPERM);
    areas[TS_ARCHIVE].own = &own;
    HOLDS(at[0] == models[TS_ARCHIVE].bytes[0]);
    CHECK(TS_OK, tsr_window_lent(&w));
    tsr_window_close(&w);
    tsr_owner_close(&stranger, false);
}

int main(int argc, char **argv) {
    char name[33];
    if (argc != 2) return 2;
    place.conf = argv[1];
    CHECK(TS_OK, tsr_random_name(name));
    place.store = name;
    chance_state = 88172645463325252ull;
    open_own(false);
    open_areas();
    random_calls();
    compare_all();
    close_areas(true); /* the next one asks for the last objects alone */
    open_own(false);
    open_areas();
    compare_all();
    close_areas(false); /* the next one shuts this one out, and asks for all objects */
    open_own(false);
    HOLDS(own.former[0]);
    open_areas();
    compare_all();
    random_window(2 << 20);
    random_window(0);
    window_of_a_stranger();
    close_areas(true);
    printf("%d calls\n", 3 * CALLS);
    return 0;
}
