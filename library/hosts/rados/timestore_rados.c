/* A host of timestore for areas in a Ceph pool. */
#define _GNU_SOURCE
#include "rados_parts.h"
#include "steps.h"
#include <stdio.h>
#include <stdlib.h>
#include <string.h>

#define FRONT 512 /* the bytes before the first slot */
#define LAYOUT "layout"
#define WHOLE "timestore 1 whole"      /* all three areas are in the pool, by pieces of 4 MiB */
#define ARCHIVE "timestore 1 archive " /* and the name that its folder has for it */

struct ts_rados {
    tsi_host steps;
    owner own;
    area area[AREAS];
    window archive;
    uint64_t made, refused;
    ts_rados_cause cause;
};

static const char *const NAMES[AREAS] = {"status", "heap", "archive"};

/* ---- causes */

int32_t ts_rados_error(const ts_rados *host, ts_rados_cause *cause) {
    const ts_rados_cause *told = host ? &host->cause : tsr_last_cause();
    if (told->code == TS_OK) return TS_NONE;
    *cause = *told;
    return TS_OK;
}

const char *ts_rados_text(int32_t code) { return code == TS_FENCED ? "another host has taken the store over" : ts_text(code); }

/* ---- the areas */

/* The head's word for a store of this place. */
static void layout_of(char layout[VALUE_ROOM], const ts_rados_place *place, const local_files *local) {
    snprintf(layout, VALUE_ROOM, "%s%s", place->folder ? ARCHIVE : WHOLE, place->folder ? local->archive : "");
}

/* Whether the pool has a store of this layout. It is asked before anything is taken or made. */
static int32_t has_layout(ts_rados *host, const char *layout) {
    char found[VALUE_ROOM];
    int32_t code = tsr_head_get(&host->own, LAYOUT, found);
    if (code != TS_OK || strcmp(found, layout) == 0) return code;
    return tsr_refuse(TS_NOT_A_STORE, 0, "the layout is \"%s\", not \"%s\"", found, layout);
}

/* Sets the layout, where there is none or the same of a store that was not made to its end. */
static int32_t set_layout(ts_rados *host, const char *layout) {
    char found[VALUE_ROOM];
    int32_t code = tsr_head_get(&host->own, LAYOUT, found);
    if (code != TS_OK || strcmp(found, layout) == 0) return code;
    if (found[0]) return tsr_refuse(TS_OCCUPIED, 0, "the layout is \"%s\", not \"%s\"", found, layout);
    return tsr_head_set(&host->own, LAYOUT, layout);
}

static void close_areas(ts_rados *host, bool well) {
    for (int n = 0; n < AREAS; n++) {
        tsr_area_close(&host->area[n]);
        well = well && host->area[n].refused == TS_OK;
    }
    tsr_owner_close(&host->own, well);
}

static int32_t own_store(ts_rados *host, const ts_rados_place *place, const char *layout, bool make) {
    int32_t code = tsr_owner_connect(&host->own, place);
    if (code == TS_OK && !make) code = has_layout(host, layout);
    if (code == TS_OK) code = tsr_owner_take(&host->own, place->take_over && !make);
    if (code == TS_OK && make) code = set_layout(host, layout);
    return code;
}

/* Opens all areas, those in the pool as their owner. Where it is refused none is left open. */
static int32_t open_areas(ts_rados *host, const ts_rados_place *place, bool make) {
    local_files local = {.status = -1, .heap = -1};
    char layout[VALUE_ROOM];
    for (int n = 0; n < AREAS; n++) host->area[n] = (area){.name = NAMES[n], .fd = -1};
    int32_t code = place->folder ? tsr_folder_open(&local, place->folder, make) : TS_OK;
    if (code == TS_OK && place->folder) {
        code = tsr_area_of_file(&host->area[TS_STATUS], local.status, NAMES[TS_STATUS]);
        int32_t heap = tsr_area_of_file(&host->area[TS_HEAP], local.heap, NAMES[TS_HEAP]);
        if (code == TS_OK) code = heap;
    }
    layout_of(layout, place, &local);
    if (code == TS_OK) code = own_store(host, place, layout, make);
    for (int n = place->folder ? TS_ARCHIVE : TS_STATUS; n < AREAS && code == TS_OK; n++)
        code = tsr_area_of_objects(&host->area[n], &host->own, NAMES[n]);
    if (code != TS_OK) close_areas(host, false);
    return code;
}

/* ---- making a store */

static bool are_zeros(const uint8_t *bytes, uint64_t len) {
    for (uint64_t i = 0; i < len; i++)
        if (bytes[i] != 0) return false;
    return true;
}

/* Whether an area has no byte but zeros, and of these no more than so many in front. */
static int32_t is_blank(area *a, uint64_t most, bool *blank) {
    uint64_t len = a->len < most ? a->len : most;
    *blank = false;
    uint8_t *bytes = malloc((size_t)len + 1);
    if (!bytes) return TS_NO_MEMORY;
    int32_t code = tsr_area_read(a, 0, bytes, (size_t)len);
    *blank = code == TS_OK && are_zeros(bytes, len);
    free(bytes);
    return code;
}

/* Whether nothing stands in the areas: no header, no byte of the archive, and of the heap at most the zeros that a new
   store begins with, as a format leaves it that was stopped. */
static int32_t is_free(ts_rados *host, uint64_t zeros) {
    bool no_header, no_heap = false;
    int32_t code = is_blank(&host->area[TS_STATUS], FRONT, &no_header);
    if (code == TS_OK) code = is_blank(&host->area[TS_HEAP], zeros, &no_heap);
    if (code != TS_OK) return code;
    bool is_free = no_header && no_heap && host->area[TS_HEAP].len <= zeros && host->area[TS_ARCHIVE].len == 0;
    return is_free ? TS_OK : tsr_refuse(TS_OCCUPIED, 0, "there are bytes of a store");
}

/* The zeros that the heap begins with. */
static int32_t write_zeros(ts_rados *host, size_t len) {
    area *heap = &host->area[TS_HEAP];
    if (len == 0) return TS_OK;
    uint8_t *zeros = calloc(1, len);
    if (!zeros) return TS_NO_MEMORY;
    int32_t code = tsr_area_write(heap, 0, zeros, len);
    free(zeros);
    return code == TS_OK ? tsr_area_sync(heap) : code;
}

/* All but the header, which makes it a store, and then that. */
static int32_t write_status(ts_rados *host, const uint8_t *bytes, size_t len) {
    area *status = &host->area[TS_STATUS];
    int32_t code = TS_OK;
    if (len > FRONT) {
        code = tsr_area_write(status, FRONT, bytes + FRONT, len - FRONT);
        if (code == TS_OK) code = tsr_area_sync(status);
    }
    if (code == TS_OK) code = tsr_area_write(status, 0, bytes, FRONT);
    if (code == TS_OK) code = tsr_area_sync(status);
    return code;
}

/* Makes a store of what a format told: these bytes are its status area. */
static int32_t make_store(const ts_rados_place *place, const uint8_t *bytes, const ts_info *told) {
    ts_rados *host = calloc(1, sizeof *host);
    if (!host) return TS_NO_MEMORY;
    int32_t code = open_areas(host, place, true);
    if (code == TS_OK) {
        code = is_free(host, told->b);
        if (code == TS_OK) code = write_zeros(host, (size_t)told->b);
        if (code == TS_OK) code = write_status(host, bytes, (size_t)told->a);
        close_areas(host, true);
    }
    free(host);
    return code;
}

/* Makes the store that this function formats, of this size. */
static int32_t format_by(int32_t (*format)(uint32_t, uint8_t *, size_t, ts_info *), const ts_rados_place *place, uint32_t size) {
    ts_info info = {0, 0};
    uint8_t none[1];
    int32_t code = format(size, none, 0, &info);
    if (code != TS_SMALL) return code;
    uint8_t *bytes = malloc(info.a);
    if (!bytes) return TS_NO_MEMORY;
    code = format(size, bytes, info.a, &info);
    if (code == TS_OK) code = make_store(place, bytes, &info);
    free(bytes);
    return code;
}

int32_t ts_rados_format(const ts_rados_place *place, uint32_t slots) { return format_by(ts_format, place, slots); }

int32_t ts_rados_format_endless(const ts_rados_place *place, uint32_t extents) { return format_by(ts_format_endless, place, extents); }

/* ---- opening and closing */

static bool make_due(tsi_host *steps, const ts_device *call);

static int32_t read_whole(area *a, uint8_t **bytes) {
    *bytes = malloc(a->len + 1);
    return *bytes ? tsr_area_read(a, 0, *bytes, (size_t)a->len) : TS_NO_MEMORY;
}

/* Opens the store on status and heap, which are read, and on the archive, of which what is needed is read. */
static int32_t open_store(ts_rados *host, ts_info *info) {
    area *status = &host->area[TS_STATUS], *heap = &host->area[TS_HEAP];
    uint8_t *slots = NULL, *extents = NULL;
    const uint8_t *runs;
    size_t runs_len;
    int32_t code = tsr_window_lend(&host->archive, &runs, &runs_len);
    if (code == TS_OK) code = read_whole(status, &slots);
    if (code == TS_OK) code = read_whole(heap, &extents);
    if (code == TS_OK) {
        code = ts_open(&host->steps.store, slots, (size_t)status->len, extents, (size_t)heap->len, runs, runs_len, tsi_next_mark(TSI_POOL), info);
        int32_t lent = tsr_window_lent(&host->archive);
        if (lent != TS_OK) code = lent;
    }
    if (code != TS_OK) ts_close(&host->steps.store);
    free(slots);
    free(extents);
    return code;
}

/* The areas, the window on the archive, the store. Where it is refused nothing is left open. */
static int32_t open_host(ts_rados *host, const ts_rados_place *place, ts_info *info) {
    int32_t code = open_areas(host, place, false);
    if (code != TS_OK) return code;
    code = tsr_window_open(&host->archive, &host->area[TS_ARCHIVE], place->cache);
    if (code == TS_OK) {
        code = open_store(host, info);
        if (code != TS_OK) tsr_window_close(&host->archive);
    }
    if (code != TS_OK) close_areas(host, true);
    return code;
}

int32_t ts_rados_open(const ts_rados_place *place, ts_rados **out, ts_info *info) {
    ts_rados *host = calloc(1, sizeof *host);
    if (!host) return TS_NO_MEMORY;
    host->steps.make = make_due;
    int32_t code = open_host(host, place, info);
    if (code == TS_OK) *out = host;
    else free(host);
    return code;
}

ts *ts_rados_store(ts_rados *host) { return &host->steps.store; }

void ts_rados_close(ts_rados *host) {
    ts_close(&host->steps.store);
    tsr_window_close(&host->archive);
    close_areas(host, host->cause.code == TS_OK);
    free(host);
}

/* ---- device calls */

void tsr_refuse_call(ts_rados *host, uint64_t call) {
    host->made = 0;
    host->refused = call;
}

static int32_t make_call(ts_rados *host, const ts_device *call) {
    area *a = &host->area[call->area];
    if (++host->made == host->refused) return tsr_refuse(TS_SYSTEM, 0, "refused for a test");
    if (call->kind == TS_SYNC) return tsr_area_sync(a);
    int32_t code = tsr_area_write(a, call->at, host->steps.bytes, call->len);
    if (call->area == TS_ARCHIVE) tsr_window_changed(&host->archive, call->at, call->len);
    return code;
}

/* Makes a device call of the store that these steps are of. */
static bool make_due(tsi_host *steps, const ts_device *call) {
    ts_rados *host = (ts_rados *)steps;
    int32_t code = make_call(host, call);
    if (code != TS_OK) host->cause = *tsr_last_cause();
    return code == TS_OK;
}

/* ---- steps */

int32_t ts_rados_pump(ts_rados *host, ts_info *info) { return tsi_pump(&host->steps, info); }

int32_t ts_rados_job_pump(ts_rados *host, ts_info *info) { return tsi_job_pump(&host->steps, info); }

int32_t ts_rados_flush(ts_rados *host) { return tsi_flush(&host->steps); }

int32_t ts_rados_job(ts_rados *host) { return tsi_job(&host->steps); }

int32_t ts_rados_commit(ts_rados *host, uint64_t txn, uint64_t label, uint64_t now, ts_info *info) {
    return tsi_commit(&host->steps, txn, label, now, info);
}

int32_t ts_rados_put(ts_rados *host, uint16_t relation, uint64_t record, const uint8_t *value, size_t value_len, uint64_t label,
                     uint64_t now, ts_info *info) {
    return tsi_put(&host->steps, relation, record, value, value_len, label, now, info);
}

int32_t ts_rados_delete(ts_rados *host, uint16_t relation, uint64_t record, uint64_t label, uint64_t now, ts_info *info) {
    return tsi_delete(&host->steps, relation, record, label, now, info);
}

/* ---- queries */

int32_t ts_rados_get(ts_rados *host, uint16_t relation, uint64_t record, uint8_t *out, size_t len, ts_info *info) {
    return tsi_get(&host->steps.store, relation, record, out, len, info);
}

int32_t ts_rados_scan(ts_rados *host, uint16_t relation, ts_row *rows, size_t row_count, uint8_t *out, size_t len, ts_info *info) {
    return tsi_scan(&host->steps.store, relation, rows, row_count, out, len, info);
}

int32_t ts_rados_archive(ts_rados *host, const uint8_t **at, size_t *len) { return tsr_window_lend(&host->archive, at, len); }

int32_t ts_rados_lent(ts_rados *host) { return tsr_window_lent(&host->archive); }

/* The answer of a query, unless a part of the archive could not be read for it. */
static int32_t answered(ts_rados *host, int32_t code) {
    int32_t lent = ts_rados_lent(host);
    return lent == TS_OK ? code : lent;
}

int32_t ts_rados_at(ts_rados *host, uint64_t view, uint16_t relation, uint64_t record, uint64_t time, uint8_t *out, size_t len,
                    ts_info *info) {
    const uint8_t *runs;
    size_t runs_len;
    int32_t code = ts_rados_archive(host, &runs, &runs_len);
    if (code != TS_OK) return code;
    return answered(host, ts_at(&host->steps.store, view, relation, record, time, runs, runs_len, out, len, info));
}

int32_t ts_rados_scan_at(ts_rados *host, uint64_t view, uint16_t relation, uint64_t time, ts_row *rows, size_t row_count, uint8_t *out,
                         size_t len, ts_info *info) {
    const uint8_t *runs;
    size_t runs_len;
    int32_t code = ts_rados_archive(host, &runs, &runs_len);
    if (code != TS_OK) return code;
    return answered(host, ts_scan_at(&host->steps.store, view, relation, time, runs, runs_len, rows, row_count, out, len, info));
}

int32_t ts_rados_between(ts_rados *host, uint64_t view, uint16_t relation, uint64_t record, uint64_t from, uint64_t upto, ts_row *rows,
                         size_t row_count, uint8_t *out, size_t len, ts_info *info) {
    const uint8_t *runs;
    size_t runs_len;
    int32_t code = ts_rados_archive(host, &runs, &runs_len);
    if (code != TS_OK) return code;
    code = ts_between(&host->steps.store, view, relation, record, from, upto, runs, runs_len, rows, row_count, out, len, info);
    return answered(host, code);
}

int32_t ts_rados_scan_between(ts_rados *host, uint64_t view, uint16_t relation, uint64_t from, uint64_t upto, ts_row *rows,
                              size_t row_count, uint8_t *out, size_t len, ts_info *info) {
    const uint8_t *runs;
    size_t runs_len;
    int32_t code = ts_rados_archive(host, &runs, &runs_len);
    if (code != TS_OK) return code;
    code = ts_scan_between(&host->steps.store, view, relation, from, upto, runs, runs_len, rows, row_count, out, len, info);
    return answered(host, code);
}

int32_t ts_rados_times_of(ts_rados *host, uint64_t label, uint64_t *times, size_t count, ts_info *info) {
    const uint8_t *rolls;
    size_t rolls_len;
    int32_t code = ts_rados_archive(host, &rolls, &rolls_len);
    if (code != TS_OK) return code;
    return answered(host, ts_times_of(&host->steps.store, label, rolls, rolls_len, times, count, info));
}
