/* The texts of codes, and of the version. */
#include "timestore_file.h"

const char *timestore_version(void) { return TIMESTORE_VERSION; }

const char *ts_text(int32_t code) {
    switch (code) {
    case TS_OK: return "ok";
    case TS_NONE: return "none";
    case TS_WAITING: return "waiting";
    case TS_READ_ONLY: return "readonly";
    case TS_IN_DOUBT: return "in doubt";
    case TS_PENDING: return "a device call is due";
    case TS_CLOSED: return "no store is open";
    case TS_UNKNOWN: return "unknown";
    case TS_SMALL: return "too little room";
    case TS_NO_MEMORY: return "no memory";
    case TS_FAILED: return "failed";
    case TS_STRANGER: return "stranger";
    case TS_CONFLICT: return "conflict";
    case TS_HEAP_FULL: return "heap full";
    case TS_STATUS_FULL: return "status full";
    case TS_CLOCK_END: return "clock end";
    case TS_MISSING: return "missing";
    case TS_TOO_MANY_KEYS: return "too many keys";
    case TS_BAD_VALUE: return "bad value";
    case TS_BEFORE_KEPT: return "before kept";
    case TS_NOT_YET: return "not yet";
    case TS_EMPTY_INTERVAL: return "empty interval";
    case TS_DAMAGED: return "damaged";
    case TS_NOT_A_STORE: return "not a store";
    case TS_BUSY: return "busy";
    case TS_JOB_BUSY: return "job busy";
    case TS_NOTHING_TO_DO: return "nothing to do";
    case TS_ARCHIVE_FULL: return "archive full";
    case TS_BAD_SLOTS: return "bad slots";
    case TS_IN_USE: return "in use";
    case TS_NEEDS_ARCHIVE: return "needs disk";
    case TS_WRONG_PROFILE: return "wrong profile";
    case TS_NOT_GROWABLE: return "not growable";
    case TS_SYSTEM: return "device";
    case TS_LOCKED: return "another process has this store open";
    case TS_OCCUPIED: return "occupied";
    case TS_CACHED: return "the system keeps in memory what the disk may lack";
    case TS_ALREADY_OPEN: return "this process has this store open";
    default: return "no such code";
    }
}
