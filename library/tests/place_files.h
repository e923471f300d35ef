/* The areas of worked.c as files of a folder. */
static void make_place(void) { HOLDS(mkdir(folder, 0777) == 0); }

/* Whether the host tells which device call was refused. */
static bool tells_a_refusal(const ts_file *host) {
    ts_cause cause;
    return ts_file_error(host, &cause) == TS_OK && cause.number == EIO && strcmp(cause.file, "status") == 0;
}

static const char *path_of(const char *name) {
    static char path[4200];
    snprintf(path, sizeof path, "%s/%s", folder, name);
    return path;
}

static int64_t size_of(const char *name) {
    struct stat state;
    HOLDS(stat(path_of(name), &state) == 0);
    return state.st_size;
}

static void read_bytes(const char *name, int64_t at, uint8_t *bytes, size_t len) {
    int fd = open(path_of(name), O_RDONLY);
    HOLDS(fd >= 0 && pread(fd, bytes, len, at) == (ssize_t)len);
    close(fd);
}

static void write_byte(const char *name, int64_t at, uint8_t byte) {
    int fd = open(path_of(name), O_WRONLY);
    HOLDS(fd >= 0 && pwrite(fd, &byte, 1, at) == 1);
    close(fd);
}

static void cut(const char *name, int64_t len) { HOLDS(truncate(path_of(name), len) == 0); }
