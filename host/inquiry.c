#include "inquiry.h"

#include "new_file.h"

#include <errno.h>
#include <inttypes.h>
#include <string.h>

enum { DEFAULT_SECONDS = 60, MOST_SECONDS = 24 * 60 * 60, MOST_MIB = 1 << 30, BYTES_PER_MIB = 1 << 20 };

struct inquiry inquiry_default(void) {
    return (struct inquiry){.solver = "z3", .seconds = DEFAULT_SECONDS};
}

void inquiry_options(struct inquiry *inquiry, struct option options[INQUIRY_OPTIONS]) {
    const struct option shared[INQUIRY_OPTIONS] = {
        {.name = "--solver", .text = &inquiry->solver},
        {.name = "--log", .text = &inquiry->log},
        {.name = "--timeout", .number = &inquiry->seconds, .least = 1, .most = MOST_SECONDS},
        {.name = "--memory", .number = &inquiry->mib, .least = 1, .most = MOST_MIB},
        {.name = "--show-proof-obligations", .flag = &inquiry->shows_obligations},
        {.name = "--raw-names", .flag = &inquiry->raw_names},
        {.name = "--raw-sorts", .flag = &inquiry->raw_sorts},
        {.name = "--verbose", .flag = &inquiry->is_verbose}};
    memcpy(options, shared, sizeof shared);
}

bool inquiry_has_memory(const struct inquiry *inquiry) {
    uint64_t most = process_most_memory() / BYTES_PER_MIB;
    if (inquiry->mib > most) {
        complain("--memory %" PRIu64 ": the system allows at most %" PRIu64 " MiB", inquiry->mib, most);
    }
    return inquiry->mib <= most;
}

bool inquiry_spares(const struct inquiry *inquiry, const char *path, const char *what) {
    bool is_same = inquiry->log != NULL && (strcmp(inquiry->log, path) == 0 || new_file_is(inquiry->log, path));
    if (is_same) {
        complain("--log %s is %s, which would be overwritten", inquiry->log, what);
    }
    return !is_same;
}

bool inquiry_begin(const struct inquiry *inquiry, struct writer *writer, struct log *log, struct prover *prover) {
    const struct engine engine = engine_named(inquiry->solver);
    const struct limits limits = {inquiry->seconds, inquiry->mib * BYTES_PER_MIB};
    if (!log_open(log, inquiry->log)) {
        complain("%s: %s", inquiry->log, strerror(errno));
        return false;
    }
    prover_begin(prover, writer, &engine, &limits, log);
    return true;
}

enum status inquiry_end(const struct inquiry *inquiry, struct prover *prover, enum status status) {
    struct log *log = prover->talk.log;
    prover_end(prover);
    if (log_close(log)) {
        return status;
    }
    complain("%s cannot be written", inquiry->log);
    return status > STATUS_REFUSED ? status : STATUS_REFUSED;
}
