/* How a solver is asked, as the options say that the commands that ask share. */
#ifndef INQUIRY_H
#define INQUIRY_H

#include "complain.h"
#include "options.h"
#include "prove.h"

struct inquiry {
    const char *solver;
    const char *log; /* NULL for none */
    uint64_t seconds;
    uint64_t mib;
    bool shows_obligations;
    bool is_verbose;
    bool raw_names;
    bool raw_sorts;
};

/* One where no option is given. */
struct inquiry inquiry_default(void);

enum { INQUIRY_OPTIONS = 8 };

void inquiry_options(struct inquiry *inquiry, struct option options[INQUIRY_OPTIONS]);

/* What can be known before a solver is started. False after a complaint. */

/* Whether the system lets a solver have as much memory as it is to have at most. */
bool inquiry_has_memory(const struct inquiry *inquiry);

/* Whether the log is another file than this one, which is called `what`. */
bool inquiry_spares(const struct inquiry *inquiry, const char *path, const char *what);

/* Opens the log, and makes a prover that is ready to ask. False after a complaint, and there is nothing to end. */
bool inquiry_begin(const struct inquiry *inquiry, struct writer *writer, struct log *log, struct prover *prover);

/* Ends both, and gives the status, of what was asked and of the log. */
enum status inquiry_end(const struct inquiry *inquiry, struct prover *prover, enum status status);

#endif
