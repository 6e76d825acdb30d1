/* What a new process does to become the solver. */
#ifndef LAUNCH_H
#define LAUNCH_H

#include <stdint.h>
#include <sys/types.h>

/* What a shell's and this program's new process ends with where a command cannot be started. */
enum { LAUNCH_FAILED = 127 };

enum { LAUNCH_STREAMS = 3 };

/*
 * Becomes the command, in a group of its own, with the given ends of pipes as its standard streams. `memory` is the most bytes of memory
 * that it may have, 0 for no limit. It dies with `parent`, its parent. Where it cannot be started it says so on its standard error.
 */
_Noreturn void launch(const int streams[LAUNCH_STREAMS], pid_t parent, const char *const *command, uint64_t memory);

/* Says on a stream that the command cannot be started; errno says why. */
void launch_complain(int stream, const char *const *command);

#endif
