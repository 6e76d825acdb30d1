/* The system's processes, as /proc has them, for the tests that count them. */
#ifndef PROCESSES_H
#define PROCESSES_H

#include <dirent.h>
#include <stdbool.h>
#include <stddef.h>
#include <stdio.h>
#include <stdlib.h>
#include <string.h>
#include <sys/types.h>

enum { MOST_PROCESSES = 4096, NAME_SIZE = 64, STAT_SIZE = 512 };

struct a_process {
    pid_t pid;
    pid_t parent;
    char state;
    char name[NAME_SIZE];
};

struct processes {
    struct a_process at[MOST_PROCESSES];
    size_t count;
};

/* A line of /proc/PID/stat; the name stands between the first and the last parenthesis, and may have some itself. */
static inline bool parse_stat(const char *line, struct a_process *process) {
    const char *begin = strchr(line, '(');
    const char *end = strrchr(line, ')');
    int pid = 0;
    int parent = 0;
    if (begin == NULL || end == NULL || end < begin || end - begin > NAME_SIZE || sscanf(line, "%d", &pid) != 1 ||
        sscanf(end + 1, " %c %d", &process->state, &parent) != 2) {
        return false;
    }
    process->pid = pid;
    process->parent = parent;
    size_t length = (size_t)(end - begin - 1);
    memcpy(process->name, begin + 1, length);
    process->name[length] = '\0';
    return true;
}

static inline bool read_process(const char *number, struct a_process *process) {
    char path[NAME_SIZE + sizeof "/proc//stat"];
    char line[STAT_SIZE];
    if (strlen(number) >= NAME_SIZE) {
        return false;
    }
    (void)sprintf(path, "/proc/%s/stat", number);
    FILE *file = fopen(path, "r");
    if (file == NULL) {
        return false;
    }
    bool is_read = fgets(line, sizeof line, file) != NULL;
    (void)fclose(file); /* it was only read */
    return is_read && parse_stat(line, process);
}

/* Those that are there while the list is read. */
static inline void read_processes(struct processes *all) {
    DIR *list = opendir("/proc");
    all->count = 0;
    if (list == NULL) {
        fprintf(stderr, "there is no /proc\n");
        exit(EXIT_FAILURE);
    }
    for (struct dirent *entry = readdir(list); entry != NULL && all->count < MOST_PROCESSES; entry = readdir(list)) {
        if (entry->d_name[0] >= '0' && entry->d_name[0] <= '9' && read_process(entry->d_name, &all->at[all->count])) {
            all->count++;
        }
    }
    (void)closedir(list); /* it was only read */
}

static inline const struct a_process *find_process(const struct processes *all, pid_t pid) {
    for (size_t i = 0; i < all->count; i++) {
        if (all->at[i].pid == pid) {
            return &all->at[i];
        }
    }
    return NULL;
}

/* Whether a process stands below another one. */
static inline bool is_below(const struct processes *all, const struct a_process *process, pid_t above) {
    size_t steps = 0;
    while (process != NULL && process->parent != above && steps++ < all->count) {
        process = find_process(all, process->parent);
    }
    return process != NULL && process->parent == above;
}

/* Whether a host has a solver: somebody below it that lives and is no copy of it, under its own name or its keeper's. */
static inline bool has_solver(pid_t host_pid) {
    static struct processes all;
    read_processes(&all);
    const struct a_process *host = find_process(&all, host_pid);
    for (size_t i = 0; host != NULL && i < all.count; i++) {
        const struct a_process *one = &all.at[i];
        if (one->state != 'Z' && strcmp(one->name, host->name) != 0 && strcmp(one->name, "solver-keeper") != 0 &&
            is_below(&all, one, host_pid)) {
            return true;
        }
    }
    return false;
}

#endif
