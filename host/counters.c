/* The counters as text and as JSON. NOT PROVED. */
#include "bogtrumpetd.h"

#include <errno.h>
#include <fcntl.h>
#include <stdlib.h>
#include <string.h>
#include <sys/stat.h>
#include <unistd.h>

#define NAME(name, text) text,
static const char *const call_names[] = {CALLS(NAME)}, *const event_names[] = {EVENTS(NAME)};
#undef NAME

static void text_of(const char *name, const struct counters *counters, FILE *out) {
    for (size_t call = 0; call < CALL_COUNT; call++)
        for (uint8_t number = 0; number < NUMBERS; number++)
            if (counters->calls[call][number] > 0)
                fprintf(out, "%s %s %u %llu %s\n", name, call_names[call], number,
                        (unsigned long long)counters->calls[call][number], bogtrumpet_number_text(number));
    for (size_t event = 0; event < EVENT_COUNT; event++)
        if (counters->events[event] > 0)
            fprintf(out, "%s host %s %llu\n", name, event_names[event], (unsigned long long)counters->events[event]);
}

void counters_text(const struct host *host, FILE *out) {
    text_of("-", &host->node_counters, out);
    for (size_t i = 0; i < host->config.service_count; i++)
        text_of(host->config.services[i].tun, &host->services[i].counters, out);
    fflush(out);
}

/* An object of those above 0. The separator is what stands before the next member. */
static void json_member(FILE *out, const char **separator, const char *name, uint64_t count) {
    if (count > 0) {
        fprintf(out, "%s\"%s\": %llu", *separator, name, (unsigned long long)count);
        *separator = ", ";
    }
}

static void json_of(const struct counters *counters, FILE *out) {
    fputc('{', out);
    for (size_t call = 0; call < CALL_COUNT; call++) {
        const char *separator = "";
        fprintf(out, "\"%s\": {", call_names[call]);
        for (unsigned number = 0; number < NUMBERS; number++) {
            char name[16];
            snprintf(name, sizeof name, "%u", number);
            json_member(out, &separator, name, counters->calls[call][number]);
        }
        fputs("}, ", out);
    }
    const char *separator = "";
    fputs("\"host\": {", out);
    for (size_t event = 0; event < EVENT_COUNT; event++)
        json_member(out, &separator, event_names[event], counters->events[event]);
    fputs("}}", out);
}

void counters_json(const struct host *host, FILE *out) {
    fprintf(out, "{\"version\": \"%s\", \"seconds\": %lu,\n \"node\": ", BOGTRUMPET_VERSION, (unsigned long)(now() - host->started));
    json_of(&host->node_counters, out);
    fputs(",\n \"services\": {", out);
    for (size_t i = 0; i < host->config.service_count; i++) {
        /* A device's name as the kernel takes it: no slash, no blank; config.c takes no quote and no backslash. */
        fprintf(out, "%s\"%s\": ", i > 0 ? ",\n  " : "", host->config.services[i].tun);
        json_of(&host->services[i].counters, out);
    }
    fputs("}}\n", out);
    fflush(out);
}

/* A file that is there whole at any moment: what is written anew takes its name. What is no file, a device for instance, is left alone. */
static void write_file(const struct host *host, const char *name, void (*write)(const struct host *, FILE *)) {
    char other[PATH_MAX + 8];
    struct stat there;
    if (*name == 0)
        return;
    if (lstat(name, &there) == 0 && !S_ISREG(there.st_mode)) {
        note("%s: no file", name);
        return;
    }
    snprintf(other, sizeof other, "%s.new", name);
    int place = open(other, O_WRONLY | O_CREAT | O_TRUNC | O_NOFOLLOW | O_CLOEXEC, 0644);
    FILE *file = place >= 0 ? fdopen(place, "w") : NULL;
    if (file == NULL) {
        note("%s: %s", other, strerror(errno));
        return;
    }
    write(host, file);
    bool written = !ferror(file);
    if (fclose(file) != 0 || !written || rename(other, name) != 0) {
        note("%s: %s", name, strerror(errno));
        unlink(other);
    }
}

/* As text on standard error. */
void counters_say(const struct host *host) {
    char *text = NULL;
    size_t length = 0;
    FILE *memory = open_memstream(&text, &length);
    if (memory == NULL)
        return;
    counters_text(host, memory);
    if (fclose(memory) == 0)
        say(text, length);
    free(text);
}

void counters_files(const struct host *host) {
    write_file(host, host->config.counters, counters_text);
    write_file(host, host->config.counters_json, counters_json);
}
