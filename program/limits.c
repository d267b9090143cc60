#include <sched.h>

#include "driver.h"

/* What has these two of x86-64-v2's sets of instructions has the others. */
void check_processor(void) {
#ifdef __x86_64__
    if (!__builtin_cpu_supports("sse4.2") || !__builtin_cpu_supports("popcnt"))
        fail(FAILED, "this processor is too old: cisternpea-proved is built for x86-64-v2");
#endif
}

/* The number in a file of a control group, and the second there; UINT64_MAX if there is none ("max", -1). */
static uint64_t number(const char *folder, const char *group, const char *name, uint64_t *second) {
    char path[8192];
    uint64_t first = UINT64_MAX;
    snprintf(path, sizeof path, "/sys/fs/cgroup%s%s/%s", folder, group, name);
    FILE *file = fopen(path, "re");
    if (file == NULL) return UINT64_MAX;
    if (fscanf(file, "%" SCNu64 "%" SCNu64, &first, second) < 1) first = UINT64_MAX;
    fclose(file);
    return first;
}

static uint64_t smaller(uint64_t a, uint64_t b) { return a < b ? a : b; }

/* Lowers both limits by what a group and those above it allow; the line's front says which hierarchy it is in. Quotas of
 * processor time count as whole cores, rounded up. */
static void apply_group(const char *front, char *group, uint64_t *cores, uint64_t *bytes) {
    bool v2 = strncmp(front, "0::", 3) == 0, v1_cpu = strstr(front, ":cpu") && !strstr(front, ":cpuset");
    for (char *slash = group + strlen(group); slash != NULL; slash = strrchr(group, '/')) {
        *slash = 0;
        uint64_t quota = UINT64_MAX, period = 0, none;
        if (v2) quota = number("", group, "cpu.max", &period);
        if (v2) *bytes = smaller(*bytes, number("", group, "memory.max", &none));
        if (v1_cpu) quota = number("/cpu", group, "cpu.cfs_quota_us", &none);
        if (v1_cpu) period = number("/cpu", group, "cpu.cfs_period_us", &none);
        if (strstr(front, ":memory:"))
            *bytes = smaller(*bytes, number("/memory", group, "memory.limit_in_bytes", &none));
        if (quota < UINT64_MAX && period > 0) *cores = smaller(*cores, quota / period + (quota % period > 0));
    }
}

void find_usable(uint64_t *cores, uint64_t *bytes) {
    char line[4096], group[4096], *slash;
    cpu_set_t set;
    FILE *groups = fopen("/proc/self/cgroup", "re");
    bool known = sched_getaffinity(0, sizeof set, &set) == 0;
    *cores = (uint64_t)(known ? CPU_COUNT(&set) : sysconf(_SC_NPROCESSORS_ONLN));
    *bytes = (uint64_t)sysconf(_SC_PHYS_PAGES) * (uint64_t)sysconf(_SC_PAGESIZE);
    while (groups != NULL && fgets(line, sizeof line, groups) != NULL) {
        line[strcspn(line, "\n")] = 0;
        if ((slash = strchr(line, '/')) == NULL) continue;
        strcpy(group, slash[1] == 0 ? "" : slash);
        *slash = 0;
        apply_group(line, group, cores, bytes);
    }
    if (groups != NULL) fclose(groups);
}
