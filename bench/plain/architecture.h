/* The architecture of the plain programs beside it: operators, media and durations, of texts that `syndex check` accepts.
   It checks nothing. */
enum { CPUS = 16, MEDIA = 16 };

typedef struct { char name[NAME]; int64_t fixed, per; int stands[CPUS]; } Medium;
static char cpu[CPUS][NAME];
static Medium media[MEDIA];
static int cpu_count, medium_count;
/* by definition and operator, or -1 */
static int64_t lasts[DEFS][CPUS];

static int named(const char *name, const char *names, int stride, int count) {
    for (int i = 0; i < count; i++) if (!strcmp(names + i * stride, name)) return i;
    return -1;
}

static void archi_line(const char *first) {
    char a[NAME], b[NAME];
    word(a);
    if (!strcmp(first, "operator")) { strcpy(cpu[cpu_count++], a); return; }
    if (!strcmp(first, "medium")) {
        Medium *m = &media[medium_count++];
        strcpy(m->name, a);
        word(b);
        m->fixed = strtoll(at, (char **)&at, 10);
        m->per = strtoll(at, (char **)&at, 10);
        return;
    }
    word(b);
    int on = named(b, cpu[0], NAME, cpu_count);
    if (!strcmp(first, "connect")) media[named(a, media[0].name, sizeof *media, medium_count)].stands[on] = 1;
    else for (int d = 0; d < def_count; d++) if (!strcmp(defs[d]->name, a)) lasts[d][on] = strtoll(at, NULL, 10);
}

static void read_architecture(const char *name) {
    memset(lasts, -1, sizeof lasts);
    at = whole(name);
    while (*at) {
        char first[NAME];
        word(first);
        if (*first && strcmp(first, "architecture")) archi_line(first);
        while (*at && *at != '\n') at++;
        if (*at) at++;
    }
}
