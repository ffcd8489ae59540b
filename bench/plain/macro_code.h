/* The reader of macro-code of the plain programs beside it: a text becomes a program in memory (buffers, pairs,
   sequences, instructions), or is refused at its first wrong line, in the words of `syndex exec`. Limits and the check of the
   program are not its business. It stands behind flat.h and architecture.h. */

typedef enum { SUC0, SUC1, PRE0, PRE1, SEND, RECV, SYNC, CALL } Form_of;
/* A pair; a buffer and an operator; two operators; or an operation, whose buffers stand in `lists` from `first` on, first
   those that it reads */
typedef struct { Form_of form; int a, b, first, ins, outs; } Instr;
/* the main part of an operator where the medium is -1; the prologue ends where the loop begins */
typedef struct { int cpu, medium, start, loop, end; } Seq;
typedef struct { int64_t number, len; int on, line, depth; } Declared;
typedef struct { const char *text; int len; } Word;

static Instr *instrs;
static int instr_count, instr_room, *lists, list_count, list_room;
static Seq seqs[CPUS * (MEDIA + 1)];
static int seq_count;
/* as they are declared, and from `sort_declared` on by number */
static Declared *buffers, *pairs;
static int buffer_count, buffer_room, pair_count, pair_room;

enum { PROCESSOR_ = CALL, SEMAPHORES_, ALLOC_, THREAD_, ENDTHREAD_, MAIN_, ENDMAIN_, SPAWN_THREAD_, WAIT_ENDTHREAD_, LOOP_, ENDLOOP_, MACROS };
static const Word macros[MACROS] = {
    { "Suc0_", 5 }, { "Suc1_", 5 }, { "Pre0_", 5 }, { "Pre1_", 5 }, { "send_", 5 }, { "recv_", 5 }, { "sync_", 5 },
    { "processor_", 10 }, { "semaphores_", 11 }, { "alloc_", 6 }, { "thread_", 7 }, { "endthread_", 10 }, { "main_", 5 },
    { "endmain_", 8 }, { "spawn_thread_", 13 }, { "wait_endthread_", 15 }, { "loop_", 5 }, { "endloop_", 8 },
};

/* ---- refusals ---- */

static int line_number;

static void refuse(const char *cause, const Word *w) {
    fprintf(stderr, "code line %d: %s", line_number, cause);
    if (w) fprintf(stderr, " %.*s", w->len, w->text);
    fputc('\n', stderr);
    exit(11);
}

static void bad_line(void) { refuse("C1 BadLine", NULL); }
static void bad_argument(void) { refuse("C3 BadArgument", NULL); }
static void unknown_name(const Word *w) { refuse("C4 UnknownName", w); }

/* ---- words and numbers ---- */

static int same(const Word *w, const char *text, int len) { return w->len == len && !memcmp(w->text, text, (size_t)len); }

static int is_a_name(const Word *w) {
    if (w->len < 1 || w->len > 32 || (*w->text >= '0' && *w->text <= '9')) return 0;
    for (int i = 0; i < w->len; i++) if (!is_word(w->text[i])) return 0;
    return 1;
}

/* a number from 0 on, or -1 */
static int64_t number_in(const char *text, int len) {
    int minus = len > 0 && *text == '-';
    uint64_t n = 0;
    if (len == minus) return -1;
    for (int i = minus; i < len; i++) {
        unsigned d = (unsigned)text[i] - '0';
        if (d > 9 || n > ((uint64_t)INT64_MAX - d) / 10) return -1;
        n = 10 * n + d;
    }
    return minus && n ? -1 : (int64_t)n;
}

static int64_t buffer_in(const Word *w) { return w->len && *w->text == 'b' ? number_in(w->text + 1, w->len - 1) : -1; }

/* what commas separate */
static Word *arguments;
static int argument_count, argument_room;

static int split_list(const char *text, const char *end) {
    int before = argument_count;
    while (text < end || argument_count > before) {
        const char *comma = memchr(text, ',', (size_t)(end - text));
        if (argument_count == argument_room) {
            argument_room = argument_room ? 2 * argument_room : 64;
            arguments = realloc(arguments, sizeof *arguments * (size_t)argument_room);
            if (!arguments) exit(9);
        }
        arguments[argument_count++] = (Word){ text, (int)((comma ? comma : end) - text) };
        if (!comma) break;
        text = comma + 1;
    }
    return argument_count - before;
}

/* ---- what is declared ---- */

/* where a number was declared last, for numbers that a text of this length may use */
typedef struct { int *at; int64_t room; } Places;
static Places buffer_places, pair_places;
static int *op_places, cpu_here, first_buffer, first_pair;

static int is_here(const Places *p, const Declared *all, int first, int count, int64_t n) {
    if (n < 0) return 0;
    if (n < p->room) return p->at[n] > first;
    for (int i = first; i < count; i++) if (all[i].number == n) return 1;
    return 0;
}

static int buffer_is_here(int64_t n) { return is_here(&buffer_places, buffers, first_buffer, buffer_count, n); }
static int pair_is_here(int64_t n) { return is_here(&pair_places, pairs, first_pair, pair_count, n); }

static void declare(Declared **all, int *count, int *room, Places *p, Declared d) {
    if (*count == *room) {
        *room = *room ? 2 * *room : 1024;
        *all = realloc(*all, sizeof **all * (size_t)*room);
        if (!*all) exit(9);
    }
    (*all)[(*count)++] = d;
    if (d.number < p->room) p->at[d.number] = *count;
}

enum { OP_PLACES = 2 * OPS };

static unsigned hash_of(const char *text, int len) {
    unsigned h = 2166136261u;
    for (int i = 0; i < len; i++) h = (h ^ (unsigned char)text[i]) * 16777619u;
    return h % OP_PLACES;
}

static void place_operations(void) {
    op_places = made(sizeof *op_places * OP_PLACES);
    for (int o = 0; o < op_count; o++) {
        unsigned h = hash_of(ops[o].name, (int)strlen(ops[o].name));
        while (op_places[h]) h = (h + 1) % OP_PLACES;
        op_places[h] = o + 1;
    }
}

static int operation_of(const Word *w) {
    for (unsigned h = hash_of(w->text, w->len); op_places[h]; h = (h + 1) % OP_PLACES)
        if (!strncmp(ops[op_places[h] - 1].name, w->text, (size_t)w->len) && !ops[op_places[h] - 1].name[w->len]) return op_places[h] - 1;
    unknown_name(w);
    return -1;
}

static int operator_of(const Word *w) {
    for (int i = 0; i < cpu_count; i++) if (same(w, cpu[i], (int)strlen(cpu[i]))) return i;
    unknown_name(w);
    return -1;
}

static int medium_of(const Word *w) {
    for (int i = 0; i < medium_count; i++) if (same(w, media[i].name, (int)strlen(media[i].name))) return i;
    unknown_name(w);
    return -1;
}

/* ---- lines ---- */

static enum { OUTSIDE, NAMED, DECLARED, THREADED, PROLOGUE, TURN, ENDED } stage;
static int medium_here, threads[MEDIA], thread_count, spawned, last_spawned, awaited, last_awaited, main_here;

static int takes_instr(void) { return stage == TURN || (stage == PROLOGUE && (medium_here >= 0 || spawned >= thread_count)); }

static int may_stand(int macro) {
    int in_main = medium_here < 0;
    switch (macro) {
    case PROCESSOR_: return stage == OUTSIDE;
    case SEMAPHORES_: return stage == NAMED;
    case ALLOC_: return stage == DECLARED;
    case THREAD_: case MAIN_: return stage == DECLARED || stage == THREADED;
    case SPAWN_THREAD_: return stage == PROLOGUE && in_main && spawned < thread_count;
    case LOOP_: return stage == PROLOGUE && takes_instr();
    case ENDLOOP_: return stage == TURN;
    case ENDTHREAD_: return stage == ENDED && !in_main;
    case WAIT_ENDTHREAD_: return stage == ENDED && in_main && awaited < thread_count;
    case ENDMAIN_: return stage == ENDED && in_main && awaited >= thread_count;
    default: return takes_instr();
    }
}

static void add_instr(Instr x) {
    if (instr_count == instr_room) {
        instr_room = instr_room ? 2 * instr_room : 4096;
        instrs = realloc(instrs, sizeof *instrs * (size_t)instr_room);
        if (!instrs) exit(9);
    }
    instrs[instr_count++] = x;
}

static void add_to_list(int64_t n) {
    if (list_count == list_room) {
        list_room = list_room ? 2 * list_room : 4096;
        lists = realloc(lists, sizeof *lists * (size_t)list_room);
        if (!lists) exit(9);
    }
    lists[list_count++] = (int)n;
}

static const Word *one_name(int bare) {
    if (bare || argument_count != 1 || !is_a_name(arguments)) bad_argument();
    return arguments;
}

static void processor_line(int bare) {
    int o = operator_of(one_name(bare));
    if (o <= cpu_here) bad_argument();
    cpu_here = o;
    first_buffer = buffer_count;
    first_pair = pair_count;
    thread_count = 0;
    main_here = seq_count++;
    stage = NAMED;
}

static void semaphores_line(int bare) {
    if (bare) bad_argument();
    for (int i = 0; i < argument_count; i++) if (number_in(arguments[i].text, arguments[i].len) < 0) bad_argument();
    for (int64_t i = 0, last = -1; i < argument_count; i++) {
        int64_t n = number_in(arguments[i].text, arguments[i].len);
        if (n <= last) bad_argument();
        last = n;
        declare(&pairs, &pair_count, &pair_room, &pair_places, (Declared){ n, 0, cpu_here, line_number, 0 });
    }
    stage = DECLARED;
}

static void alloc_line(int bare) {
    if (bare || argument_count < 2 || argument_count > 3) bad_argument();
    int64_t n = buffer_in(arguments), len = number_in(arguments[1].text, arguments[1].len);
    int64_t depth = argument_count == 3 ? number_in(arguments[2].text, arguments[2].len) : 1;
    if (n < 0 || len < 1 || (argument_count == 3 && (depth < 2 || depth > 4))) bad_argument();
    if (buffer_count > first_buffer && n <= buffers[buffer_count - 1].number) bad_argument();
    declare(&buffers, &buffer_count, &buffer_room, &buffer_places, (Declared){ n, len, cpu_here, line_number, (int)depth });
}

static void thread_line(int bare) {
    int m = medium_of(one_name(bare));
    if (thread_count && m <= threads[thread_count - 1]) bad_argument();
    threads[thread_count++] = medium_here = m;
    seqs[seq_count++] = (Seq){ cpu_here, m, instr_count, 0, 0 };
    stage = PROLOGUE;
}

/* the media whose threads are started or awaited: so many, the last one of which is told */
static void of_thread(int bare, int *count, int *last) {
    int m = medium_of(one_name(bare)), there = 0;
    if (*count && m <= *last) bad_argument();
    for (int i = 0; i < thread_count; i++) there |= threads[i] == m;
    if (!there) unknown_name(arguments);
    *last = m;
    ++*count;
}

static Seq *seq_here(void) { return &seqs[medium_here < 0 ? main_here : seq_count - 1]; }

/* a line without arguments */
static void plain_line(int macro, int bare) {
    if (!bare) bad_argument();
    switch (macro) {
    case MAIN_:
        medium_here = -1;
        spawned = awaited = 0;
        seqs[main_here] = (Seq){ cpu_here, -1, instr_count, 0, 0 };
        stage = PROLOGUE;
        break;
    case LOOP_: seq_here()->loop = instr_count; stage = TURN; break;
    case ENDLOOP_: seq_here()->end = instr_count; stage = ENDED; break;
    case ENDTHREAD_: stage = THREADED; break;
    default: stage = OUTSIDE;
    }
}

static void pair_line(int macro, int bare) {
    int64_t n = bare || argument_count != 1 ? -1 : number_in(arguments->text, arguments->len);
    if (n < 0) bad_argument();
    if (!pair_is_here(n)) unknown_name(arguments);
    add_instr((Instr){ (Form_of)macro, (int)n, 0, 0, 0, 0 });
}

static void transfer_line(int macro, int bare) {
    if (bare || argument_count != 2) bad_argument();
    int64_t n = buffer_in(arguments);
    if (n < 0 || !is_a_name(&arguments[1])) bad_argument();
    if (!buffer_is_here(n)) unknown_name(arguments);
    add_instr((Instr){ (Form_of)macro, (int)n, operator_of(&arguments[1]), 0, 0, 0 });
}

static void sync_line(int bare) {
    if (bare || argument_count != 2 || !is_a_name(arguments) || !is_a_name(&arguments[1])) bad_argument();
    int from = operator_of(arguments);
    add_instr((Instr){ SYNC, from, operator_of(&arguments[1]), 0, 0, 0 });
}

static void macro_line(int macro, int bare) {
    if (!may_stand(macro)) bad_line();
    switch (macro) {
    case SUC0: case SUC1: case PRE0: case PRE1: pair_line(macro, bare); break;
    case SEND: case RECV: transfer_line(macro, bare); break;
    case SYNC: sync_line(bare); break;
    case PROCESSOR_: processor_line(bare); break;
    case SEMAPHORES_: semaphores_line(bare); break;
    case ALLOC_: alloc_line(bare); break;
    case THREAD_: thread_line(bare); break;
    case SPAWN_THREAD_: of_thread(bare, &spawned, &last_spawned); break;
    case WAIT_ENDTHREAD_: of_thread(bare, &awaited, &last_awaited); break;
    default: plain_line(macro, bare);
    }
}

static int is_unmarked(const char *text, const char *end) {
    for (; text < end; text++) if (*text == '(' || *text == ')' || *text == ';') return 0;
    return 1;
}

/* NAME and NAME(LIST) */
static void one_word(const Word *w) {
    const char *end = w->text + w->len, *open = memchr(w->text, '(', (size_t)w->len);
    Word name = { w->text, open ? (int)(open - w->text) : w->len };
    if (!is_a_name(&name) || same(&name, "op", 2)) bad_line();
    if (open && (end[-1] != ')' || !is_unmarked(open + 1, end - 1))) bad_line();
    int macro = 0;
    while (macro < MACROS && !same(&name, macros[macro].text, macros[macro].len)) macro++;
    if (macro == MACROS) refuse("C2 UnknownMacro", &name);
    argument_count = 0;
    if (open) split_list(open + 1, end - 1);
    macro_line(macro, !open);
}

/* OPERATION(INS;OUTS) behind `op` */
static void two_words(const Word *o, const Word *w) {
    const char *end = w->text + w->len, *open = memchr(w->text, '(', (size_t)w->len);
    const char *middle = open ? memchr(open, ';', (size_t)(end - open)) : NULL;
    if (!same(o, "op", 2) || !middle || open == w->text || end[-1] != ')') bad_line();
    if (!is_unmarked(w->text, open) || !is_unmarked(open + 1, middle) || !is_unmarked(middle + 1, end - 1)) bad_line();
    if (!takes_instr()) bad_line();
    Word name = { w->text, (int)(open - w->text) };
    argument_count = 0;
    int first = list_count, ins = split_list(open + 1, middle), outs = split_list(middle + 1, end - 1);
    for (int i = 0; i < ins + outs; i++) {
        int64_t n = buffer_in(&arguments[i]);
        if (n < 0) bad_argument();
        add_to_list(n);
    }
    int v = operation_of(&name);
    for (int i = 0; i < ins + outs; i++) if (!buffer_is_here(buffer_in(&arguments[i]))) unknown_name(&arguments[i]);
    add_instr((Instr){ CALL, v, 0, first, ins, outs });
}

static int is_blank(char c) { return c == ' ' || c == '\t' || c == '\r'; }

static void text_line(const char *text, const char *end) {
    Word words[3];
    int count = 0;
    const char *hash = memchr(text, '#', (size_t)(end - text));
    if (hash) end = hash;
    for (const char *c = text; c < end; c++) if (!is_blank(*c) && (*c < 33 || *c > 126)) bad_line();
    while (count < 3) {
        while (text < end && is_blank(*text)) text++;
        if (text == end) break;
        const char *from = text;
        while (text < end && !is_blank(*text)) text++;
        words[count++] = (Word){ from, (int)(text - from) };
    }
    if (count == 1) one_word(&words[0]);
    if (count == 2) two_words(&words[0], &words[1]);
    if (count == 3) bad_line();
}

/* ---- the whole ---- */

/* the line of the first declaration whose number is too large or was declared before */
static int misnumbered(const Declared *all, int count) {
    char *before = made((size_t)count + 1);
    int line = 0;
    for (int i = 0; i < count && !line; i++) {
        if (all[i].number >= count || before[all[i].number]) line = all[i].line;
        else before[all[i].number] = 1;
    }
    free(before);
    return line;
}

static void sort_declared(Declared *all, int count) {
    Declared *sorted = made(sizeof *sorted * (size_t)(count + 1));
    for (int i = 0; i < count; i++) sorted[all[i].number] = all[i];
    if (count) memcpy(all, sorted, sizeof *sorted * (size_t)count);
    free(sorted);
}

static void read_macro_code(const char *name) {
    size_t length;
    const char *text = whole_of(name, &length), *end = text + length;
    buffer_places = (Places){ made(sizeof(int) * (length + 1)), (int64_t)length };
    pair_places = (Places){ made(sizeof(int) * (length + 1)), (int64_t)length };
    place_operations();
    cpu_here = -1;
    while (text < end) {
        const char *feed = memchr(text, '\n', (size_t)(end - text));
        line_number++;
        text_line(text, feed ? feed : end);
        text = feed ? feed + 1 : end;
    }
    line_number++;
    if (stage != OUTSIDE) bad_line();
    int b = misnumbered(buffers, buffer_count), q = misnumbered(pairs, pair_count);
    if (b || q) { line_number = !b || (q && q < b) ? q : b; bad_argument(); }
    sort_declared(buffers, buffer_count);
    sort_declared(pairs, pair_count);
}
