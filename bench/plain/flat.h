/* The flat graph of the plain programs beside it: the operations of which an algorithm consists once its graphs are
   taken apart. */
#include "algorithm.h"

typedef enum { PLAIN, GET, SET } Half;
typedef struct { int op, port; } Value;
typedef struct { char *name; Def *def; Half half; int ins, outs, get; Value in[PORTS]; int first_value; } Op;
/* an instance of a definition: of a graph with those of its references, of any other with its operation */
typedef struct Inst { Def *def; struct Inst *up, **in; int ref, op; } Inst;

static Op *ops;
static int op_count, value_count;
static Source (*sources[DEFS])[PORTS];

static int index_of(Def *d) { for (int i = 0; ; i++) if (defs[i] == d) return i; }

/* where each input of each reference comes from, and behind the references the graph's own outputs */
static Source (*sources_of(Def *d))[PORTS] {
    int n = index_of(d);
    if (sources[n]) return sources[n];
    sources[n] = made(sizeof *sources[n] * (size_t)(d->refs + 1));
    for (int i = 0; i < d->edges; i++) {
        const char *from, *to;
        Source s;
        s.ref = split(d, d->edge[i].from, &from);
        s.port = s.ref < 0 ? numbered(d->in, d->ins, from) : numbered(def_of(d->ref[s.ref].def)->out, def_of(d->ref[s.ref].def)->outs, from);
        int r = split(d, d->edge[i].to, &to);
        if (r < 0) sources[n][d->refs][numbered(d->out, d->outs, to)] = s;
        else sources[n][r][numbered(def_of(d->ref[r].def)->in, def_of(d->ref[r].def)->ins, to)] = s;
    }
    return sources[n];
}

static int an_op(Def *d, const char *path, const char *half, Half kind) {
    Op *op = &ops[op_count];
    op->name = made(strlen(path) + strlen(half) + 1);
    sprintf(op->name, "%s%s", path, half);
    op->def = d;
    op->half = kind;
    op->ins = kind == GET ? 0 : d->ins;
    op->outs = kind == SET ? 0 : d->outs;
    op->first_value = value_count;
    value_count += op->outs;
    return op_count++;
}

static Inst *expand(Def *d, const char *path, Inst *up, int ref) {
    Inst *i = made(sizeof *i);
    *i = (Inst){ d, up, NULL, ref, 0 };
    if (d->kind != GRAPH) {
        i->op = an_op(d, path, d->kind == DELAY ? ":get" : "", d->kind == DELAY ? GET : PLAIN);
        if (d->kind == DELAY) ops[an_op(d, path, ":set", SET)].get = i->op;
        return i;
    }
    i->in = made(sizeof *i->in * (size_t)(d->refs + 1));
    for (int r = 0; r < d->refs; r++) {
        char inner[16 * NAME];
        snprintf(inner, sizeof inner, "%s%s%s", path, up ? "/" : "", d->ref[r].name);
        i->in[r] = expand(def_of(d->ref[r].def), inner, i, r);
    }
    return i;
}

static Value value_of(Inst *i, Source s);

static Value output_of(Inst *i, int port) {
    return i->def->kind == GRAPH ? value_of(i, sources_of(i->def)[i->def->refs][port]) : (Value){ i->op, port };
}

/* the value of a source inside an instance */
static Value value_of(Inst *i, Source s) {
    return s.ref < 0 ? value_of(i->up, sources_of(i->up->def)[i->ref][s.port]) : output_of(i->in[s.ref], s.port);
}

static void connect(Inst *i) {
    if (i->def->kind == GRAPH) {
        for (int r = 0; r < i->def->refs; r++) connect(i->in[r]);
        return;
    }
    Op *op = &ops[i->op + (i->def->kind == DELAY)];
    for (int p = 0; p < op->ins; p++) op->in[p] = value_of(i->up, sources_of(i->up->def)[i->ref][p]);
}

static void read_operations(const char *name) {
    read_algorithm(name);
    ops = made(sizeof *ops * OPS);
    connect(expand(def_of("main"), "", NULL, 0));
}
