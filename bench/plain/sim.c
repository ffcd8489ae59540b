/* A plain simulator, for bench/sim.py to compare `syndex sim` with. It takes the graphs apart into
   operations in an order in which each stands after what it reads, and evaluates these reaction by
   reaction over one table of values. */
#include "algorithm.h"
#include "expression.h"

/* where the inputs begin in the table, and where the outputs do; of a sensor, where its values begin in a row */
typedef struct { Def *def; int in[PORTS], out[PORTS], row; } Op;

static int op_count, width = 1;
/* the actuators of `main` in declared order, by the number of the operation */
static struct { const char *name; int op; } acts[REFS];
static int act_count;
static Op ops[OPS];
static int64_t table[1 << 20];
/* where the value of a source begins */
static int place(const int *own, int (*outs)[PORTS], Source s) { return s.ref < 0 ? own[s.port] : outs[s.ref][s.port]; }

/* lays out the operations of a definition whose inputs begin there; says where its outputs begin */
static void lay_out(Def *d, const int *in, int *out) {
    if (d->kind != GRAPH) {
        Op *op = &ops[op_count++];
        op->def = d;
        for (int p = 0; p < d->ins; p++) op->in[p] = in[p];
        for (int p = 0; p < d->outs; p++) op->out[p] = out[p];
        return;
    }
    Source (*source)[PORTS] = made(sizeof *source * (size_t)(d->refs + 1));
    int (*outs)[PORTS] = made(sizeof *outs * (size_t)(d->refs + 1));
    int done[REFS] = {0};
    for (int i = 0; i < d->edges; i++) {
        const char *from, *to;
        Source s;
        s.ref = split(d, d->edge[i].from, &from);
        s.port = s.ref < 0 ? numbered(d->in, d->ins, from) : numbered(def_of(d->ref[s.ref].def)->out, def_of(d->ref[s.ref].def)->outs, from);
        int r = split(d, d->edge[i].to, &to);
        if (r < 0) source[d->refs][numbered(d->out, d->outs, to)] = s;
        else source[r][numbered(def_of(d->ref[r].def)->in, def_of(d->ref[r].def)->ins, to)] = s;
    }
    for (int r = 0; r < d->refs; r++) {
        Def *def = def_of(d->ref[r].def);
        if (def->kind == GRAPH) continue;
        for (int p = 0; p < def->outs; p++) { outs[r][p] = width; width += def->out[p].len; }
    }
    int row[REFS], act[REFS], sensed = 0;
    for (int r = 0; r < d->refs; r++) {
        Def *def = def_of(d->ref[r].def);
        row[r] = sensed;
        if (def->kind == SENSOR) sensed += def->len;
        if (def->kind == ACTUATOR) { act[r] = act_count; acts[act_count++].name = d->ref[r].name; }
    }
    for (int left = d->refs; left > 0;)
        for (int r = 0; r < d->refs; r++) {
            Def *def = def_of(d->ref[r].def);
            int ready = !done[r], from[PORTS];
            for (int p = 0; ready && p < def->ins; p++) {
                Source s = source[r][p];
                if (s.ref >= 0 && !done[s.ref] && def->kind != DELAY) ready = 0;
                else from[p] = place(in, outs, s);
            }
            if (!ready) continue;
            lay_out(def, from, outs[r]);
            if (def->kind == SENSOR) ops[op_count - 1].row = row[r];
            if (def->kind == ACTUATOR) acts[act[r]].op = op_count - 1;
            done[r] = 1;
            left--;
        }
    for (int p = 0; p < d->outs; p++) out[p] = place(in, outs, source[d->refs][p]);
}

/* A delay gives what it keeps, and takes its input when all operations have run. */
static void react(const int64_t *row, int64_t **kept) {
    for (int i = 0; i < op_count; i++) {
        Op *op = &ops[i];
        Def *d = op->def;
        switch (d->kind) {
        case SENSOR: memcpy(&table[op->out[0]], row + op->row, (size_t)d->len * 8); break;
        case CONSTANT: memcpy(&table[op->out[0]], d->value, (size_t)d->len * 8); break;
        case DELAY: memcpy(&table[op->out[0]], kept[i], (size_t)d->len * 8); break;
        case FUNCTION:
            for (int p = 0; p < d->outs; p++)
                for (int j = 0; j < d->out[p].len; j++) table[op->out[p] + j] = value(d->out[p].expr, d, op->in, table, j);
            break;
        default: break;
        }
    }
    for (int i = 0; i < op_count; i++)
        if (ops[i].def->kind == DELAY) memcpy(kept[i], &table[ops[i].in[0]], (size_t)ops[i].def->len * 8);
}

static void print_row(long k) {
    for (int a = 0; a < act_count; a++) {
        const Op *op = &ops[acts[a].op];
        printf("%ld %s", k, acts[a].name);
        for (int j = 0; j < op->def->len; j++) printf(" %lld", (long long)table[op->in[0] + j]);
        putchar('\n');
    }
}

int main(int argc, char **argv) {
    if (argc != 3) return 2;
    read_algorithm(argv[1]);
    lay_out(def_of("main"), NULL, NULL);
    int64_t **kept = made(sizeof *kept * OPS), *row = made(sizeof *row * 65536);
    for (int i = 0; i < op_count; i++)
        if (ops[i].def->kind == DELAY) { kept[i] = made(PORTS * 8); memcpy(kept[i], ops[i].def->value, PORTS * 8); }
    at = whole(argv[2]);
    while (*at && *at != '\n') at++;
    for (long k = 0; *at && at[1]; k++) {
        int n = 0;
        strtoll(at + 1, (char **)&at, 10);
        while (*at == ',') row[n++] = strtoll(at + 1, (char **)&at, 10);
        react(row, kept);
        print_row(k);
    }
    return 0;
}
