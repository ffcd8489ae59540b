/* A plain compiler, for bench/chart.py to compare `syndex chart` and `syndex code` with: it takes an algorithm of sensors,
   actuators, constants, delays, functions and graphs apart into operations, places them by the pressure of the schedule with
   kept arrivals, found only where they may decide, and prints the timing chart or the macro-code. */
#include "flat.h"
#include "architecture.h"

enum { HOPS = 16, SEQS = CPUS * (MEDIA + 1) };

typedef struct { int count, medium[HOPS], to[HOPS]; } Route;
static Route routes[CPUS][CPUS];

/* by the whole lists of media, and then by those of operators */
static int compared(const Route *a, const Route *b) {
    for (int i = 0; i < a->count; i++) if (a->medium[i] != b->medium[i]) return a->medium[i] - b->medium[i];
    for (int i = 0; i < a->count; i++) if (a->to[i] != b->to[i]) return a->to[i] - b->to[i];
    return 0;
}

/* the least routes of so many hops, from those of one hop less */
static void find_routes(void) {
    for (int hops = 1; hops < CPUS; hops++)
        for (int a = 0; a < cpu_count; a++)
            for (int b = 0; b < cpu_count; b++) {
                if (a == b || (routes[a][b].count && routes[a][b].count < hops)) continue;
                for (int m = 0; m < medium_count; m++)
                    for (int x = 0; x < cpu_count; x++) {
                        if (x == a || !media[m].stands[a] || !media[m].stands[x]) continue;
                        const Route *rest = &routes[x][b];
                        if (x == b ? hops != 1 : rest->count != hops - 1 || hops == 1) continue;
                        Route r = { hops, { m }, { x } };
                        for (int i = 0; x != b && i < rest->count; i++) { r.medium[i + 1] = rest->medium[i]; r.to[i + 1] = rest->to[i]; }
                        if (!routes[a][b].count || compared(&r, &routes[a][b]) < 0) routes[a][b] = r;
                    }
            }
}

/* ---- the pressure run ---- */

typedef struct { Value value; int medium, from, to; int64_t start, end; } Transfer;
typedef struct { int op, on, first_transfer, transfers; int64_t start, end; } Decision;
static Decision *decisions;
static Transfer *transfers;
static int decision_count, transfer_count, transfer_room;
static int64_t cpu_end[CPUS], medium_end[MEDIA], *held, *tail, *arrivals, *seen;
/* by operation and operator whether the arrival is known, and by operation the operator that is looked at first */
static char *known;
static int *proposed;
static int *placed_on;
static int64_t *placed_end;

static int64_t ticks(const Op *op, int on) {
    return op->half != PLAIN || op->def->kind == CONSTANT ? 0 : lasts[index_of(op->def)][on];
}

static int64_t *held_at(Value v, int on) { return &held[(ops[v.op].first_value + v.port) * CPUS + on]; }

static int is_first(const Op *op, int p) {
    for (int i = 0; i < p; i++) if (op->in[i].op == op->in[p].op && op->in[i].port == op->in[p].port) return 0;
    return 1;
}

static void push_transfer(Transfer t) {
    if (transfer_count == transfer_room) {
        transfer_room = transfer_room ? 2 * transfer_room : 1024;
        transfers = realloc(transfers, sizeof *transfers * (size_t)transfer_room);
        if (!transfers) exit(9);
    }
    transfers[transfer_count++] = t;
}

/* the greatest date at which the sources of an operation are held on an operator, if they are sent now; keeps the transfers or
   forgets them */
static int64_t arrival(const Op *op, int on, int keep) {
    int64_t end[MEDIA], latest = 0;
    memcpy(end, medium_end, sizeof end);
    for (int p = 0; p < op->ins; p++) {
        Value v = op->in[p];
        int64_t date = *held_at(v, on);
        if (date < 0 && is_first(op, p)) {
            int near = placed_on[v.op];
            const Route *r = &routes[near][on];
            date = placed_end[v.op];
            for (int h = 0; h < r->count; near = r->to[h++]) {
                int64_t *there = held_at(v, r->to[h]);
                if (*there >= 0) { date = *there; continue; }
                const Medium *m = &media[r->medium[h]];
                int64_t start = end[r->medium[h]] > date ? end[r->medium[h]] : date;
                date = end[r->medium[h]] = start + m->fixed + m->per * ops[v.op].def->out[v.port].len;
                if (!keep) continue;
                *there = date;
                medium_end[r->medium[h]] = date;
                push_transfer((Transfer){ v, r->medium[h], near, r->to[h], start, date });
            }
        }
        if (date > latest) latest = date;
    }
    return latest;
}

static int64_t start_at(int o, int on, int64_t arrives) {
    int64_t start = arrives > cpu_end[on] ? arrives : cpu_end[on];
    if (ops[o].half == SET && placed_end[ops[o].get] > start) start = placed_end[ops[o].get];
    return start;
}

static int may_stand(int o, int on) {
    if (ops[o].half == SET) return placed_on[ops[o].get] == on;
    return ticks(&ops[o], on) >= 0;
}

static void place(int o, int on) {
    Decision *d = &decisions[decision_count++];
    *d = (Decision){ o, on, transfer_count, 0, 0, 0 };
    d->start = start_at(o, on, arrival(&ops[o], on, 1));
    d->end = d->start + ticks(&ops[o], on);
    d->transfers = transfer_count - d->first_transfer;
    placed_on[o] = on;
    placed_end[o] = cpu_end[on] = d->end;
    for (int p = 0; p < ops[o].outs; p++) *held_at((Value){ o, p }, on) = d->end;
}

typedef struct { int *to, count, room; } List;
static List *readers;
static int *waits;

static void push(List *l, int x) {
    if (l->count == l->room) {
        l->room = l->room ? 2 * l->room : 4;
        l->to = realloc(l->to, sizeof *l->to * (size_t)l->room);
        if (!l->to) exit(9);
    }
    l->to[l->count++] = x;
}

static int64_t least(int o) {
    int64_t best = -1;
    for (int on = 0; on < cpu_count; on++) {
        int64_t t = ticks(&ops[o], on);
        if (t >= 0 && (best < 0 || t < best)) best = t;
    }
    return best;
}

static int64_t tail_of(int o) {
    if (tail[o] >= 0) return tail[o];
    tail[o] = 0;
    for (int i = 0; i < readers[o].count; i++) {
        int64_t t = least(readers[o].to[i]) + tail_of(readers[o].to[i]);
        if (t > tail[o]) tail[o] = t;
    }
    return tail[o];
}

static int64_t pressure(int o, int on) {
    int64_t arrives = known[o * CPUS + on] ? arrivals[o * CPUS + on] : arrival(&ops[o], on, 0);
    return start_at(o, on, arrives) + ticks(&ops[o], on) + tail[o];
}

/* looks at the operators that seem best by what was seen before, until one is as good as it seemed */
static void propose(int o) {
    for (;;) {
        int best = -1;
        int64_t low = 0;
        for (int on = 0; on < cpu_count; on++) {
            if (!may_stand(o, on)) continue;
            int64_t start = seen[o * CPUS + on] > cpu_end[on] ? seen[o * CPUS + on] : cpu_end[on];
            if (best < 0 || start + ticks(&ops[o], on) < low) { best = on; low = start + ticks(&ops[o], on); }
        }
        int at = o * CPUS + best;
        int64_t before = seen[at];
        proposed[o] = best;
        if (!known[at]) { arrivals[at] = arrival(&ops[o], best, 0); known[at] = 1; }
        seen[at] = start_at(o, best, arrivals[at]);
        if (seen[at] <= before) return;
    }
}

static void schedule(void) {
    size_t n = (size_t)op_count;
    decisions = made(sizeof *decisions * n); readers = made(sizeof *readers * n); waits = made(sizeof *waits * n);
    held = made(sizeof *held * CPUS * (size_t)(value_count + 1)); memset(held, -1, sizeof *held * CPUS * (size_t)(value_count + 1));
    tail = made(sizeof *tail * n); memset(tail, -1, sizeof *tail * n);
    arrivals = made(sizeof *arrivals * CPUS * n); seen = made(sizeof *seen * CPUS * n); known = made(CPUS * n); proposed = made(sizeof *proposed * n);
    placed_on = made(sizeof *placed_on * n); placed_end = made(sizeof *placed_end * n);
    for (int o = 0; o < op_count; o++) {
        for (int p = 0; p < ops[o].ins; p++) { push(&readers[ops[o].in[p].op], o); waits[o]++; }
        if (ops[o].half == SET) { push(&readers[ops[o].get], o); waits[o]++; }
    }
    for (int o = 0; o < op_count; o++) tail_of(o);
    char *ready = made(n);
    for (int o = 0; o < op_count; o++) ready[o] = !waits[o];
    for (int left = op_count; left; left--) {
        int best = -1, best_on = 0, sent = transfer_count;
        int64_t most = -1;
        for (int o = 0; o < op_count; o++) if (ready[o]) propose(o);
        for (int o = 0; o < op_count; o++) {
            if (!ready[o] || pressure(o, proposed[o]) <= most) continue;
            int on_o = -1;
            int64_t low = 0;
            for (int on = 0; on < cpu_count; on++) {
                if (!may_stand(o, on)) continue;
                int64_t p = pressure(o, on);
                if (on_o < 0 || p < low) { low = p; on_o = on; }
            }
            if (low > most) { most = low; best = o; best_on = on_o; }
        }
        place(best, best_on);
        ready[best] = 0;
        if (transfer_count > sent) memset(known, 0, CPUS * n);
        for (int i = 0; i < readers[best].count; i++) if (!--waits[readers[best].to[i]]) ready[readers[best].to[i]] = 1;
    }
}

static void print_chart(void) {
    int64_t length = 0;
    for (int on = 0; on < cpu_count; on++) {
        printf("operator %s\n", cpu[on]);
        for (int i = 0; i < decision_count; i++) {
            Decision *d = &decisions[i];
            if (d->end > length) length = d->end;
            if (d->on == on) printf("%lld %lld %s\n", (long long)d->start, (long long)d->end, ops[d->op].name);
        }
    }
    for (int m = 0; m < medium_count; m++) {
        printf("medium %s\n", media[m].name);
        for (int i = 0; i < transfer_count; i++) {
            Transfer *t = &transfers[i];
            if (t->end > length) length = t->end;
            if (t->medium == m)
                printf("%lld %lld %s %d %s %s\n", (long long)t->start, (long long)t->end, ops[t->value.op].name, t->value.port, cpu[t->from], cpu[t->to]);
        }
    }
    printf("length %lld\n", (long long)length);
}

/* ---- the executives ---- */

typedef enum { CALL, SEND, RECV, SYNC } Form_of;
typedef struct { Form_of form; int a, b; } Instr;
typedef struct { int cpu, medium, count, room; Instr *code; } Seq;
typedef struct { int on, len, writer, write_at, first_pair, pairs; } Buffer;
typedef struct { int buffer, reader, first, last; } Pair;
static Seq seqs[SEQS];
static Buffer *buffers;
static Pair *pairs;
static int seq_count, buffer_count, buffer_room, pair_count, *buffer_at, *last_touch;

static int seq_of(int on, int medium) {
    for (int s = 0; s < seq_count; s++) if (seqs[s].cpu == on && seqs[s].medium == medium) return s;
    exit(2);
}

static int add(int s, Instr i) {
    Seq *q = &seqs[s];
    if (q->count == q->room) {
        q->room = q->room ? 2 * q->room : 64;
        q->code = realloc(q->code, sizeof *q->code * (size_t)q->room);
        if (!q->code) exit(9);
    }
    q->code[q->count] = i;
    return q->count++;
}

static int *buffer_for(Value v, int on) { return &buffer_at[(ops[v.op].first_value + v.port) * CPUS + on]; }

static void make_buffer(Value v, int on, int writer, int at_place) {
    if (buffer_count == buffer_room) {
        buffer_room = buffer_room ? 2 * buffer_room : 1024;
        buffers = realloc(buffers, sizeof *buffers * (size_t)buffer_room);
        if (!buffers) exit(9);
    }
    buffers[buffer_count] = (Buffer){ on, ops[v.op].def->out[v.port].len, writer, at_place, 0, 0 };
    *buffer_for(v, on) = buffer_count++;
}

static void build(void) {
    for (int on = 0; on < cpu_count; on++) {
        seqs[seq_count++] = (Seq){ on, -1, 0, 0, NULL };
        for (int m = 0; m < medium_count; m++) if (media[m].stands[on]) seqs[seq_count++] = (Seq){ on, m, 0, 0, NULL };
    }
    buffer_at = made(sizeof *buffer_at * CPUS * (size_t)(value_count + 1));
    for (int i = 0; i < decision_count; i++) {
        Decision *d = &decisions[i];
        for (int k = d->first_transfer; k < d->first_transfer + d->transfers; k++) {
            Transfer *t = &transfers[k];
            add(seq_of(t->from, t->medium), (Instr){ SEND, *buffer_for(t->value, t->from), t->to });
            int r = seq_of(t->to, t->medium);
            int place = add(r, (Instr){ RECV, buffer_count, t->from });
            make_buffer(t->value, t->to, r, place);
            for (int on = 0; on < cpu_count; on++)
                if (on != t->from && on != t->to && media[t->medium].stands[on]) add(seq_of(on, t->medium), (Instr){ SYNC, t->from, t->to });
        }
        int s = seq_of(d->on, -1), place = add(s, (Instr){ CALL, d->op, buffer_count });
        for (int p = 0; p < ops[d->op].outs; p++) make_buffer((Value){ d->op, p }, d->on, s, place);
    }
}

static void reads(int s, int place, int b, Pair *found, int *count) {
    if (buffers[b].writer == s) return;
    int i = last_touch[b] - 1;
    if (i < 0 || found[i].reader != s) { found[*count] = (Pair){ b, s, place, place }; last_touch[b] = ++*count; }
    else found[i].last = place;
}

static int by_buffer(const void *x, const void *y) {
    const Pair *a = x, *b = y;
    return a->buffer != b->buffer ? a->buffer - b->buffer : a->reader - b->reader;
}

static void find_pairs(void) {
    int most = 0;
    for (int s = 0; s < seq_count; s++)
        for (int i = 0; i < seqs[s].count; i++) most += seqs[s].code[i].form == CALL ? ops[seqs[s].code[i].a].ins : 1;
    pairs = made(sizeof *pairs * (size_t)(most + 1));
    last_touch = made(sizeof *last_touch * (size_t)(buffer_count + 1));
    for (int s = 0; s < seq_count; s++)
        for (int i = 0; i < seqs[s].count; i++) {
            Instr *x = &seqs[s].code[i];
            if (x->form == SEND) reads(s, i, x->a, pairs, &pair_count);
            if (x->form != CALL) continue;
            for (int p = 0; p < ops[x->a].ins; p++) reads(s, i, *buffer_for(ops[x->a].in[p], seqs[s].cpu), pairs, &pair_count);
        }
    qsort(pairs, (size_t)pair_count, sizeof *pairs, by_buffer);
    for (int q = pair_count - 1; q >= 0; q--) { buffers[pairs[q].buffer].first_pair = q; buffers[pairs[q].buffer].pairs++; }
}

/* the pairs that a sequence reads for the first time, or for the last, by place: lists by sequence and place */
typedef struct { int *start, *pair; } Places;

static Places placed_pairs(int s, int last) {
    Places p = { made(sizeof(int) * (size_t)(seqs[s].count + 2)), made(sizeof(int) * (size_t)(pair_count + 1)) };
    for (int q = 0; q < pair_count; q++) if (pairs[q].reader == s) p.start[(last ? pairs[q].last : pairs[q].first) + 1]++;
    for (int i = 0; i < seqs[s].count; i++) p.start[i + 1] += p.start[i];
    int *next = made(sizeof(int) * (size_t)(seqs[s].count + 1));
    for (int q = 0; q < pair_count; q++)
        if (pairs[q].reader == s) { int i = last ? pairs[q].last : pairs[q].first; p.pair[p.start[i] + next[i]++] = q; }
    free(next);
    return p;
}

static void each(const char *macro, const Places *p, int i) { for (int k = p->start[i]; k < p->start[i + 1]; k++) printf("%s(%d)\n", macro, p->pair[k]); }

static void written(const char *macro, int first, int count) {
    for (int b = first; b < first + count; b++)
        for (int q = buffers[b].first_pair; q < buffers[b].first_pair + buffers[b].pairs; q++) printf("%s(%d)\n", macro, q);
}

static void print_call(const Instr *x, int on) {
    Op *op = &ops[x->a];
    printf("op %s(", op->name);
    for (int p = 0; p < op->ins; p++) printf("%sb%d", p ? "," : "", *buffer_for(op->in[p], on));
    putchar(';');
    for (int p = 0; p < op->outs; p++) printf("%sb%d", p ? "," : "", x->b + p);
    puts(")");
}

static void print_loop(int s) {
    for (int q = 0; q < pair_count; q++) if (pairs[q].reader == s) printf("Pre0_(%d)\n", q);
    puts("loop_");
    Places first = placed_pairs(s, 0), last = placed_pairs(s, 1);
    for (int i = 0; i < seqs[s].count; i++) {
        Instr *x = &seqs[s].code[i];
        int b = x->form == CALL ? x->b : x->a, count = x->form == CALL ? ops[x->a].outs : x->form == RECV;
        each("Suc1_", &first, i);
        written("Suc0_", b, count);
        if (x->form == CALL) print_call(x, seqs[s].cpu);
        else if (x->form == SYNC) printf("sync_(%s,%s)\n", cpu[x->a], cpu[x->b]);
        else printf("%s(b%d,%s)\n", x->form == SEND ? "send_" : "recv_", x->a, cpu[x->b]);
        each("Pre0_", &last, i);
        written("Pre1_", b, count);
    }
    puts("endloop_");
}

static void print_processor(int on) {
    printf("processor_(%s)\nsemaphores_(", cpu[on]);
    const char *comma = "";
    for (int q = 0; q < pair_count; q++) if (buffers[pairs[q].buffer].on == on) { printf("%s%d", comma, q); comma = ","; }
    puts(")");
    for (int b = 0; b < buffer_count; b++) if (buffers[b].on == on) printf("alloc_(b%d,%d)\n", b, buffers[b].len);
    for (int s = 0; s < seq_count; s++) {
        if (seqs[s].cpu != on || seqs[s].medium < 0) continue;
        printf("thread_(%s)\n", media[seqs[s].medium].name);
        print_loop(s);
        puts("endthread_");
    }
    puts("main_");
    for (int m = 0; m < medium_count; m++) if (media[m].stands[on]) printf("spawn_thread_(%s)\n", media[m].name);
    print_loop(seq_of(on, -1));
    for (int m = 0; m < medium_count; m++) if (media[m].stands[on]) printf("wait_endthread_(%s)\n", media[m].name);
    puts("endmain_");
}

int main(int argc, char **argv) {
    if (argc != 4) return 2;
    read_operations(argv[2]);
    read_architecture(argv[3]);
    find_routes();
    schedule();
    if (!strcmp(argv[1], "chart")) { print_chart(); return 0; }
    build();
    find_pairs();
    for (int on = 0; on < cpu_count; on++) print_processor(on);
    return 0;
}
