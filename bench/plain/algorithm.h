/* The reader of the plain programs beside it: sensors, actuators, constants, delays, functions and
   graphs, of texts that `syndex check` accepts. It checks nothing. */
#include <stdint.h>
#include <stdio.h>
#include <stdlib.h>
#include <string.h>

enum { NAME = 33, PORTS = 64, REFS = 64, EDGES = 4200, DEFS = 256, OPS = 4096 };

typedef enum { LITERAL, INDEX, ELEMENT, SUM, NEG, SELECT, BINARY } Form;
typedef struct Expr { Form form; int op; int port; int64_t value; struct Expr *a, *b, *c; } Expr;
typedef enum { SENSOR, ACTUATOR, CONSTANT, DELAY, FUNCTION, GRAPH } Kind;
typedef struct { char name[NAME]; int len; Expr *expr; } Port;
typedef struct { char name[NAME], def[NAME]; } Ref;
typedef struct { char from[2 * NAME], to[2 * NAME]; } Edge;
typedef struct {
    Kind kind; char name[NAME]; int ins, outs, refs, edges, len;
    Port in[PORTS], out[PORTS]; Ref ref[REFS]; Edge *edge; int64_t value[PORTS];
} Def;
static Def *defs[DEFS];
static int def_count;
static const char *at;

static void *made(size_t size) { void *p = calloc(1, size); if (!p) exit(9); return p; }
static void blanks(void) { while (*at == ' ') at++; }

static int is_word(char c) { return c == '_' || (c >= '0' && c <= '9') || (c >= 'a' && c <= 'z') || (c >= 'A' && c <= 'Z'); }
static void word(char *to) { int n = 0; blanks(); while (is_word(*at)) to[n++] = *at++; to[n] = 0; }
static void expect(char c) { blanks(); if (*at != c) exit(2); at++; }

static int port_of(Def *d, const char *name) {
    for (int i = 0; i < d->ins; i++) if (!strcmp(d->in[i].name, name)) return i;
    exit(2);
}

static const char *operators[] = { "add", "sub", "mul", "div", "rem", "eq", "ne", "lt", "le", "gt", "ge", "min", "max" };

static Expr *expression(Def *d) {
    Expr *e = made(sizeof *e);
    blanks();
    if (*at == '-' || (*at >= '0' && *at <= '9')) { e->form = LITERAL; e->value = strtoll(at, (char **)&at, 10); return e; }
    char name[NAME];
    word(name);
    blanks();
    if (*at == '[') { at++; e->form = ELEMENT; e->port = port_of(d, name); e->a = expression(d); expect(']'); return e; }
    if (*at != '(') { e->form = INDEX; return e; }
    at++;
    if (!strcmp(name, "sum")) { char p[NAME]; word(p); e->form = SUM; e->port = port_of(d, p); expect(')'); return e; }
    e->a = expression(d);
    if (!strcmp(name, "neg")) { e->form = NEG; expect(')'); return e; }
    expect(','); e->b = expression(d);
    if (!strcmp(name, "select")) { e->form = SELECT; expect(','); e->c = expression(d); expect(')'); return e; }
    e->form = BINARY;
    while (strcmp(operators[e->op], name)) e->op++;
    expect(')');
    return e;
}

static Def *def_of(const char *name) {
    for (int i = 0; i < def_count; i++) if (!strcmp(defs[i]->name, name)) return defs[i];
    exit(2);
}

static char *whole_of(const char *name, size_t *length) {
    FILE *f = fopen(name, "rb");
    if (!f) exit(2);
    fseek(f, 0, SEEK_END);
    *length = (size_t)ftell(f);
    rewind(f);
    char *text = made(*length + 1);
    if (fread(text, 1, *length, f) != *length) exit(2);
    fclose(f);
    return text;
}

static char *whole(const char *name) { size_t length; return whole_of(name, &length); }

static void end_of_edge(char *to) {
    int n = 0;
    blanks();
    while (is_word(*at) || *at == '.') to[n++] = *at++;
    to[n] = 0;
}

static void a_port(Port *p) { word(p->name); blanks(); p->len = (int)strtol(at, (char **)&at, 10); }

static void one_port(Def *d, int *count, Port *port, const char *name) { strcpy(port[0].name, name); port[0].len = d->len; *count = 1; }

static void line(Def **open, const char *first) {
    Def *d = *open;
    if (!strcmp(first, "end")) { *open = NULL; return; }
    if (!strcmp(first, "in")) { a_port(&d->in[d->ins++]); return; }
    if (!strcmp(first, "out")) {
        Port *p = &d->out[d->outs++];
        a_port(p);
        if (d->kind == FUNCTION) { expect('='); p->expr = expression(d); }
        return;
    }
    if (!strcmp(first, "ref")) { word(d->ref[d->refs].name); word(d->ref[d->refs++].def); return; }
    if (!strcmp(first, "edge")) { end_of_edge(d->edge[d->edges].from); end_of_edge(d->edge[d->edges++].to); return; }
    d = defs[def_count++] = made(sizeof *d);
    word(d->name);
    if (!strcmp(first, "function") || !strcmp(first, "graph")) {
        d->kind = *first == 'f' ? FUNCTION : GRAPH;
        d->edge = made(EDGES * sizeof *d->edge);
        *open = d;
        return;
    }
    d->kind = *first == 's' ? SENSOR : *first == 'a' ? ACTUATOR : *first == 'c' ? CONSTANT : DELAY;
    if (d->kind == SENSOR || d->kind == ACTUATOR) d->len = (int)strtol(at, (char **)&at, 10);
    else for (expect('='), blanks(); *at && *at != '\n'; blanks()) d->value[d->len++] = strtoll(at, (char **)&at, 10);
    if (d->kind != SENSOR && d->kind != CONSTANT) one_port(d, &d->ins, d->in, "i");
    if (d->kind != ACTUATOR) one_port(d, &d->outs, d->out, "o");
}

static void read_algorithm(const char *name) {
    Def *open = NULL;
    at = whole(name);
    while (*at) {
        char first[NAME];
        word(first);
        if (*first && strcmp(first, "algorithm")) line(&open, first);
        while (*at && *at != '\n') at++;
        if (*at) at++;
    }
}

/* the reference and the port of an end; no reference for a port of the graph itself */
static int split(Def *d, const char *end, const char **port) {
    const char *dot = strchr(end, '.');
    *port = dot ? dot + 1 : end;
    if (!dot) return -1;
    for (int i = 0; i < d->refs; i++)
        if (!strncmp(d->ref[i].name, end, (size_t)(dot - end)) && !d->ref[i].name[dot - end]) return i;
    exit(2);
}

static int numbered(Port *ports, int count, const char *name) {
    for (int i = 0; i < count; i++) if (!strcmp(ports[i].name, name)) return i;
    exit(2);
}

typedef struct { int ref, port; } Source;

