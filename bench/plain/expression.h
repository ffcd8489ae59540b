/* The values of expressions, for the plain programs beside it. The elements of the inputs lie in one table; those of each
   port begin at its place. It stands behind algorithm.h. */

static int64_t applied(int op, int64_t a, int64_t b) {
    uint64_t x = (uint64_t)a, y = (uint64_t)b;
    switch (op) {
    case 0: return (int64_t)(x + y);
    case 1: return (int64_t)(x - y);
    case 2: return (int64_t)(x * y);
    case 3: return b == 0 ? 0 : b == -1 ? (int64_t)(0 - x) : a / b;
    case 4: return b == 0 ? a : b == -1 ? 0 : a % b;
    case 5: return a == b;
    case 6: return a != b;
    case 7: return a < b;
    case 8: return a <= b;
    case 9: return a > b;
    case 10: return a >= b;
    case 11: return a < b ? a : b;
    default: return a > b ? a : b;
    }
}

static int64_t value(const Expr *e, const Def *d, const int *begins, const int64_t *in, int64_t j) {
    switch (e->form) {
    case LITERAL: return e->value;
    case INDEX: return j;
    case ELEMENT: {
        int64_t i = value(e->a, d, begins, in, j);
        return i < 0 || i >= d->in[e->port].len ? 0 : in[begins[e->port] + i];
    }
    case SUM: {
        uint64_t sum = 0;
        for (int i = 0; i < d->in[e->port].len; i++) sum += (uint64_t)in[begins[e->port] + i];
        return (int64_t)sum;
    }
    case NEG: return (int64_t)(0 - (uint64_t)value(e->a, d, begins, in, j));
    case SELECT: return value(value(e->a, d, begins, in, j) ? e->b : e->c, d, begins, in, j);
    default: return applied(e->op, value(e->a, d, begins, in, j), value(e->b, d, begins, in, j));
    }
}
