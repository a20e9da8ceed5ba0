// A straightforward interpreter of Karma executables, to compare speeds with: every check of the proved machine, and no
// proof. It runs one executable for as many steps as it is told, and prints the ending, the steps, registers and flags.
//
//     karma EXECUTABLE STEPS

#include <math.h>
#include <stdint.h>
#include <stdio.h>
#include <stdlib.h>
#include <string.h>

enum { CELLS = 1048576, LONGEST = 262656, HEADER = 512 };

enum ending { SPENT, HALTED, EXITED, FAULT };

struct permit {
    uint8_t registers[16];
    uint8_t code, constants;
    uint32_t stack;
};

struct machine {
    uint32_t r[16];
    uint32_t flags;
    uint32_t code, constants, stack;
    uint32_t *cells;
    uint32_t size;
    struct permit permit;
    uint32_t exit_code;
};

// Each question answers the number of the fault, or 0.

static int pair(unsigned a) { return a < 15 ? 0 : 33; }

static int readable(const struct machine *m, unsigned a) { return m->permit.registers[a] < 2 ? 0 : 34; }

static int writable(const struct machine *m, unsigned a) { return m->permit.registers[a] < 1 ? 0 : 34; }

static int readable2(const struct machine *m, unsigned a) {
    int fault = readable(m, a);
    return fault ? fault : readable(m, a + 1);
}

static int writable2(const struct machine *m, unsigned a) {
    int fault = writable(m, a);
    return fault ? fault : writable(m, a + 1);
}

static int level(const struct machine *m, uint64_t cell) {
    if (cell < m->code) return m->permit.code;
    if (cell < (uint64_t)m->code + m->constants) return m->permit.constants;
    return 0;
}

static int cell_read(const struct machine *m, uint64_t cell) {
    if (cell >= m->size) return 39;
    return level(m, cell) < 2 ? 0 : 40;
}

static int cell_written(const struct machine *m, uint64_t cell) {
    if (cell >= m->size) return 39;
    return level(m, cell) < 1 ? 0 : 40;
}

static int pushed(const struct machine *m, uint64_t cell) {
    int fault = cell_written(m, cell);
    if (fault) return fault;
    if (cell <= m->stack && m->stack - cell >= m->permit.stack) return 41;
    return 0;
}

static uint64_t get2(const struct machine *m, unsigned a) { return m->r[a] | (uint64_t)m->r[a + 1] << 32; }

static void set2(struct machine *m, unsigned a, uint64_t v) {
    m->r[a] = (uint32_t)v;
    m->r[a + 1] = (uint32_t)(v >> 32);
}

static double real(uint64_t bits) {
    double d;
    memcpy(&d, &bits, 8);
    return d;
}

static uint64_t bits(double d) {
    uint64_t b;
    if (isnan(d)) return 0x7ff8000000000000u;
    memcpy(&b, &d, 8);
    return b;
}

static uint32_t compared(uint32_t a, uint32_t b) { return a > b ? 22 : a < b ? 42 : 49; }

static uint32_t compared_reals(double a, double b) {
    return a > b ? 22 : a < b ? 42 : a == b ? 49 : 2;
}

#define ASK(question)                  \
    do {                               \
        int fault_ = (question);       \
        if (fault_) {                  \
            r[15] = address;           \
            *number = fault_;          \
            return FAULT;              \
        }                              \
    } while (0)

#define WORD(value)                    \
    do {                               \
        uint32_t v_ = (value);         \
        ASK(readable(m, a));           \
        ASK(writable(m, a));           \
        r[a] = v_;                     \
    } while (0)

#define DOUBLE(value)                  \
    do {                               \
        ASK(pair(a));                  \
        ASK(pair(b));                  \
        ASK(readable2(m, b));          \
        ASK(readable2(m, a));          \
        ASK(writable2(m, a));          \
        set2(m, a, bits(value));       \
    } while (0)

#define JUMP_IF(bit)                   \
    do {                               \
        if (m->flags >> (bit) & 1)     \
            r[15] = x;                 \
    } while (0)

static enum ending step(struct machine *m, int *number, int *ended) {
    uint32_t *r = m->r, *c = m->cells;
    uint32_t address = r[15];
    *ended = 1;
    if (address >= m->size) {
        *number = 30;
        return FAULT;
    }
    uint32_t w = c[address];
    unsigned a = w >> 20 & 15, b = w >> 16 & 15;
    uint32_t s = (uint32_t)(int16_t)w, i = (uint32_t)((int32_t)(w << 12) >> 12), x = w & 0xfffff;
    uint32_t t;
    uint64_t y;
    r[15] = address + 1;
    switch (w >> 24) {
    case 0: return HALTED;
    case 1:
        switch (i) {
        case 0:
            ASK(readable(m, a));
            m->exit_code = r[a];
            return EXITED;
        case 100:
        case 104:
            ASK(writable(m, a));
            ASK(42);
            break;
        case 101:
            ASK(pair(a));
            ASK(writable2(m, a));
            ASK(42);
            break;
        case 102:
            ASK(readable(m, a));
            printf("number %u\n", r[a]);
            break;
        case 103:
            ASK(pair(a));
            ASK(readable2(m, a));
            printf("real 0x%016llx\n", (unsigned long long)get2(m, a));
            break;
        case 105:
            ASK(readable(m, a));
            ASK(r[a] <= 255 ? 0 : 38);
            printf("character %u\n", r[a]);
            break;
        default: ASK(32);
        }
        break;
    case 2: ASK(readable(m, b)); WORD(r[a] + (r[b] + s)); break;
    case 3: WORD(r[a] + i); break;
    case 4: ASK(readable(m, b)); WORD(r[a] - (r[b] + s)); break;
    case 5: WORD(r[a] - i); break;
    case 6:
        ASK(pair(a));
        ASK(readable(m, b));
        ASK(readable(m, a));
        ASK(writable2(m, a));
        set2(m, a, (uint64_t)r[a] * (uint32_t)(r[b] + s));
        break;
    case 7:
        ASK(pair(a));
        ASK(readable(m, a));
        ASK(writable2(m, a));
        set2(m, a, (uint64_t)r[a] * i);
        break;
    case 8:
    case 9:
        ASK(pair(a));
        if (w >> 24 == 8) ASK(readable(m, b));
        t = w >> 24 == 8 ? r[b] + s : i;
        ASK(readable2(m, a));
        ASK(writable2(m, a));
        y = get2(m, a);
        if (t == 0 || y / t > UINT32_MAX) ASK(36);
        r[a] = (uint32_t)(y / t);
        r[a + 1] = (uint32_t)(y % t);
        break;
    case 10: WORD(~r[a]); break;
    case 11:
        ASK(readable(m, b));
        t = r[b] + s;
        ASK(readable(m, a));
        ASK(writable(m, a));
        ASK(t <= 31 ? 0 : 35);
        r[a] <<= t;
        break;
    case 12:
        ASK(readable(m, a));
        ASK(writable(m, a));
        ASK(i <= 31 ? 0 : 35);
        r[a] <<= i;
        break;
    case 13:
        ASK(readable(m, b));
        t = r[b] + s;
        ASK(readable(m, a));
        ASK(writable(m, a));
        ASK(t <= 31 ? 0 : 35);
        r[a] >>= t;
        break;
    case 14:
        ASK(readable(m, a));
        ASK(writable(m, a));
        ASK(i <= 31 ? 0 : 35);
        r[a] >>= i;
        break;
    case 15: ASK(readable(m, b)); WORD(r[a] & (r[b] + s)); break;
    case 16: WORD(r[a] & i); break;
    case 17: ASK(readable(m, b)); WORD(r[a] | (r[b] + s)); break;
    case 18: WORD(r[a] | i); break;
    case 19: ASK(readable(m, b)); WORD(r[a] ^ (r[b] + s)); break;
    case 20: WORD(r[a] ^ i); break;
    case 21:
        ASK(pair(a));
        ASK(readable(m, b));
        ASK(writable2(m, a));
        set2(m, a, bits((double)(uint32_t)(r[b] + s)));
        break;
    case 22:
        ASK(pair(b));
        ASK(readable2(m, b));
        ASK(writable(m, a));
        {
            double d = real(get2(m, b));
            ASK(d > -1.0 && d < 4294967296.0 ? 0 : 37);
            r[a] = d < 0 ? 0 : (uint32_t)d;
        }
        break;
    case 23: DOUBLE(real(get2(m, a)) + real(get2(m, b))); break;
    case 24: DOUBLE(real(get2(m, a)) - real(get2(m, b))); break;
    case 25: DOUBLE(real(get2(m, a)) * real(get2(m, b))); break;
    case 26: DOUBLE(real(get2(m, a)) / real(get2(m, b))); break;
    case 27:
        ASK(readable(m, b));
        ASK(readable(m, a));
        m->flags = compared(r[a], r[b] + s);
        break;
    case 28:
        ASK(readable(m, a));
        m->flags = compared(r[a], i);
        break;
    case 29:
        ASK(pair(a));
        ASK(pair(b));
        ASK(readable2(m, b));
        ASK(readable2(m, a));
        m->flags = compared_reals(real(get2(m, a)), real(get2(m, b)));
        break;
    case 30: r[15] = x; break;
    case 31: JUMP_IF(1); break;
    case 32: JUMP_IF(0); break;
    case 33: JUMP_IF(5); break;
    case 34: JUMP_IF(3); break;
    case 35: JUMP_IF(4); break;
    case 36: JUMP_IF(2); break;
    case 37:
        ASK(readable(m, a));
        t = r[14];
        ASK(pushed(m, t));
        c[t] = r[a] + i;
        r[14] = t - 1;
        break;
    case 38:
        ASK(writable(m, a));
        t = r[14] + 1;
        ASK(cell_read(m, t));
        r[14] = t;
        r[a] = c[t] + i;
        break;
    case 39: ASK(writable(m, a)); r[a] = i; break;
    case 40: ASK(writable(m, a)); r[a] = x; break;
    case 41:
        ASK(readable(m, b));
        ASK(writable(m, a));
        r[a] = r[b] + s;
        break;
    case 42:
        ASK(writable(m, a));
        ASK(cell_read(m, x));
        r[a] = c[x];
        break;
    case 43:
        ASK(pair(a));
        ASK(writable2(m, a));
        ASK(cell_read(m, x));
        ASK(cell_read(m, (uint64_t)x + 1));
        set2(m, a, c[x] | (uint64_t)c[x + 1] << 32);
        break;
    case 44:
        ASK(readable(m, a));
        ASK(cell_written(m, x));
        c[x] = r[a];
        break;
    case 45:
        ASK(pair(a));
        ASK(readable2(m, a));
        ASK(cell_written(m, x));
        ASK(cell_written(m, (uint64_t)x + 1));
        c[x] = r[a];
        c[x + 1] = r[a + 1];
        break;
    case 46:
        ASK(readable(m, b));
        t = r[b] + s;
        ASK(writable(m, a));
        ASK(cell_read(m, t));
        r[a] = c[t];
        break;
    case 47:
        ASK(pair(a));
        ASK(readable(m, b));
        t = r[b] + s;
        ASK(writable2(m, a));
        ASK(cell_read(m, t));
        ASK(cell_read(m, (uint64_t)t + 1));
        set2(m, a, c[t] | (uint64_t)c[t + 1] << 32);
        break;
    case 48:
        ASK(readable(m, b));
        t = r[b] + s;
        ASK(readable(m, a));
        ASK(cell_written(m, t));
        c[t] = r[a];
        break;
    case 49:
        ASK(pair(a));
        ASK(readable(m, b));
        t = r[b] + s;
        ASK(readable2(m, a));
        ASK(cell_written(m, t));
        ASK(cell_written(m, (uint64_t)t + 1));
        c[t] = r[a];
        c[t + 1] = r[a + 1];
        break;
    case 50:
        t = r[14];
        ASK(pushed(m, t));
        c[t] = r[13];
        r[13] = r[14] = t - 1;
        break;
    case 51:
    case 52:
        if (w >> 24 == 51) {
            ASK(readable(m, b));
            t = r[b] + s;
            ASK(writable(m, a));
            ASK(t < m->size ? 0 : 39);
        } else {
            t = x;
        }
        {
            uint32_t top = r[14], back = r[15];
            ASK(pushed(m, top));
            ASK(pushed(m, top - 1));
            c[top] = back;
            c[top - 1] = r[13];
            r[13] = r[14] = top - 2;
            if (w >> 24 == 51) r[a] = back;
            r[15] = t;
        }
        break;
    case 53: {
        uint32_t frame = r[13] + 1, back = frame + 1;
        ASK(cell_read(m, frame));
        ASK(cell_read(m, back));
        uint32_t top = c[frame] + 1;
        ASK(cell_read(m, top));
        r[13] = c[top];
        r[14] = top;
        r[15] = c[back];
        break;
    }
    default: ASK(31);
    }
    *ended = 0;
    return SPENT;
}

static uint32_t word(const uint8_t *p) {
    return p[0] | (uint32_t)p[1] << 8 | (uint32_t)p[2] << 16 | (uint32_t)p[3] << 24;
}

static void load(struct machine *m, const char *name) {
    static uint8_t bytes[LONGEST + 1];
    FILE *f = fopen(name, "rb");
    size_t n = f ? fread(bytes, 1, sizeof bytes, f) : 0;
    if (n < HEADER || n > LONGEST) {
        fprintf(stderr, "karma: %s is no executable\n", name);
        exit(1);
    }
    fclose(f);
    m->size = CELLS;
    m->cells = malloc(CELLS * sizeof *m->cells);
    if (!m->cells) exit(1);
    m->permit.stack = 1048576;
    m->code = word(bytes + 16) / 4;
    m->constants = word(bytes + 20) / 4;
    m->r[15] = word(bytes + 24);
    m->r[14] = m->stack = word(bytes + 28);
    for (size_t k = 0; k < CELLS; k++) m->cells[k] = HEADER + 4 * k + 4 <= n ? word(bytes + HEADER + 4 * k) : 0;
}

int main(int argc, char **argv) {
    static struct machine m;
    if (argc != 3) {
        fprintf(stderr, "usage: karma EXECUTABLE STEPS\n");
        return 1;
    }
    load(&m, argv[1]);
    uint32_t budget = (uint32_t)strtoul(argv[2], 0, 10), steps = 0;
    enum ending ending = SPENT;
    int number = 0, ended = 0;
    while (steps < budget) {
        ending = step(&m, &number, &ended);
        steps += ending != FAULT;
        if (ended) break;
    }
    switch (ending) {
    case SPENT: puts("ending spent"); break;
    case HALTED: puts("ending halted"); break;
    case EXITED: printf("ending exited %u\n", m.exit_code); break;
    case FAULT: printf("ending fault %d address %u\n", number, m.r[15]); break;
    }
    printf("steps %u\n", steps);
    for (int k = 0; k < 16; k++) printf("r%d %u\n", k, m.r[k]);
    printf("flags %u\n", m.flags);
    return 0;
}
