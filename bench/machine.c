/* The machine of docs/MACHINE.md in plain C, which follows that page and docs/FORMATS.md, to be measured beside xmt sim.

   usage: machine FILE [UNITS [BUDGET [SEED]]]

   It runs the image in FILE, which it takes to be valid, prints what the program prints, and ends with xmt's exit codes and lines
   of a trap and of a spent budget. With an environment variable TURNS it writes the number of turns to the error stream. */
#include <stdint.h>
#include <stdio.h>
#include <stdlib.h>
#include <string.h>

enum { LI = 1, MV, ADD, SUB, MUL, DIV, REM, SLL, SRA, AND, OR, XOR, SLT, SLE, SEQ, SNE, NEG, FLIP, LNOT, J, BZ, BNZ, CALL, RET, LF, SF, SA, GA, LM, CHK,
       LW, SW, PM, LX, SX, PX, LO, SO, PO, LR, SR, PR, PRT, SPAWN, JOIN };

typedef struct { uint8_t op, a, b, c; uint32_t imm; } Instr;
typedef struct { uint32_t start, slots, inner; } Function;
typedef struct { uint32_t length; const uint8_t *bytes; } Text;
typedef enum { DRAWS, RUNS, STOPPED, HALTED } State;

typedef struct {
  State state;
  int waits;
  uint32_t at, depth, thread;
  uint64_t steps;
  uint32_t regs[32];
  uint32_t *frames;
  uint32_t *back;
  uint32_t args[16];
} Unit;

static Instr *code;
static uint32_t *lines, code_count, function_count, text_count, symbol_count, data_count, outer_count, entry;
static Function *functions;
static Text *texts;
static uint32_t *words;

/* what the last spawn broadcast */
static struct { uint32_t at, low, depth, regs[32], frame[512]; uint64_t count; } spawn;
static uint64_t drawn;

static void fail(const char *why) {
  fprintf(stderr, "machine: %s\n", why);
  exit(126);
}

static uint32_t number(const uint8_t **from) {
  const uint8_t *b = *from;
  *from += 4;
  return b[0] | (uint32_t)b[1] << 8 | (uint32_t)b[2] << 16 | (uint32_t)b[3] << 24;
}

static void load(const char *name) {
  FILE *file = fopen(name, "rb");
  if (!file) fail("no such file");
  fseek(file, 0, SEEK_END);
  long size = ftell(file);
  rewind(file);
  uint8_t *bytes = malloc(size + 1);
  if (!bytes || fread(bytes, 1, size, file) != (size_t)size || size < 68 || memcmp(bytes, "XMTI", 4)) fail("no image");
  fclose(file);
  const uint8_t *p = bytes + 8;
  uint32_t ps[8];
  code_count = number(&p), function_count = number(&p), text_count = number(&p), symbol_count = number(&p);
  data_count = number(&p), outer_count = number(&p);
  for (int i = 0; i < 8; i++) ps[i] = number(&p);
  entry = number(&p);
  code = malloc(code_count * sizeof *code);
  lines = malloc(code_count * sizeof *lines);
  functions = malloc(function_count * sizeof *functions);
  texts = malloc((text_count + 1) * sizeof *texts);
  for (uint32_t i = 0; i < code_count; i++) {
    code[i].op = p[0], code[i].a = p[1], code[i].b = p[2], code[i].c = p[3];
    p += 4;
    code[i].imm = number(&p);
  }
  for (uint32_t i = 0; i < code_count; i++) lines[i] = number(&p);
  for (uint32_t i = 0; i < function_count; i++) functions[i].start = number(&p), functions[i].slots = number(&p), functions[i].inner = number(&p);
  for (uint32_t i = 0; i < text_count; i++) texts[i].length = number(&p), texts[i].bytes = p, p += texts[i].length;
  for (uint32_t i = 0; i < symbol_count; i++) {
    p += 8;
    uint32_t length = number(&p);
    p += length;
  }
  words = calloc(12 + (size_t)data_count + 257 * (size_t)outer_count, sizeof *words);
  for (int i = 0; i < 8; i++) words[4 + i] = ps[i];
  for (uint32_t i = 0; i < data_count; i++) words[12 + i] = number(&p);
}

static void new_unit(Unit *u) {
  memset(u, 0, sizeof *u);
  u->frames = calloc(257 * 512, sizeof *u->frames);
  u->back = calloc(256, sizeof *u->back);
  if (!u->frames || !u->back) fail("out of memory");
}

static const char *trap_of(const Unit *u) {
  if (u->state == DRAWS) return NULL;
  if (u->at >= code_count) return "Address";
  Instr i = code[u->at];
  switch (i.op) {
    case DIV: case REM: return u->regs[i.c] ? NULL : "DivideByZero";
    case CALL: return u->depth < 256 ? NULL : "CallDepth";
    case CHK: return u->regs[i.b] < i.imm ? NULL : "Index";
    case LX: case SX: case PX: return (uint64_t)i.imm + u->regs[i.b] < data_count ? NULL : "Address";
    case PR: return u->regs[i.a] < 2 ? NULL : "PsIncrement";
    default: return NULL;
  }
}

static uint32_t binary(uint8_t op, uint32_t a, uint32_t b) {
  int32_t x = (int32_t)a, y = (int32_t)b;
  switch (op) {
    case ADD: return a + b;
    case SUB: return a - b;
    case MUL: return a * b;
    case DIV: return y == -1 ? 0 - a : (uint32_t)(x / y);
    case REM: return y == -1 ? 0 : (uint32_t)(x % y);
    case SLL: return a << (b & 31);
    case SRA: return (uint32_t)(x >> (b & 31));
    case AND: return a & b;
    case OR: return a | b;
    case XOR: return a ^ b;
    case SLT: return x < y;
    case SLE: return x <= y;
    case SEQ: return a == b;
    default: return a != b;
  }
}

static void print(const Text *t, const uint32_t *args) {
  for (uint32_t i = 0, value = 0; i < t->length; i++) {
    if (t->bytes[i] != '%') putchar(t->bytes[i]);
    else if (t->bytes[++i] == '%') putchar('%');
    else printf("%d", (int32_t)args[value++]);
  }
}

static void draw(Unit *u) {
  uint64_t k = drawn++;
  if (k >= spawn.count) {
    u->state = STOPPED;
    return;
  }
  memcpy(u->regs, spawn.regs, sizeof u->regs);
  u->thread = spawn.low + (uint32_t)k;
  u->regs[1] = u->thread;
  u->state = RUNS;
  u->at = spawn.at;
  u->depth = 0;
}

static void start(Unit *units, int count, Unit *u, Instr i) {
  int32_t low = (int32_t)u->regs[i.a], high = (int32_t)u->regs[i.b];
  spawn.at = u->at + 1, spawn.low = u->regs[i.a], spawn.depth = u->depth;
  spawn.count = low > high ? 0 : (uint64_t)((int64_t)high - low + 1);
  for (int r = 0; r < 32; r++) spawn.regs[r] = i.imm >> r & 1 ? u->regs[r] : 0;
  memcpy(spawn.frame, u->frames + 512 * u->depth, sizeof spawn.frame);
  drawn = 0;
  u->waits = 1;
  for (int k = 1; k <= count; k++) units[k].state = DRAWS;
}

/* One turn of a unit that stands at no trap; 1 where it may have ended a section or begun one. */
static int turn(Unit *units, int count, Unit *u, int is_master) {
  u->steps++;
  if (u->state == DRAWS) {
    draw(u);
    return 1;
  }
  Instr i = code[u->at];
  uint32_t *frame = u->frames + 512 * u->depth, *word = NULL, depth = is_master ? u->depth : spawn.depth;
  switch (i.op) {
    case LI: u->regs[i.a] = i.imm; break;
    case MV: u->regs[i.a] = u->regs[i.b]; break;
    case NEG: u->regs[i.a] = 0 - u->regs[i.b]; break;
    case FLIP: u->regs[i.a] = ~u->regs[i.b]; break;
    case LNOT: u->regs[i.a] = !u->regs[i.b]; break;
    case J: u->at = i.imm; return 0;
    case BZ: u->at = u->regs[i.b] ? u->at + 1 : i.imm; return 0;
    case BNZ: u->at = u->regs[i.b] ? i.imm : u->at + 1; return 0;
    case CALL: u->back[u->depth++] = u->at + 1; u->at = functions[i.imm].start; return 0;
    case RET:
      if (u->depth) u->at = u->back[--u->depth];
      else u->state = HALTED;
      return !u->depth;
    case LF: u->regs[i.a] = frame[i.imm]; break;
    case SF: frame[i.imm] = u->regs[i.b]; break;
    case SA: u->args[i.imm] = u->regs[i.b]; break;
    case GA: u->regs[i.a] = u->args[i.imm]; break;
    case LM: u->regs[i.a] = spawn.frame[i.imm]; break;
    case CHK: break;
    case LW: case SW: case PM: word = words + 12 + i.imm; break;
    case LX: case SX: case PX: word = words + 12 + i.imm + u->regs[i.b]; break;
    case LO: case SO: case PO: word = words + 12 + data_count + outer_count * depth + i.imm; break;
    case LR: case SR: case PR: word = words + 4 + i.imm; break;
    case PRT: print(texts + i.imm, u->args); break;
    case SPAWN: start(units, count, u, i); return 1;
    case JOIN: draw(u); return 1;
    default: u->regs[i.a] = binary(i.op, u->regs[i.b], u->regs[i.c]); break;
  }
  if (word) {
    uint32_t old = *word;
    switch (i.op) {
      case SW: case SO: case SR: *word = u->regs[i.b]; break;
      case SX: *word = u->regs[i.a]; break;
      case PM: case PX: case PO: case PR: *word = old + u->regs[i.a]; u->regs[i.a] = old; break;
      default: u->regs[i.a] = old;
    }
  }
  u->at++;
  return 0;
}

/* The active units, rising, and how many they are. */
static int find_active(Unit *units, int count, int *active) {
  int n = 0;
  if (!units[0].waits) {
    if (units[0].state == RUNS) active[n++] = 0;
    return n;
  }
  for (int k = 1; k <= count; k++)
    if (units[k].state == DRAWS || units[k].state == RUNS) active[n++] = k;
  return n;
}

/* Ends the run where an active unit stands at a trap, or else has spent its budget. */
static int ends(Unit *units, const int *active, int n, uint64_t budget) {
  for (int i = 0; i < n; i++) {
    Unit *u = units + active[i];
    const char *kind = u->steps < budget ? trap_of(u) : NULL;
    if (!kind) continue;
    fflush(stdout);
    fprintf(stderr, "xmt: trap %s line %u ", kind, u->at < code_count ? lines[u->at] : 0);
    if (active[i]) fprintf(stderr, "thread %d\n", (int32_t)u->thread);
    else fprintf(stderr, "serial\n");
    return 4;
  }
  for (int i = 0; i < n; i++) {
    if (units[active[i]].steps != budget) continue;
    fflush(stdout);
    fprintf(stderr, "xmt: budget spent by unit %d after %llu steps\n", active[i], (unsigned long long)budget);
    return 5;
  }
  return 0;
}

int main(int argc, char **argv) {
  if (argc < 2) fail("usage: machine FILE [UNITS [BUDGET [SEED]]]");
  load(argv[1]);
  int count = argc > 2 ? atoi(argv[2]) : 4, active[65];
  uint64_t budget = argc > 3 ? strtoull(argv[3], NULL, 10) : 100000000, state = argc > 4 ? strtoull(argv[4], NULL, 10) : 0, turns = 0;
  Unit *units = malloc((count + 1) * sizeof *units);
  for (int k = 0; k <= count; k++) new_unit(units + k);
  units[0].state = RUNS;
  units[0].at = functions[entry].start;
  int n = find_active(units, count, active), status = ends(units, active, n, budget);
  while (n && !status) {
    int k = 0;
    if (n > 1) {
      state = state * 6364136223846793005u + 1442695040888963407u;
      k = (state >> 33) % n;
    }
    int unit = active[k];
    turns++;
    if (turn(units, count, units + unit, !unit)) {
      n = find_active(units, count, active);
      if (!n && units[0].waits) {
        uint32_t at = spawn.at;
        while (code[at].op != JOIN) at++;
        units[0].waits = 0;
        units[0].at = at + 1;
        n = find_active(units, count, active);
      }
      status = ends(units, active, n, budget);
    } else if (units[unit].steps >= budget || trap_of(units + unit)) {
      /* only the unit that has just had its turn can newly trap or have spent its budget */
      status = ends(units, active, n, budget);
    }
  }
  fflush(stdout);
  if (getenv("TURNS")) fprintf(stderr, "%llu\n", (unsigned long long)turns);
  return status;
}
