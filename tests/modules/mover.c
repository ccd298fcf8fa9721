/* A small module of the kind the cards carry: code, read-only data, a table of pointers, data and bss. */
typedef unsigned long word;

struct block { word first, count, live; };

static struct block blocks[40];                 /* bss */
static word cursor = 7;                         /* data */
static const char *const names[] = { "free", "live", "moving", "bad" };

static word take(word n) { return blocks[n % 40].count; }
static word drop(word n) { blocks[n % 40].live = 0; return cursor; }
static word move(word n) { blocks[n % 40].first += n; cursor += n; return cursor; }

/* The pointer table: relocations put the addresses here. */
word (*const handlers[])(word) = { take, drop, move };
const char *const *state_names = names;

__attribute__((section(".text.start"))) word _start(word op, word n)
{
    word r = handlers[op % 3](n);
    return r + (word)state_names[op % 4][0];
}
