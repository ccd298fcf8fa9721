/* A module of tables only, with words in bss and in file bytes that relocations fill. */
typedef unsigned long word;
extern word _start(void);
static word spare[3];
word *const pointers[] = { &spare[0], &spare[2], (word *)_start, 0 };
static word *late;
word counter = 3;
word _start(void) { late = &spare[1]; return *late + (word)pointers[counter % 4]; }
