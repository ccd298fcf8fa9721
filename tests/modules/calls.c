/* A static file that calls into a shared library: its linker leaves relocations for a dynamic linker. */
extern int there(int);
extern int value;
int *pointer = &value;
int _start(int n) { return there(n) + *pointer; }
