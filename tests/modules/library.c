/* The shared library that calls.c is linked with. */
int value = 5;
int there(int n) { return n + value; }
