static int one(void) { return 1; }
static int (*choose(void))(void) { return one; }
int chosen(void) __attribute__((ifunc("choose"))); // error: 'chosen' is an ifunc
int main(void) { return chosen(); }
