int f(void) { return 1; }
// error: there is no 'main'
