int replaced(void) { return 11; }
int chosen(void) { return 12; }
int shared[4] = {1, 2, 13};
