// What the files of the library share.

// Before a function: one of the same name in the program wins, when `llvm-link` joins the two.
#define weak __attribute__((weak))
