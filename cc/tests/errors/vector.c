typedef int four __attribute__((vector_size(16)));
int main(void) {
  four a = {1, 2, 3, 4}; // error "a =": variable 'a': a vector // error "a =": a vector
  a += a;                // error "a;": a vector // error "+=": a vector
  return a[2];           // error "a[": a vector
}
