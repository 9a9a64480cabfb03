static unsigned __int128 product(unsigned __int128 a, unsigned __int128 b, int k) {
  unsigned __int128 d = a / b; // error "/": an integer of more than 64 bits
  return d >> k;               // error ">>": an integer of more than 64 bits
}
int main(void) { return (int)product(100, 7, 1); }
