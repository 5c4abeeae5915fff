// Adler-32 of the input numbers, each taken as a byte, up to the first negative one.
struct sums { int a; int b; };
struct sums s;

void add(ptr<struct sums> sums, char byte) {
  sums->a = (sums->a + byte) % 65521;
  sums->b = (sums->b + sums->a) % 65521;
}

// The two halves in hexadecimal digits: the checksum has 32 bits without a sign.
void digit(int n) {
  if (n < 10) putchar('0' + n); else putchar('a' + (n - 10));
}

void half(int n) {
  for (int shift = 12; shift >= 0; shift -= 4) { digit(n >> shift & 15); }
}

int main(void) {
  s.a = 1;
  for (int n = next_input(); n >= 0; n = next_input()) { add(&s, n); }
  half(s.b);
  half(s.a);
  putchar('\n');
  return 0;
}
