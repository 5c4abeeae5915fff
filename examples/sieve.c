// The primes below 256, by a sieve whose marks are the bits of eight words.
struct marks { int w0; int w1; int w2; int w3; int w4; int w5; int w6; int w7; int w8; };
struct marks m;

// The word with the mark of a number: 30 marks in each.
ptr<int> word(int n) {
  if (n < 30) return &m.w0;
  if (n < 60) return &m.w1;
  if (n < 90) return &m.w2;
  if (n < 120) return &m.w3;
  if (n < 150) return &m.w4;
  if (n < 180) return &m.w5;
  if (n < 210) return &m.w6;
  if (n < 240) return &m.w7;
  return &m.w8;
}

void mark(int n) {
  ptr<int> w = word(n);
  *w = *w | 1 << n % 30;
}

int is_marked(int n) { return *word(n) >> n % 30 & 1; }

int main(void) {
  int count = 0;
  for (int n = 2; n < 256; n++) {
    if (is_marked(n)) continue;
    count++;
    print_int(n);
    for (int multiple = n * n; multiple < 256; multiple += n) mark(multiple);
  }
  return count;
}
