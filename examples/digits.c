// Writes positive numbers in another base, each on a line. The input has the base, from 2 to 16, and then the numbers; a 0
// ends them. A number with more than sixteen digits ends the run.
char digit(int value) { return "0123456789abcdef"[value]; }

// The digits come from the last one on, so they wait in an array until all are there.
void write(int n, int base) {
  char digits _Checked[16];
  int used = 0;
  for (; n > 0; n = n / base) {
    digits[used] = digit(n % base);
    used++;
  }
  for (; used > 0; used--) putchar(digits[used - 1]);
  putchar('\n');
}

int main(void) {
  int base = next_input();
  int written = 0;
  for (int n = next_input(); n != 0; n = next_input()) {
    write(n, base);
    written++;
  }
  return written;
}
