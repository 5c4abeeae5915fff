// Decodes a text in place: % and two hexadecimal digits stand for a byte, and any other byte for itself. The input has its
// bytes, at most 127, and a 0 behind them. Prints what it stands for, and returns its length, or -1 where a % lacks its digits.

// Reads bytes up to a 0, or as many as there is room for. What stands behind them stays 0.
void read_text(nt_array_ptr<char> to : count(room), int room) {
  int n = 0;
  for (int byte = next_input(); byte != 0 && n < room; byte = next_input()) {
    to[n] = byte;
    n++;
  }
}

// What a digit counts, or -1 for another byte.
int digit(char c) {
  if ('0' <= c && c <= '9') return c - '0';
  if ('a' <= c && c <= 'f') return c - 'a' + 10;
  if ('A' <= c && c <= 'F') return c - 'A' + 10;
  return -1;
}

// Whether each % has its digits. What is written never passes what is read, so a byte is there until it has been read.
int decode(nt_array_ptr<char> text) {
  nt_array_ptr<char> from = text;
  nt_array_ptr<char> to = text;
  while (*from && *to) {
    if (*from != '%') {
      *to = *from;
      from++;
    } else if (from[1] && from[2]) {
      int high = digit(from[1]);
      int low = digit(from[2]);
      if (high < 0 || low < 0) return 0;
      *to = 16 * high + low;
      from += 3;
    } else {
      return 0;
    }
    to++;
  }
  *to = 0;
  return 1;
}

int main(void) {
  char text _Nt_checked[128];
  read_text(text, 127);
  if (!decode(text)) return -1;
  for (nt_array_ptr<char> p = text; *p; p++) putchar(*p);
  return strlen(text);
}
