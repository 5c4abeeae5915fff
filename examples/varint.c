// Numbers of variable length, decoded by functions that aren't trusted. A byte has seven bits of a number, the lowest
// first, and a byte above 127 says that more follow. Each answer is tested before it is used.
_Tainted int feed(char byte);
_Tainted int number(void);

// The least number that takes so many bytes.
int least(int bytes) {
  if (bytes == 1) return 0;
  return 1 << 7 * (bytes - 1);
}

int takes(int n, int bytes) { return least(bytes) <= n && n < 1 << 7 * bytes; }

int main(void) {
  int count = 0;
  int bytes = 0;
  for (int byte = next_input(); byte >= 0; byte = next_input()) {
    if (byte > 255 || bytes == 4) return -1;
    bytes++;
    int ends = feed(byte);
    if (ends != (byte < 128)) return -2;
    if (ends) {
      int n = number();
      if (!takes(n, bytes)) return -3;
      print_int(n);
      count++;
      bytes = 0;
    }
  }
  return count;
}
