// Base64, both ways. The input begins with 1 for bytes that are written as digits, four for three bytes, or with 2 for digits
// that are read as bytes; a -1 ends them.
char digits _Checked[64] = {
  'A', 'B', 'C', 'D', 'E', 'F', 'G', 'H', 'I', 'J', 'K', 'L', 'M', 'N', 'O', 'P',
  'Q', 'R', 'S', 'T', 'U', 'V', 'W', 'X', 'Y', 'Z', 'a', 'b', 'c', 'd', 'e', 'f',
  'g', 'h', 'i', 'j', 'k', 'l', 'm', 'n', 'o', 'p', 'q', 'r', 's', 't', 'u', 'v',
  'w', 'x', 'y', 'z', '0', '1', '2', '3', '4', '5', '6', '7', '8', '9', '+', '/'};
char bytes _Checked[48];
char text _Checked[64];

// Reads bytes up to a negative number, or as many as there is room for, and returns how many they are.
int read_bytes(array_ptr<char> to : count(room), int room) {
  int n = 0;
  for (int byte = next_input(); byte >= 0 && n < room; byte = next_input()) {
    to[n] = byte;
    n++;
  }
  return n;
}

void show(array_ptr<char> from : count(n), int n) {
  for (int k = 0; k < n; k++) putchar(from[k]);
  putchar('\n');
}

// Writes the 24 bits of a word as four digits.
void put_digits(array_ptr<char> to : count(4), int word) {
  for (int k = 3; k >= 0; k--) {
    to[k] = digits[word & 63];
    word = word >> 6;
  }
}

// Writes n bytes as digits, with a '=' for each byte that lacks at the end, and returns how many digits they are, or -1 where
// there is no room for them.
int encode(array_ptr<char> from : count(n), int n, array_ptr<char> to : count(room), int room) {
  if (n <= 0) return 0;
  if (room < 4) return -1;
  int word = from[0] << 16;
  if (n > 1) word += from[1] << 8;
  if (n > 2) word += from[2];
  put_digits(to, word);
  if (n < 3) to[3] = '=';
  if (n < 2) to[2] = '=';
  if (n <= 3) return 4;
  int others = encode(from + 3, n - 3, to + 4, room - 4);
  if (others < 0) return -1;
  return 4 + others;
}

// The six bits that a digit stands for; none for a '='.
int value(char digit) {
  for (int k = 0; k < 64; k++) if (digits[k] == digit) return k;
  return 0;
}

// Writes the bytes that n digits stand for, and returns how many they are.
int decode(array_ptr<char> from : count(n), int n, array_ptr<char> to : count(room), int room) {
  if (n <= 0) return 0;
  int word = value(from[0]) << 18;
  word += value(from[1]) << 12;
  word += value(from[2]) << 6;
  word += value(from[3]);
  to[0] = word >> 16;
  if (from[2] == '=') return 1;
  to[1] = word >> 8;
  if (from[3] == '=') return 2;
  to[2] = word;
  return 3 + decode(from + 4, n - 4, to + 3, room - 3);
}

int main(void) {
  if (next_input() == 1) {
    int n = read_bytes(bytes, 48);
    if (n > 48) return -1;
    int length = encode(bytes, n, text, 64);
    if (length > 64) return -1;
    show(text, length);
    return length;
  }
  int length = read_bytes(text, 64);
  if (length > 64) return -1;
  int n = decode(text, length, bytes, 48);
  if (n > 48) return -1;
  show(bytes, n);
  return n;
}
