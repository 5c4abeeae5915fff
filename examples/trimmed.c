// Takes the blanks off both ends of a text. The input has its bytes, at most 63, and a 0 behind them.
char text _Nt_checked[64];

// Reads bytes up to a 0, or as many as there is room for. What stands behind them stays 0.
void read_text(nt_array_ptr<char> to : count(room), int room) {
  int n = 0;
  for (int byte = next_input(); byte != 0 && n < room; byte = next_input()) {
    to[n] = byte;
    n++;
  }
}

nt_array_ptr<char> behind_blanks(nt_array_ptr<char> p) {
  while (*p && *p == ' ') p++;
  return p;
}

// Ends a text before the blanks at its end.
void cut_blanks(nt_array_ptr<char> p) {
  int n = strlen(p);
  nt_array_ptr<char> row : count(n) = p;
  while (n > 0 && row[n - 1] == ' ') n--;
  row[n] = 0;
}

int main(void) {
  read_text(text, 63);
  nt_array_ptr<char> first = behind_blanks(text);
  cut_blanks(first);
  for (nt_array_ptr<char> p = first; *p; p++) putchar(*p);
  return strlen(first);
}
