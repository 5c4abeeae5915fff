// Values of a configuration, which has a line `key=value` for each key. The input has its bytes, at most 255, and a 0 behind
// them. Prints the value of `port` and that of `user`, with a dash for one that isn't there, and returns how many there are.

// Reads bytes up to a 0, or as many as there is room for. What stands behind them stays 0.
void read_text(nt_array_ptr<char> to : count(room), int room) {
  int n = 0;
  for (int byte = next_input(); byte != 0 && n < room; byte = next_input()) {
    to[n] = byte;
    n++;
  }
}

// What stands behind a key and `=` where a line begins with these, and else null.
nt_array_ptr<char> value_in(nt_array_ptr<char> line, nt_array_ptr<char> key) {
  while (*line && *key && *line == *key) {
    line++;
    key++;
  }
  if (!*key && *line && *line == '=') return line + 1;
  return NULL;
}

nt_array_ptr<char> next_line(nt_array_ptr<char> text) {
  while (*text && *text != '\n') text++;
  if (*text) return text + 1;
  return text;
}

// The value of a key in the first line that has it, or null.
nt_array_ptr<char> value_of(nt_array_ptr<char> text, nt_array_ptr<char> key) {
  for (; *text; text = next_line(text)) {
    nt_array_ptr<char> value = value_in(text, key);
    if (value) return value;
  }
  return NULL;
}

// Writes a value up to the end of its line, or a dash, and returns how many values these are.
int show(nt_array_ptr<char> value) {
  int there = value != NULL;
  if (there) {
    for (; *value && *value != '\n'; value++) putchar(*value);
  } else {
    putchar('-');
  }
  putchar('\n');
  return there;
}

int main(void) {
  char text _Nt_checked[256];
  read_text(text, 255);
  return show(value_of(text, "port")) + show(value_of(text, "user"));
}
