// The tokens of a JSON text, each on a line of its own. The input has the bytes of the text, at most 128, and then -1.
char text _Checked[128];

// Reads bytes up to a negative number, or as many as there is room for, and returns how many they are.
int read_bytes(array_ptr<char> to : count(room), int room) {
  int n = 0;
  for (int byte = next_input(); byte >= 0 && n < room; byte = next_input()) {
    to[n] = byte;
    n++;
  }
  return n;
}

int is_blank(char c) { return c == ' ' || c == '\t' || c == '\n' || c == '\r'; }
int is_mark(char c) { return c == '{' || c == '}' || c == '[' || c == ']' || c == ':' || c == ','; }

// Whether a byte belongs to a number or to one of the words true, false and null.
int is_plain(char c) { return 'a' <= c && c <= 'z' || '0' <= c && c <= '9' || c == '-' || c == '+' || c == '.' || c == 'E'; }

// Where a string ends that begins at a place: behind its second quote.
int string_end(array_ptr<char> json : count(n), int n, int place) {
  place++;
  while (json[place] != '"') {
    if (json[place] == '\\') place++;
    place++;
  }
  return place + 1;
}

// Where a token ends that begins at a place; the same place where none does.
int token_end(array_ptr<char> json : count(n), int n, int place) {
  if (is_mark(json[place])) return place + 1;
  if (json[place] == '"') return string_end(json, n, place);
  while (place < n && is_plain(json[place])) place++;
  return place;
}

// Prints the tokens, and returns how many they are, or -1 behind the last one where a byte begins none.
int show_tokens(array_ptr<char> json : count(n), int n) {
  int tokens = 0;
  int place = 0;
  while (1) {
    while (place < n && is_blank(json[place])) place++;
    if (place >= n) return tokens;
    int end = token_end(json, n, place);
    if (end == place) return -1;
    for (; place < end; place++) putchar(json[place]);
    putchar('\n');
    tokens++;
  }
}

int main(void) {
  int n = read_bytes(text, 128);
  if (n > 128) return -1;
  return show_tokens(text, n);
}
