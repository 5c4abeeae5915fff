// Counts the lines, the words and the bytes of a text. The input has how many bytes there are at most, and then these; a 0 ends
// them before. Prints the three numbers with their names, and returns the length of the longest word, or -1 where there is no
// room for the text.

int is_blank(char c) { return c == ' ' || c == '\t' || c == '\n'; }

nt_array_ptr<char> behind_blanks(nt_array_ptr<char> text) {
  while (*text && is_blank(*text)) text++;
  return text;
}

nt_array_ptr<char> behind_word(nt_array_ptr<char> text) {
  while (*text && !is_blank(*text)) text++;
  return text;
}

int count_lines(nt_array_ptr<char> text) {
  int lines = 0;
  for (; *text; text++) {
    if (*text == '\n') lines++;
  }
  return lines;
}

int count_words(nt_array_ptr<char> text) {
  int words = 0;
  for (text = behind_blanks(text); *text; text = behind_blanks(behind_word(text))) words++;
  return words;
}

int longest_word(nt_array_ptr<char> text) {
  int longest = 0;
  for (text = behind_blanks(text); *text; text = behind_blanks(behind_word(text))) {
    int length = strlen(text) - strlen(behind_word(text));
    if (length > longest) longest = length;
  }
  return longest;
}

// Reads at most n bytes, or gives null where there is no room for them.
nt_array_ptr<char> read_text(int n) : count(n) {
  nt_array_ptr<char> text : count(n) = nt_calloc<char>(n, sizeof(char));
  if (!text) return NULL;
  for (int k = 0; k < n; k++) text[k] = next_input();
  return text;
}

void show(nt_array_ptr<char> name, int number) {
  for (; *name; name++) putchar(*name);
  print_int(number);
}

int main(void) {
  int n = next_input();
  nt_array_ptr<char> text : count(n) = read_text(n);
  if (n < 0 || !text) return -1;
  show("lines: ", count_lines(text));
  show("words: ", count_words(text));
  show("bytes: ", strlen(text));
  return longest_word(text);
}
