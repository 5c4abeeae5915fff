// Messages for the codes with which programs end. The input has codes up to a 0. Prints the message of each one, and returns how
// many of them tell of a failure.
nt_array_ptr<char> message(int code) {
  if (code == 1) return "done";
  if (code == 2) return "no such file";
  if (code == 3) return "no room left";
  if (code == 4) return "not allowed";
  return "unknown code";
}

void put(nt_array_ptr<char> text) {
  for (; *text; text++) putchar(*text);
}

void put_line(nt_array_ptr<char> text) {
  put(text);
  putchar('\n');
}

int main(void) {
  int failures = 0;
  for (int code = next_input(); code != 0; code = next_input()) {
    if (code != 1) {
      put("error: ");
      failures++;
    }
    put_line(message(code));
  }
  return failures;
}
