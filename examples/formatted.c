// A small printf. In a format %s stands for a text, %d for a number, and % before any other byte for this byte. The input has
// two numbers. Prints each with its name, and returns how many places of the format were filled.

void write_text(nt_array_ptr<char> text) {
  for (; *text; text++) putchar(*text);
}

// The last digit comes last. The smallest number has no counterpart above 0, so digits below 0 are taken as they are.
void write_number(int n) {
  if (n >= 10) write_number(n / 10);
  if (n >= 0) { putchar('0' + n % 10); return; }
  if (n <= -10) write_number(n / 10); else putchar('-');
  putchar('0' - n % 10);
}

void write_place(char kind, int number, nt_array_ptr<char> text) {
  if (kind == 's') write_text(text);
  else if (kind == 'd') write_number(number);
  else putchar(kind);
}

// Writes by the format, and returns how many places it has.
int write_formatted(nt_array_ptr<char> format, int number, nt_array_ptr<char> text) {
  int places = 0;
  while (*format) {
    if (*format == '%' && format[1]) {
      write_place(format[1], number, text);
      format += 2;
      places++;
    } else {
      putchar(*format);
      format++;
    }
  }
  return places;
}

int main(void) {
  int places = write_formatted("%s: %d%%\n", next_input(), "disk");
  return places + write_formatted("%s: %d%%\n", next_input(), "memory");
}
