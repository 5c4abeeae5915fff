// Run lengths, both ways. The input begins with 1 for numbers that are shortened to pairs of a number and how often it
// stands in a row, or with 2 for pairs that are written out as numbers; a 0 ends them.
int numbers _Checked[16];

// Reads input numbers up to a 0, or as many as there are cells, and returns how many they are.
int read_numbers(void) {
  int n = 0;
  for (int number = next_input(); number != 0 && n < 16; number = next_input()) {
    numbers[n] = number;
    n++;
  }
  return n;
}

// Prints a pair for each row of like numbers among the first n, and returns how many pairs there are.
int shorten(int n) {
  if (n > 16) return 0;
  array_ptr<int> all : count(n) = numbers;
  array_ptr<int> row : bounds(all, all + n) = all;
  int pairs = 0;
  while (row < all + n) {
    int length = 1;
    while (row + length < all + n && row[length] == *row) length++;
    print_int(*row);
    print_int(length);
    row += length;
    pairs++;
  }
  return pairs;
}

// Prints the numbers that pairs in the first n cells stand for, and returns how many numbers there are.
int lengthen(int n) {
  if (n > 16) return 0;
  array_ptr<int> all : count(n) = numbers;
  int length = 0;
  for (array_ptr<int> pair : bounds(all, all + n) = all; pair < all + n; pair += 2) {
    for (int k = 0; k < pair[1]; k++) print_int(*pair);
    length += pair[1];
  }
  return length;
}

int main(void) {
  int way = next_input();
  int n = read_numbers();
  if (way == 1) return shorten(n);
  return lengthen(n);
}
