// The input numbers up to a 0, sorted, at most eight of them.
int sorted _Checked[8];

// Puts a number in among the first n, which are sorted.
void insert(int n, int number) {
  for (; n > 0 && sorted[n - 1] > number; n--) sorted[n] = sorted[n - 1];
  sorted[n] = number;
}

int main(void) {
  int count = 0;
  for (int number = next_input(); number != 0 && count < 8; number = next_input()) {
    insert(count, number);
    count++;
  }
  for (int k = 0; k < count; k++) print_int(sorted[k]);
  return count;
}
