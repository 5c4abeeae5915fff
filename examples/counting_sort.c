// Sorts numbers by counting them. The input has the greatest number that there may be, how many numbers there are, and then
// these. A number without a counter ends the run.
int main(void) {
  int most = next_input();
  array_ptr<int> counts : count(most + 1) = calloc<int>(most + 1, sizeof(int));
  int n = next_input();
  for (int k = 0; k < n; k++) {
    int number = next_input();
    counts[number]++;
  }
  for (int number = 0; number <= most; number++) {
    for (int k = 0; k < counts[number]; k++) print_int(number);
  }
  return n;
}
