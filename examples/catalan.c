// Catalan numbers, each worked out once. The tables stand behind file-level pointers, which have the same bounds wherever they are
// named. The input has how many numbers are asked for, and then these. A number without an entry ends the run.
array_ptr<int> table : count(20);
array_ptr<char> known : count(20);

int catalan(int n) {
  if (known[n]) return table[n];
  int sum = 0;
  for (int k = 0; k < n; k++) sum += catalan(k) * catalan(n - 1 - k);
  known[n] = 1;
  table[n] = sum;
  return sum;
}

int main(void) {
  table = calloc<int>(20, sizeof(int));
  known = calloc<char>(20, sizeof(char));
  table[0] = 1;
  known[0] = 1;
  int n = next_input();
  for (int k = 0; k < n; k++) print_int(catalan(next_input()));
  return n;
}
