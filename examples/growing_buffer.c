// The input numbers up to a 0, sorted, however many they are. Where all cells are taken, they are exchanged for twice as many. The pointer to
// them and the count that its bounds name are assigned in one bundle, as either alone would break these bounds.

// Puts a number in among the first n, which are sorted.
void insert(array_ptr<int> cells : count(room), int room, int n, int number) {
  for (; n > 0 && cells[n - 1] > number; n--) cells[n] = cells[n - 1];
  cells[n] = number;
}

int main(void) {
  int room = 2;
  array_ptr<int> cells : count(room) = calloc<int>(room, sizeof(int));
  int n = 0;
  for (int number = next_input(); number != 0; number = next_input()) {
    if (n == room) {
      int more = 2 * room;
      array_ptr<int> wider : count(more) = calloc<int>(more, sizeof(int));
      for (int k = 0; k < n; k++) wider[k] = cells[k];
      _Bundled { cells = wider; room = more; }
    }
    insert(cells, room, n, number);
    n++;
  }
  for (int k = 0; k < n; k++) print_int(cells[k]);
  return n;
}
