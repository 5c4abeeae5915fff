// A ring buffer in the first cells of an array. The input has its size, and then: a positive number is put in behind the
// last one, 0 takes the first one out and prints it, and -k prints the one that was put in as the k-th last. A 0 where
// nothing is left ends the run.
int cells _Checked[8];
int first;
int used;

// The number that stands so many places behind the first one.
int look(int size, int place) {
  if (size > 8) return 0;
  array_ptr<int> ring : count(size) = cells;
  return ring[(first + place) % size];
}

void put(int size, int number) {
  if (size > 8 || used >= size) return;
  array_ptr<int> ring : count(size) = cells;
  ring[(first + used) % size] = number;
  used++;
}

int take(int size) {
  int number = look(size, 0);
  first = (first + 1) % size;
  used--;
  return number;
}

int main(void) {
  int size = next_input();
  int taken = 0;
  while (1) {
    int command = next_input();
    if (command > 0) put(size, command);
    else if (command < 0) print_int(look(size, used + command));
    else if (used > 0) { print_int(take(size)); taken++; }
    else return taken;
  }
}
