// A stack machine that reads its program from the input: 0 ends; 1 n pushes n; 2, 3 and 4 add, subtract and multiply;
// 5 prints the topmost number; 6 duplicates it. The stack is a list of eight cells.
struct cell { int value; ptr<struct cell> below; };
struct cell c0; struct cell c1; struct cell c2; struct cell c3;
struct cell c4; struct cell c5; struct cell c6; struct cell c7;

ptr<struct cell> top = NULL;
ptr<struct cell> free_cells = NULL;

void release(ptr<struct cell> cell) { cell->below = free_cells; free_cells = cell; }

void push(int value) {
  ptr<struct cell> cell = free_cells;
  free_cells = cell->below;
  cell->value = value;
  cell->below = top;
  top = cell;
}

int pop(void) {
  ptr<struct cell> cell = top;
  int value = cell->value;
  top = cell->below;
  release(cell);
  return value;
}

void operate(int code) {
  int right = pop();
  int left = pop();
  if (code == 2) push(left + right);
  else if (code == 3) push(left - right);
  else push(left * right);
}

int main(void) {
  release(&c0); release(&c1); release(&c2); release(&c3);
  release(&c4); release(&c5); release(&c6); release(&c7);
  int steps = 0;
  while (1) {
    int code = next_input();
    if (code == 0) break;
    steps++;
    if (code == 1) push(next_input());
    else if (code == 5) print_int(top->value);
    else if (code == 6) push(top->value);
    else operate(code);
  }
  return steps;
}
