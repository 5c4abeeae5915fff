// A table, and an element that a function picks which isn't trusted.
_Tainted int pick(int length);

int squares _Checked[4] = {0, 1, 4, 9};

int main(void) {
  return squares[pick(4)];
}
