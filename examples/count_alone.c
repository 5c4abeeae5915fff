// A count is assigned alone, and takes the bounds that name it from their pointer.
int main(void) {
  int n = 0;
  array_ptr<int> p : count(n) = 0;
  array_ptr<int> q : count(3) = calloc<int>(3, sizeof(int));
  n = 3;
  p = q;
  return p[2];
}
