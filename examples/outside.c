// The bounds of a member can't be run yet.
struct row { int n; array_ptr<int> cells : count(n); };

int main(void) {
  return sizeof(struct row);
}
