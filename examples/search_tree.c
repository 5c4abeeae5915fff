// The input numbers up to a 0, sorted by a search tree, each printed once with how often it was there.
struct node { int number; int times; ptr<struct node> less; ptr<struct node> greater; };

// The tree with the number in it. Where there is no room for a node, C1 fails at its first member.
ptr<struct node> insert(ptr<struct node> tree, int number) {
  if (!tree) {
    ptr<struct node> leaf = malloc<struct node>(sizeof(struct node));
    leaf->number = number;
    leaf->times = 1;
    return leaf;
  }
  if (number < tree->number) tree->less = insert(tree->less, number);
  else if (number > tree->number) tree->greater = insert(tree->greater, number);
  else tree->times++;
  return tree;
}

int show(ptr<struct node> tree) {
  if (!tree) return 0;
  int before = show(tree->less);
  print_int(tree->number);
  print_int(tree->times);
  return before + 1 + show(tree->greater);
}

int main(void) {
  ptr<struct node> tree = NULL;
  for (int number = next_input(); number != 0; number = next_input()) tree = insert(tree, number);
  return show(tree);
}
