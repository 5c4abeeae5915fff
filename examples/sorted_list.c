// The input numbers up to a 0, sorted, at most three of them.
struct node { int value; ptr<struct node> next; };
struct node a; struct node b; struct node c;

ptr<struct node> insert(ptr<struct node> list, ptr<struct node> new) {
  if (!list || new->value < list->value) { new->next = list; return new; }
  list->next = insert(list->next, new);
  return list;
}

int main(void) {
  ptr<struct node> list = NULL;
  ptr<struct node> new = &a;
  int count = 0;
  for (int n = next_input(); n != 0 && count < 3; n = next_input()) {
    new->value = n;
    list = insert(list, new);
    count++;
    if (count == 1) { new = &b; } else { new = &c; }
  }
  while (list) { print_int(list->value); list = list->next; }
  return count;
}
