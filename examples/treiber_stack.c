# 1 "stack.c"
typedef struct node { int value; struct node *next; } node;
extern void print(int);
static node *head;
static int done;
static void push(int v) {
  node *n, *old, *seen;
  n = malloc(sizeof(node));
  n->value = v;
  do { old = head; n->next = old; seen = atomic_cas(&head, old, n); } while (seen != old);
}
static int pop(void) {
  node *old, *next, *seen;
  int v;
  do {
    old = head;
    if (old == 0) return -1;
    next = old->next;
    seen = atomic_cas(&head, old, next);
  } while (seen != old);
  v = old->value;
  free(old);
  return v;
}
static void worker(void *arg) { push(2); atomic_add(&done, 1); }
int main(void) {
  int a, b;
  thread_create(worker, 0);
  push(1);
  while (done == 0) ;
  a = pop();
  push(a + 3);   /* takes the place that pop freed */
  b = pop();
  print(a);
  print(b);
  return a + b;
}
