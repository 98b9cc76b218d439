struct node {
  int value;
  struct node *next;
};

pthread_mutex_t m;
struct node *head;
pthread_t t;

void push(int value) {
  struct node *p = malloc(sizeof *p);
  if (!p)
    return;
  p->value = value;
  pthread_mutex_lock(&m);
  p->next = head;
  head = p;
  pthread_mutex_unlock(&m);
}

int sum(struct node *p) {
  return p ? p->value + sum(p->next) : 0;
}

void *w(void *q) {
  push(1);
  return 0;
}

int main(void) {
  int total;
  pthread_create(&t, 0, w, 0);
  pthread_mutex_lock(&m);
  total = sum(head);
  pthread_mutex_unlock(&m);
  return total;
}
