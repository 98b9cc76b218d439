extern struct node head;
extern pthread_attr_t *known, unknown;
typedef struct queue queue;
extern queue all, *first(queue *);
int main(void) {
  extern struct node last;
  queue *none = 0;
  return none != 0;
}
