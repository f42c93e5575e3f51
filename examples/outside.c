/* Functions that are refused, each for one frequent reason, with the recipe of docs/GUIDE.md too. outside.ll is what it makes of them. */
#include <ctype.h>
#include <stdlib.h>
#include <string.h>

struct node {
  int value;
  struct node *next;
};

int use(int *cells);

int at(const int *table, int i) { return table[i]; }

int second(const struct node *n) { return n->next->value; }

void append(struct node *n, struct node *next) { n->next = next; }

const char *skip(const char *text) { return text + 1; }

int value_of(const int *p) { return p ? *p : 0; }

int total(const int *from, const int *end) {
  int sum = 0;
  while (from < end)
    sum += *from++;
  return sum;
}

long distance(const char *from, const char *to) { return to - from; }

int mean(int a, int b, int n) { return (a + b) / n; }

int scaled(double x) { return (int)(x * 100); }

int cleared(void) {
  int cells[32] = {0};
  return use(cells);
}

void copy(char *to, const char *from, size_t n) { memcpy(to, from, n); }

int positive(int n) { return abs(n); }

unsigned turned(unsigned n) { return n << 7 | n >> 25; }

int is_blank(unsigned char c) { return isspace(c) != 0; }

int fresh(void) {
  int *cell = malloc(sizeof *cell);
  return use(cell);
}

int applied(int (*f)(int), int x) { return f(x); }

int boxed(int value) {
  struct node n;
  n.value = value;
  return use(&n.value);
}

int rest(int n) {
  int cells[n];
  return use(cells);
}

int compare(const void *a, const void *b);

void sorted(int *cells, size_t n) { qsort(cells, n, sizeof *cells, compare); }

int ended(const char *text) {
  char *end;
  return (int)strtol(text, &end, 10) + *end;
}

int now(void) { return use(NULL); }

int unset(int wanted) {
  int value;
  if (wanted)
    value = use(&wanted);
  return value;
}

int large(void) {
  int cells[20000];
  return use(cells);
}

int knot(int n) {
  if (n & 1)
    goto odd;
even:
  n = use(&n);
  if (n & 2)
    return n;
odd:
  n += 3;
  goto even;
}
