/* Functions that the recipe of docs/GUIDE.md brings into the profile. totals.ll is what it makes of them. */
#include <string.h>

int limit = 100;

/* The sum of a text's bytes, with the limit taken off each time that it is passed, and how often that was. */
int sum_text(const char *text, int *passes) {
  int total = 0;
  *passes = 0;
  for (; *text; text++) {
    total += *text;
    if (total > limit) {
      *passes += 1;
      total -= limit;
    }
  }
  return total;
}

struct point {
  int x, y;
};

/* Moves a point one step. */
int step(struct point *p, char way) {
  switch (way) {
  case 'l': p->x -= 1; break;
  case 'r': p->x += 1; break;
  case 'u': p->y += 1; break;
  default: return 0;
  }
  return 1;
}

int seen[4];

void notice(int length);

/* Two calls: what the called function may touch decides. */
int length_seen(const char *text) {
  seen[1] += 1;
  int length = (int)strlen(text);
  notice(length);
  return length + seen[1];
}

static int sum_of(const int *cells) { return cells[0] + cells[1]; }

/* A call of a function of the same file. */
int counted(const int *cells) {
  seen[0] = 1;
  int sum = sum_of(cells);
  return sum + seen[0];
}

/* An array that no other function gets to know. */
int ends(const char *text) {
  char bytes[12];
  memcpy(bytes, text, 12);
  notice(bytes[0]);
  return bytes[11];
}
