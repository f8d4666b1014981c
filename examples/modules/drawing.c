// A guest of the world of drawing.wit: it calls three functions of two interfaces, and gives back strings and lists.

typedef unsigned int u32;

#define IMPORT(place, name) __attribute__((import_module(place), import_name(name)))
#define EXPORT(name) __attribute__((export_name(name)))

IMPORT("demo:drawing/shapes@0.1.0", "distance") double distance(double ax, double ay, double bx, double by);
IMPORT("demo:drawing/shapes@0.1.0", "shade") u32 shade(u32 of, u32 by);
IMPORT("demo:drawing/canvas@0.1.0", "fill") u32 fill(double ax, double ay, double bx, double by, u32 ink, u32 borders);

static char heap[4096];
static u32 used;

// Room for what is passed in; blocks only grow.
EXPORT("cabi_realloc") void *cabi_realloc(void *old, u32 old_size, u32 align, u32 size) {
  used = (used + align - 1) & -align;
  char *block = heap + used;
  used += size;
  for (u32 i = 0; i < old_size; i++) block[i] = ((char *)old)[i];
  return block;
}

struct slice { void *data; u32 length; };
static struct slice answer;

static const char *const names[] = { "red ", "green ", "blue " };

static int rising(u32 a, u32 b) { return a > b; }
static int falling(u32 a, u32 b) { return a < b; }
static int (*orders[])(u32, u32) = { rising, falling };

EXPORT("describe") struct slice *describe(char *title, u32 length, u32 ink) {
  double far = distance(0, 0, 3, 4);
  u32 next = shade(ink, 1);
  u32 drawn = fill(0, 0, far, far, next, 5);
  const char *name = names[next < 3 ? next : 0];
  u32 at = 0;
  char *text = cabi_realloc(0, 0, 1, length + 8);
  if (drawn) while (name[at]) { text[at] = name[at]; at++; }
  for (u32 i = 0; i < length; i++) text[at++] = title[i];
  answer.data = text;
  answer.length = at;
  return &answer;
}

EXPORT("sorted") struct slice *sorted(u32 *values, u32 length) {
  int (*order)(u32, u32) = orders[length & 1];
  for (u32 i = 0; i < length; i++)
    for (u32 j = i + 1; j < length; j++)
      if (order(values[i], values[j])) { u32 v = values[i]; values[i] = values[j]; values[j] = v; }
  answer.data = values;
  answer.length = length;
  return &answer;
}
