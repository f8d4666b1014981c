// A module with a table of functions and its elements, which asks for functions of the world.
__attribute__((import_module("$root"), import_name("add"))) long long add(long long a, long long b);
__attribute__((import_module("$root"), import_name("note"))) void note(unsigned int which);

static long long sum(long long a, long long b) { return add(a, b); }
static long long first(long long a, long long b) { return a; }
static long long second(long long a, long long b) { return b; }

static long long (*volatile chosen[3])(long long, long long) = {sum, first, second};

__attribute__((export_name("choose"))) long long choose(unsigned int which, long long a, long long b) {
  note(which);
  return chosen[which % 3](a, b);
}
