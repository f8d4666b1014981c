// A module with a memory, data and a mutable global (the stack pointer), whose exports are the functions of a world.
static unsigned int steps[8] = {1, 2, 3, 5, 8, 13, 21, 34};
static unsigned int place;

__attribute__((export_name("next"))) unsigned int next(void) {
  unsigned int step = steps[place & 7];
  place += 1;
  return step;
}

__attribute__((export_name("set"))) void set(unsigned int index, unsigned int step) {
  steps[index & 7] = step;
}
