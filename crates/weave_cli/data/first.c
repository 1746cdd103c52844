int limit;
int level;
int alarm;

/*@ meta \prop, \name(limit_is_fixed), \targets(\ALL), \context(\writing), \separated(\written, &limit); */

void reset(void) {
  level = 0;
  alarm = 0;
}

void raise(void) {
  level = 90;
  alarm = 1;
}

int main(void) {
  limit = 80;
  reset();
  raise();
  return 0;
}
