/* What an engineer would write instead: a line by memchr, its epoch by hand, six numbers by strtod, times rising. It checks nothing else. */
#include <stddef.h>
#include <stdint.h>
#include <stdlib.h>
#include <string.h>

/* The digits from `text` on as a number, and where they end. */
static const char *digits(const char *text, const char *end, uint64_t *value) {
  *value = 0;
  while (text < end && *text >= '0' && *text <= '9') *value = *value * 10 + (uint64_t)(*text++ - '0');
  return text;
}

/* An epoch in either form, as numbers that rise with it: the day and the millisecond of the day. Null where it is none. */
static const char *epoch(const char *text, const char *end, uint64_t *day, uint64_t *milli) {
  uint64_t year, month, date, hour, minute, second, fraction = 0;
  const char *at = digits(text, end, &year);
  if (at - text != 4 || at == end || *at != '-') return NULL;
  const char *from = at + 1;
  at = digits(from, end, &month);
  if (at - from == 3) { /* the day of the year */
    date = month;
    month = 0;
  } else {
    if (at == end || *at != '-') return NULL;
    at = digits(at + 1, end, &date);
  }
  if (at == end || *at != 'T') return NULL;
  at = digits(at + 1, end, &hour);
  if (at == end || *at != ':') return NULL;
  at = digits(at + 1, end, &minute);
  if (at == end || *at != ':') return NULL;
  at = digits(at + 1, end, &second);
  if (at < end && *at == '.') {
    from = at + 1;
    at = digits(from, end, &fraction);
    for (ptrdiff_t n = at - from; n < 3; n++) fraction *= 10;
    for (ptrdiff_t n = at - from; n > 3; n--) fraction /= 10;
  }
  *day = (year * 13 + month) * 367 + date;
  *milli = ((hour * 60 + minute) * 60 + second) * 1000 + fraction;
  return at;
}

/* How many data lines an ephemeris has, or 0 where one can't be read. Keyword lines are passed over. The text ends with a line's end. */
size_t reader_lines(const char *text, size_t length) {
  const char *end = text + length;
  uint64_t last_day = 0, last_milli = 0;
  size_t lines = 0;
  while (text < end) {
    const char *stop = memchr(text, '\n', (size_t)(end - text));
    if (stop == NULL) stop = end;
    if (text < stop && *text >= '0' && *text <= '9') {
      uint64_t day, milli;
      const char *at = epoch(text, stop, &day, &milli);
      if (at == NULL || day < last_day || (day == last_day && milli <= last_milli)) return 0;
      for (int n = 0; n < 6; n++) {
        char *after;
        volatile double kept = strtod(at, &after);
        (void)kept;
        if (after == at || after > stop) return 0;
        at = after;
      }
      last_day = day;
      last_milli = milli;
      lines++;
    }
    text = stop + 1;
  }
  return lines;
}
