/* Writes to standard output a damaged dump that a seed and some good dumps make. The same words give the same bytes.
     mutate [-6] SEED SIZE DUMP..
   A run of records of one dump, of about SIZE bytes at most and with its index table, and now and then with records of a second
   dump, is changed one to eight times: bits, bytes and numbers are overwritten, spans are cut, moved, repeated and put in,
   records are dropped, doubled, exchanged and given other types and lengths, states change, and attributes and prefixes are repeated, lengthened
   and cut with the lengths around them kept right, so that the damage lies deep. Now and then the file is cut at the end.
     -6   attributes 14 and 15 and their keys are mostly those of IPv6 routes, and attributes of RIB entries are changed, too
                                                                                        cc -O2 -o mutate mutate.c */
#include <stdint.h>
#include <stdio.h>
#include <stdlib.h>
#include <string.h>

typedef uint8_t u8; typedef uint32_t u32; typedef uint64_t u64;
static u64 state; static int six;
static u64 draw(void) {
  u64 z = state += 0x9E3779B97F4A7C15ull;
  z = (z ^ (z >> 30)) * 0xBF58476D1CE4E5B9ull; z = (z ^ (z >> 27)) * 0x94D049BB133111EBull;
  return z ^ (z >> 31);
}
static size_t below(size_t n) { return n ? (size_t) (draw() % n) : 0; }

enum { ROOM = 1 << 24, RECORDS = 1 << 20 };
static u8 *bytes; static size_t size;
static size_t *starts, records;

static void *room(size_t n) { void *p = malloc(n); if (!p) { fprintf(stderr, "no memory\n"); exit(2); } return p; }
static u32 two(size_t at) { return at + 2 <= size ? (u32) bytes[at] << 8 | bytes[at + 1] : 0; }
static u32 four(size_t at) { return two(at) << 16 | two(at + 2); }
static void put_two(size_t at, u32 v) { if (at + 2 <= size) { bytes[at] = (u8) (v >> 8); bytes[at + 1] = (u8) v; } }
static void put_four(size_t at, u32 v) { put_two(at, v >> 16); put_two(at + 2, v & 65535); }

static void find_records(void) {
  records = 0;
  for (size_t at = 0; at + 12 <= size && records < RECORDS; ) {
    starts[records++] = at;
    u64 length = four(at + 8);
    if (length > size - at - 12) break;
    at += 12 + length;
  }
}
static size_t end_of(size_t record) { return record + 1 < records ? starts[record + 1] : size; }

/* Takes `gone` bytes away at a place and puts `n` in. */
static void edit(size_t at, size_t gone, const u8 *with, size_t n) {
  if (at > size) at = size;
  if (gone > size - at) gone = size - at;
  if (size - gone + n > ROOM) return;
  u8 *copy = room(n ? n : 1); if (n) memcpy(copy, with, n);
  memmove(bytes + at + n, bytes + at + gone, size - at - gone);
  if (n) memcpy(bytes + at, copy, n);
  size = size - gone + n; free(copy);
}

static u8 *read_dump(const char *name, size_t *length) {
  FILE *file = fopen(name, "rb"); if (!file) { perror(name); exit(2); }
  fseek(file, 0, SEEK_END); long n = ftell(file); rewind(file);
  u8 *all = room((size_t) n + 1); *length = fread(all, 1, (size_t) n, file); fclose(file);
  return all;
}

/* Puts records of a dump behind what is there: a run from a drawn place on, of about `most` bytes. */
static void take_records(const char *name, size_t most, int with_index) {
  size_t length; u8 *all = read_dump(name, &length), *kept = bytes; size_t kept_size = size;
  bytes = all; size = length; find_records();
  size_t first = records ? below(records) : 0, from, to;
  if (!below(4)) first = 0;
  if (!records) { from = 0; to = size < most ? size : most; }
  else {
    size_t last = first;
    while (last + 1 < records && end_of(last) - starts[first] < most) last++;
    from = starts[first]; to = end_of(last);
    if (to - from > 4 * most) to = from + 4 * most;
  }
  size_t index = with_index && records && first && two(4) == 13 && two(6) == 1 ? end_of(0) : 0;
  bytes = kept; size = kept_size;
  if (index && index < 65536) edit(size, 0, all, index);
  edit(size, 0, all + from, to - from);
  free(all); find_records();
}

/* --- where things lie in a record --- */
struct message { size_t record, start, attributes, attributes_end, end; int ready; };
static size_t session_header(size_t at) {                 /* bytes before the message or the states, or 0 */
  u32 kind = two(at + 4), subtype = two(at + 6); size_t n = kind == 17 ? 4 : 0;
  if (kind != 16 && kind != 17) return 0;
  size_t numbers = subtype == 0 || subtype == 1 || subtype == 8 ? 4 : 8;
  u32 family = two(at + 12 + n + numbers + 2);
  return n + numbers + 4 + (family == 2 ? 32 : 8);
}
static struct message find_message(void) {
  struct message m = {0};
  for (int tries = 0; tries < 24 && records; tries++) {
    size_t r = below(records), at = starts[r], n = session_header(at), start = at + 12 + n, end = end_of(r);
    if (!n || start + 23 > end || bytes[start + 18] != 2) continue;
    size_t attributes = start + 21 + two(start + 19);
    if (attributes + 2 > end || attributes + 2 + two(attributes) > end) continue;
    m.record = at; m.start = start; m.attributes = attributes + 2; m.attributes_end = attributes + 2 + two(attributes); m.end = end; m.ready = 1;
    return m;
  }
  return m;
}
/* An edit in a message that keeps the lengths of record and message right, and that of the attributes or withdrawn field. */
static void edit_message(struct message *m, size_t at, size_t gone, const u8 *with, size_t n) {
  size_t before = size, withdrawn = two(m->start + 19);
  int in_attributes = at >= m->attributes && at <= m->attributes_end && m->attributes_end > m->attributes, in_withdrawn = at >= m->start + 21 && at < m->attributes - 2;
  edit(at, gone, with, n);
  long more = (long) size - (long) before;
  put_four(m->record + 8, (u32) (four(m->record + 8) + more));
  put_two(m->start + 16, (u32) (two(m->start + 16) + more));
  if (in_withdrawn) { put_two(m->start + 19, (u32) ((long) withdrawn + more)); }
  else if (in_attributes) put_two(m->attributes - 2, (u32) (two(m->attributes - 2) + more));
}
/* A drawn attribute of a message: its place, and its bytes. */
static size_t an_attribute(const struct message *m, size_t *length) {
  size_t chosen = 0, seen = 0;
  for (size_t at = m->attributes; at + 3 <= m->attributes_end; ) {
    size_t n = bytes[at] & 16 ? 4 + two(at + 2) : 3u + bytes[at + 2];
    if (at + n > m->attributes_end) break;
    if (!below(++seen)) { chosen = at; *length = n; }
    at += n;
  }
  return chosen;
}

static const u32 ODD[] = { 0, 1, 2, 3, 4, 5, 7, 8, 11, 12, 16, 18, 19, 22, 23, 24, 31, 32, 33, 63, 64, 127, 128, 254, 255, 256, 4095, 4096, 23456, 32767, 32768, 65534, 65535, 65536,
  16777215, 16777216, 16777217, 0x7FFFFFFF, 0x80000000u, 0xFFFFFFFEu, 0xFFFFFFFFu };
static u32 odd(void) { return ODD[below(sizeof ODD / sizeof *ODD)]; }
static const u8 FORMS[][2] = { {13,1},{13,2},{13,8},{13,4},{16,0},{16,1},{16,4},{16,5},{16,8},{16,9},{16,6},{16,10},{17,0},{17,1},{17,4},{17,5},{17,8},{17,9},{12,1},{12,2},{48,0} };

/* Bytes of a drawn key: of IPv6 routes mostly where they are asked for. */
static size_t a_key(u8 *made) {
  size_t n = 0, wide = six && below(4);
  if (!below(3)) { made[n++] = 0; made[n++] = 0; made[n++] = 0; made[n++] = (u8) below(4); }
  static const u8 LENGTHS[] = { 0, 1, 32, 48, 64, 127, 128, 129 };
  u8 bits = (u8) (below(40) ? (wide && below(2) ? LENGTHS[below(8)] : below(wide ? 129 : 33)) : below(256)); made[n++] = bits;
  for (size_t b = 0, most = wide ? 16 : 4; b < (bits + 7u) / 8 && b < most; b++) made[n++] = (u8) (below(3) ? below(4) : draw());
  return n;
}
/* The value of an attribute 14 or 15: as it stands in an UPDATE, or as in a RIB entry, whole or shortened. */
static size_t a_value(u8 *made, u8 type, int is_entry) {
  size_t n = 0, keys = below(4), is_short = is_entry && type == 14 && below(2);
  static const u8 HOPS[] = { 16, 16, 16, 32, 32, 4, 0, 5, 24, 48 };
  if (!is_short) { made[n++] = 0; made[n++] = (u8) (2 - !below(5)); made[n++] = (u8) (1 + !below(8)); }
  if (type == 14) {
    u8 hop = HOPS[below(10)]; made[n++] = hop;
    for (u8 i = 0; i < hop; i++) made[n++] = (u8) (below(3) ? below(4) : draw());
    if (is_short) return n - !below(12) + !below(12);
    made[n++] = (u8) below(2);
  }
  for (size_t i = 0; i < keys; i++) n += a_key(made + n);
  return below(16) ? n : below(n + 1);
}
static size_t an_attribute_of_routes(u8 *made, int is_entry) {
  u8 type = (u8) (14 + !below(3)), value[512]; memset(value, 0, sizeof value);
  size_t n = 0, length = a_value(value, type, is_entry);
  made[n++] = 0x90; made[n++] = type; made[n++] = (u8) (length >> 8); made[n++] = (u8) length;
  memcpy(made + n, value, length);
  return n + length;
}

static void change_message(void) {
  struct message m = find_message(); if (!m.ready) return;
  u8 made[4096]; size_t n = 0, length = 0, at = an_attribute(&m, &length);
  switch (below(9)) {
    case 0: if (at && length < sizeof made) { memcpy(made, bytes + at, length); edit_message(&m, below(2) ? m.attributes_end : at, 0, made, length); } break;      /* repeat */
    case 1: if (at) edit_message(&m, at, length, NULL, 0); break;                                                                                        /* drop */
    case 2: if (at) { n = 1 + below(40); for (size_t i = 0; i < n; i++) made[i] = (u8) draw(); edit_message(&m, at + length, 0, made, n); } break;            /* loose bytes */
    case 3: if (at && length > 3) { bytes[at + 3 + below(length - 3)] = (u8) odd(); } break;
    case 4: {                                                                       /* one of a known type with a drawn value */
      if (six && below(3)) {
        n = an_attribute_of_routes(made, 0); edit_message(&m, m.attributes, 0, made, n);
        if (m.attributes_end == m.attributes) put_two(m.attributes - 2, (u32) n);
        break;
      }
      static const u8 TYPES[] = { 1, 2, 3, 4, 5, 6, 7, 8, 14, 15, 17, 18, 32 };
      u8 type = TYPES[below(sizeof TYPES)]; size_t value = below(4) ? below(12) : below(300);
      made[n++] = (u8) (value > 255 || !below(3) ? 0xD0 : 0x40); made[n++] = type;
      if (made[0] & 16) made[n++] = (u8) (value >> 8);
      made[n++] = (u8) value;
      for (size_t i = 0; i < value; i++) made[n + i] = (u8) (below(3) ? below(5) : draw());
      if ((type == 2 || type == 17) && value > 2 && below(3)) { made[n] = (u8) (1 + below(4)); made[n + 1] = (u8) ((value - 2) / (below(2) ? 4 : 2)); }
      if ((type == 14 || type == 15) && value > 3) { made[n] = 0; made[n + 1] = (u8) (six ? 2 - !below(5) : 1 + !below(5)); made[n + 2] = 1; }
      if (type == 14 && value > 8) { static const u8 HOPS[] = { 4, 16, 32, 0, 5 }; made[n + 3] = HOPS[below(5)]; }
      edit_message(&m, m.attributes, 0, made, n + value);
      if (m.attributes_end == m.attributes) put_two(m.attributes - 2, (u32) (n + value));
      break;
    }
    case 5: {                                                                       /* more prefixes, announced or withdrawn */
      size_t keys = 1 + below(below(6) ? 8 : 400);
      for (size_t i = 0; i < keys && n + 24 < sizeof made && six; i++) n += a_key(made + n);
      for (size_t i = 0; i < keys && n + 9 < sizeof made && !six; i++) {
        if (!below(3)) { made[n++] = 0; made[n++] = 0; made[n++] = 0; made[n++] = (u8) below(4); }
        u8 bits = (u8) (below(40) ? below(33) : below(256)); made[n++] = bits;
        for (int b = 0; b < (bits + 7) / 8 && b < 4; b++) made[n++] = (u8) (below(3) ? below(4) : draw());
      }
      if (below(2)) edit_message(&m, m.end, 0, made, n);
      else { size_t w = m.start + 19, was = two(w); edit(w + 2, 0, made, n); put_two(w, (u32) (was + n)); put_four(m.record + 8, (u32) (four(m.record + 8) + n)); put_two(m.start + 16, (u32) (two(m.start + 16) + n)); }
      break;
    }
    case 6: put_two(m.start + 19, below(2) ? odd() : two(m.start + 19) + (u32) below(3) - 1); break;
    case 7: put_two(m.attributes - 2, below(2) ? odd() : two(m.attributes - 2) + (u32) below(3) - 1); break;
    default: put_two(m.start + 16, below(2) ? odd() : two(m.start + 16) + (u32) below(3) - 1); break;
  }
}

/* An attribute of a drawn entry of a RIB record is changed, or one put in, with the lengths around it kept right. */
static void change_entry(void) {
  for (int tries = 0; tries < 24 && records; tries++) {
    size_t r = below(records), at = starts[r], end = end_of(r); u32 subtype = two(at + 6);
    if (two(at + 4) != 13 || (subtype != 2 && subtype != 4 && subtype != 8 && subtype != 10) || at + 17 > end) continue;
    size_t prefix = at + 16, place = prefix + 1 + (bytes[prefix] + 7u) / 8, chosen = 0, fixed = subtype < 8 ? 6 : 10;
    if (place + 2 > end) continue;
    u32 count = two(place); place += 2;
    for (u32 seen = 0; seen < count && place + fixed + 2 <= end; ) {
      size_t length = two(place + fixed);
      if (place + fixed + 2 + length > end) break;
      if (!below(++seen)) chosen = place;
      place += fixed + 2 + length;
    }
    if (!chosen) continue;
    size_t field = chosen + fixed, from = field + 2, to = from + two(field), n, gone = 0; u8 made[1024];
    size_t of = from; for (size_t next = from, seen = 0; next + 3 <= to; ) {            /* a drawn attribute */
      size_t size_of = bytes[next] & 16 ? 4 + two(next + 2) : 3u + bytes[next + 2];
      if (next + size_of > to) break;
      if (!below(++seen)) { of = next; gone = size_of; }
      next += size_of;
    }
    switch (below(5)) {
      case 0: n = 0; break;                                                           /* drop */
      case 1: n = gone < sizeof made ? gone : 0; memcpy(made, bytes + of, n); gone = 0; break;   /* repeat */
      case 2: n = 1 + below(8); for (size_t i = 0; i < n; i++) made[i] = (u8) draw(); gone = 0; break;
      default: n = an_attribute_of_routes(made, 1); gone = 0;
    }
    edit(of, gone, made, n);
    put_two(field, (u32) (two(field) + n - gone)); put_four(at + 8, (u32) (four(at + 8) + n - gone));
    return;
  }
}

/* A state change of the peer of a drawn message, put in before or behind it. */
static void change_state(void) {
  for (int tries = 0; tries < 24 && records; tries++) {
    size_t r = below(records), at = starts[r], n = session_header(at);
    if (!n || n > 60 || at + 12 + n > end_of(r)) continue;
    u8 made[12 + 60 + 4]; u32 subtype = two(at + 6); static const u8 STATES[] = { 6, 6, 6, 1, 2, 5, 0, 255 };
    memcpy(made, bytes + at, 12 + n);
    made[7] = subtype == 0 || subtype == 1 || subtype == 8 ? 0 : 5; made[6] = 0;
    made[8] = made[9] = made[10] = 0; made[11] = (u8) (n + 4);
    made[12 + n] = 0; made[13 + n] = STATES[below(8)]; made[14 + n] = 0; made[15 + n] = STATES[below(8)];
    edit(below(2) ? at : end_of(r), 0, made, 16 + n);
    return;
  }
}

static void change_record(void) {
  if (!records) return;
  size_t r = below(records), at = starts[r], n = end_of(r) - at, other;
  switch (below(10)) {
    case 0: put_four(at + 8, four(at + 8) + (u32) below(9) - 4); break;
    case 1: put_four(at + 8, odd()); break;
    case 2: { size_t f = below(sizeof FORMS / sizeof *FORMS); put_two(at + 4, FORMS[f][0]); put_two(at + 6, FORMS[f][1]); break; }
    case 3: put_two(at + 6, (u32) below(12)); break;
    case 4: edit(at, n, NULL, 0); break;
    case 5: for (size_t i = 0, times = 1 + below(below(8) ? 3 : 60); i < times && size < (1u << 20); i++) edit(at, 0, bytes + at, n); break;
    case 6: other = below(records); edit(starts[other], 0, bytes + at, n); break;
    case 7: {                                                   /* a count or length near the front of the body */
      size_t place = at + 12 + below(n > 12 ? (n - 12 < 48 ? n - 12 : 48) : 1);
      put_two(place, below(2) ? odd() : two(place) + (u32) below(5) - 2); break;
    }
    case 8: if (n > 13) { size_t cut = 1 + below(n - 12); edit(at + n - cut, cut, NULL, 0); put_four(at + 8, (u32) (n - 12 - cut)); } break;    /* a shorter body */
    default: { u8 more[64]; size_t k = 1 + below(64); for (size_t i = 0; i < k; i++) more[i] = (u8) draw(); edit(at + n, 0, more, k); put_four(at + 8, (u32) (n - 12 + k)); }
  }
}

static void change_bytes(void) {
  if (!size) return;
  size_t at = below(size), n = 1 + below(below(4) ? 8 : 300); u8 made[512];
  switch (below(8)) {
    case 0: case 1: bytes[at] ^= (u8) (1u << below(8)); break;
    case 2: bytes[at] = (u8) odd(); break;
    case 3: put_two(at, odd()); break;
    case 4: put_four(at, odd()); break;
    case 5: edit(at, n, NULL, 0); break;
    case 6: { int zeros = (int) below(2); for (size_t i = 0; i < n; i++) made[i] = zeros ? 0 : (u8) draw(); edit(at, 0, made, n); break; }
    default: { size_t from = below(size); if (n > size - from) n = size - from; edit(at, below(2) ? n : 0, bytes + from, n); }
  }
}

int main(int n, char **words) {
  if (n > 1 && !strcmp(words[1], "-6")) { six = 1; n--; words++; }
  if (n < 4) { fprintf(stderr, "mutate [-6] SEED SIZE DUMP..\n"); return 2; }
  state = strtoull(words[1], NULL, 10) * 0xD1342543DE82EF95ull + 1; draw();
  size_t most = strtoull(words[2], NULL, 10), dumps = (size_t) n - 3;
  bytes = room(ROOM); starts = room(RECORDS * sizeof *starts);
  most = below(3) ? below(most / 4 + 1) : below(most + 1);
  take_records(words[3 + below(dumps)], most, (int) below(5));
  if (!below(4)) take_records(words[3 + below(dumps)], most / 2, (int) below(2));
  for (size_t changes = 1 + below(below(3) ? 4 : 8); changes > 0; changes--) {
    find_records();
    if (six && below(2)) { if (below(2)) change_entry(); else change_message(); continue; }
    switch (below(8)) {
      case 0: case 1: change_bytes(); break;
      case 2: case 3: change_record(); break;
      case 4: change_state(); break;
      default: change_message();
    }
  }
  if (!below(6)) size = below(size + 1);
  if (!below(40)) size = below(30);
  return fwrite(bytes, 1, size, stdout) != size || fflush(stdout) != 0;
}
