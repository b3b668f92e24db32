/* Writes to standard output a dump that is dear to read: NAME says in what, N how much of it. `gen_hostile` alone lists the names, each with an N,
   the family of routes by which it is dear, and what it is.
     gen_hostile NAME N          cc -O2 -o gen_hostile gen_hostile.c */
#include <stdint.h>
#include <stdio.h>
#include <stdlib.h>
#include <string.h>

typedef uint8_t u8; typedef uint16_t u16; typedef uint32_t u32;
enum { ROOM = 17 << 20, WHOLE_BODY = 16777216, WHOLE_MESSAGE = 65535 };
static u8 *bytes; static u32 n;

static void one(u32 v) { bytes[n++] = (u8) v; }
static void two(u32 v) { one(v >> 8); one(v); }
static void four(u32 v) { two(v >> 16); two(v); }
static void set_two(u32 at, u32 v) { bytes[at] = (u8) (v >> 8); bytes[at + 1] = (u8) v; }
static void set_four(u32 at, u32 v) { set_two(at, v >> 16); set_two(at + 2, v); }

static void begin(u32 second, u32 type, u32 subtype) { n = 0; four(second); two(type); two(subtype); four(0); }
static void end(void) { set_four(8, n - 12); if (fwrite(bytes, 1, n, stdout) != n) exit(1); }

/* ORIGIN, AS_PATH of one number, NEXT_HOP: 20 bytes. */
static void attributes(u32 origin_as) { four(0x40010100); four(0x40020602); one(1); four(origin_as); two(0x4003); one(4); four(0xC0000201); }
static void prefix_24(u32 number) { one(24); one(number >> 16); one(number >> 8); one(number); }

static void index_table(u32 peers) {
  begin(1, 13, 1); four(0xC0000263); two(0); two(peers);
  for (u32 i = 0; i < peers; i++) { one(2); four(i); four(0x0A000000 + i); four(65000 + i); }
  end();
}
static u32 message_at;
static void begin_message(u32 second, u32 subtype, u32 peer, u32 as) {
  begin(second, 16, subtype);
  if (subtype == 1 || subtype == 0) { two(as); two(65001); } else { four(as); four(65001); }
  two(0); two(1); four(peer); four(0xC0000202);
  if (subtype == 0 || subtype == 5) return;
  message_at = n;
  for (int i = 0; i < 16; i++) one(255);
  two(0); one(2);
}
static void end_message(void) { set_two(message_at + 16, n - message_at); end(); }
static u32 message_room(void) { return WHOLE_MESSAGE - (n - message_at); }
static void state(u32 second, u32 from, u32 to) { begin_message(second, 5, 0xC0000201, 65000); two(from); two(to); end(); }
static void update(u32 second, u32 peer, u32 as, u32 origin, u32 prefix) {
  begin_message(second, 4, peer, as); two(0); two(20); attributes(origin); prefix_24(prefix); end_message();
}
static u32 turned(u32 v) { v = (v >> 16) | (v << 16); v = (v & 0x00FF00FF) << 8 | (v >> 8 & 0x00FF00FF); v = (v & 0x0F0F0F0F) << 4 | (v >> 4 & 0x0F0F0F0F); v = (v & 0x33333333) << 2 | (v >> 2 & 0x33333333); return (v & 0x55555555) << 1 | (v >> 1 & 0x55555555); }
static u32 scattered(u32 v) { v *= 0x9E3779B1u; v ^= v >> 15; v *= 0x85EBCA77u; v ^= v >> 13; return v; }

/* --- RIB dumps --- */
static void rib(u32 records, u32 peers, u32 entries) {
  index_table(peers);
  for (u32 r = 0; r < records; r++) {
    begin(2, 13, 2); four(r); prefix_24(r); two(entries);
    for (u32 e = 0; e < entries; e++) { two(e % peers); four(1); two(20); attributes(65000 + e % 7); }
    end();
  }
}
static void entries_of_peers(u32 count) { rib(count, 65535, 65535); }
static void entries_of_one(u32 count) { rib(count, 1, 65535); }
static void entries_with_ids(u32 count) {
  index_table(1);
  for (u32 r = 0; r < count; r++) {
    begin(2, 13, 8); four(r); prefix_24(r); two(65535);
    for (u32 e = 0; e < 65535; e++) { two(0); four(1); four(e); two(20); attributes(65000); }
    end();
  }
}
/* Records of nearly 16 MB, in each 255 entries with 65,520 bytes of attributes: an unknown one, or an AS_PATH, or tiny ones. */
static void wide(u32 count, int form) {
  index_table(1);
  for (u32 r = 0; r < count; r++) {
    begin(2, 13, 2); four(r); prefix_24(r); two(255);
    for (u32 e = 0; e < 255; e++) {
      two(0); four(1); two(65520); u32 to = n + 65520;
      if (form == 0) { two(0xD063); two(65516); four(r); four(e); memset(bytes + n, 85, to - n); n = to; }
      else if (form == 1) {
        two(0x5002); two(65516);
        while (to - n >= 1022) { one(2); one(255); for (u32 i = 0; i < 255; i++) four(i * r + e); }
        if (to - n >= 6) { u32 k = (to - n - 2) / 4; one(2); one(k); for (u32 i = 0; i < k; i++) four(e); }
        while (n < to) one(0);
      } else { while (to - n >= 4) { two(0x4001); two(0x0100); } while (n < to) one(0); }
    }
    end();
  }
}
static void attribute_bytes(u32 count) { wide(count, 0); }
static void path_numbers(u32 count) { wide(count, 1); }
static void repeated(u32 count) { wide(count, 2); }
static void index_tables(u32 count) {
  for (u32 t = 0; t < count; t++) {
    index_table(200);
    begin(2, 13, 2); four(t); prefix_24(t); two(1); two(t % 200); four(1); two(20); attributes(65000); end();
  }
}
static void small_dumps(u32 count) {                     /* of one peer and route each, every second one of a new peer */
  for (u32 t = 0; t < count; t++) {
    begin(t, 13, 1); four(0xC0000263); two(0); two(1); one(2); four(0); four(0x0A000000 + t / 2); four(65000); end();
    begin(t, 13, 2); four(t); prefix_24(t); two(1); two(0); four(1); two(20); attributes(65000); end();
  }
}
static void unused_indexes(u32 count) { for (u32 t = 0; t < count; t++) index_table(65535); }

/* --- messages --- */
static void peers(u32 count) { for (u32 i = 0; i < count; i++) update(i, 0x0A000000 + i, 65000, 65000, 7); }
static void far_peers(u32 count) { for (u32 i = 0; i < count; i++) update(i, turned(i), scattered(i), i, scattered(i) >> 8); }
static void origins(u32 count) { for (u32 i = 0; i < count; i++) update(i, 0x0A000000 + i % 1000, 65000, i, i / 1000); }
static u32 up(u32 i, u32 count) { (void) count; return i; }
static u32 down(u32 i, u32 count) { return count - i; }
static u32 mixed(u32 i, u32 count) { (void) count; return scattered(i); }
static void identifiers(u32 count, u32 (*order)(u32, u32)) {
  for (u32 i = 0; i < count; ) {
    begin_message(1, 9, 0xC0000201, 65000); two(0); two(20); attributes(65000);
    for (; i < count && message_room() >= 8; i++) { four(order(i, count)); prefix_24(0x0A0000); }
    end_message();
  }
}
static void identifiers_up(u32 count) { identifiers(count, up); }
static void identifiers_down(u32 count) { identifiers(count, down); }
static void identifiers_mixed(u32 count) { identifiers(count, mixed); }
static void withdrawn_identifiers(u32 count) {
  identifiers(count, up);
  for (u32 i = 0; i < count; ) {
    begin_message(2, 9, 0xC0000201, 65000); u32 at = n; two(0);
    for (; i < count && message_room() >= 10; i++) { four(i); prefix_24(0x0A0000); }
    set_two(at, n - at - 2); two(0); end_message();
  }
}
static void prefixes(u32 count) {                           /* every length, each below another */
  for (u32 i = 0; i < count; ) {
    begin_message(1, 4, 0xC0000201, 65000); two(0); two(20); attributes(65000);
    for (; i < count && message_room() >= 5; i++) { u32 a = turned(i), bits = i % 33; one(bits); for (u32 b = 0; b < (bits + 7) / 8; b++) one(a >> (24 - 8 * b)); }
    end_message();
  }
}
static void states(u32 count) { for (u32 i = 0; i < count; i++) { state(i, i % 2 ? 1 : 6, i % 2 ? 6 : 1); } }
static void flaps(u32 count) { for (u32 i = 0; i < count; i++) { update(i, 0xC0000201, 65000, 65000, i); state(i, 6, 1); state(i, 1, 6); } }
static void withdrawals(u32 count) {
  for (u32 i = 0; i < count; i++) { begin_message(i, 4, 0xC0000201, 65000); two(4); prefix_24(scattered(i)); two(0); end_message(); }
}
static void overlap(u32 count) {                          /* messages whose withdrawn keys are announced too, in the other order */
  for (u32 m = 0; m < count; m++) {
    u32 keys = (WHOLE_MESSAGE - 23 - 20) / 8;
    begin_message(m, 4, 0xC0000201, 65000); two(4 * keys);
    for (u32 i = 0; i < keys; i++) prefix_24(m * 131 + i);
    two(20); attributes(65000 + m);
    for (u32 i = keys; i > 0; i--) prefix_24(m * 131 + i - 1);
    end_message();
  }
}
static void merges(u32 count) {                           /* two-octet messages: 65 KB of AS_PATH and AS4_PATH in segments of one number */
  for (u32 m = 0; m < count; m++) {
    begin_message(m, 1, 0xC0000201, 65000); two(0); u32 at = n; two(0);
    u32 short_ones = 6400, long_ones = 6390;
    two(0x5002); two(4 * short_ones); for (u32 i = 0; i < short_ones; i++) { one(i % 3 ? 2 : 3); one(1); two(23456); }
    two(0xD011); two(6 * long_ones); for (u32 i = 0; i < long_ones; i++) { one(i % 3 ? 1 : 4); one(1); four(i + m); }
    set_two(at, n - at - 2); prefix_24(m); end_message();
  }
}
static void damaged(u32 count) {                          /* each message's marker is wrong */
  for (u32 i = 0; i < count; i++) { begin_message(i, 4, 0xC0000201, 65000); bytes[message_at] = 0; two(0); two(0); end_message(); }
}
static void zeros(u32 count) { memset(bytes, 0, 65536); for (u32 i = 0; i < count; i++) { u32 k = i + 1 < count ? 65536 : 65531; if (fwrite(bytes, 1, k, stdout) != k) exit(1); } }
static void longest_bodies(u32 count) { for (u32 i = 0; i < count; i++) { begin(1, 99, 1); memset(bytes + n, 1, WHOLE_BODY); n += WHOLE_BODY; end(); } }

/* --- IPv6 routes: RIB records with attribute 14 in their entries, and UPDATEs with attributes 14 and 15 --- */
static void path(u32 origin_as) { four(0x40010100); four(0x40020602); one(1); four(origin_as); }     /* 13 bytes */
static void address(u32 first, u32 last) { four(first); four(0); four(0); four(last); }
static void prefix_48(u32 number) { one(48); four(0x20010DB8); two(number); }
static void prefix_128(u32 number) { one(128); address(0x2A000000 + (scattered(number) >> 8), number); }
static void hop_of_entry(void) { four(0x800E1110); address(0x20010DB8, 1); }                          /* 20 bytes */
static void rib6(u32 records, u32 subtype, u32 peers) {
  index_table(peers);
  for (u32 r = 0; r < records; r++) {
    begin(2, 13, subtype); four(r); prefix_48(r); two(65535);
    for (u32 e = 0; e < 65535; e++) {
      two(e % peers); four(1); if (subtype == 10) four(e);
      two(33); path(65000 + e % 7); hop_of_entry();
    }
    end();
  }
}
static void entries6(u32 count) { rib6(count, 4, 1); }
static void entries_of_peers6(u32 count) { rib6(count, 4, 65535); }
static void entries_with_ids6(u32 count) { rib6(count, 10, 1); }
/* Records of nearly 16 MB, in each 255 entries with 65,520 bytes of attributes 14: empty ones behind a good one, or one whole attribute, of which nothing
   is read behind the next hop. */
static void wide6(u32 count, int is_whole) {
  index_table(1);
  for (u32 r = 0; r < count; r++) {
    begin(2, 13, 4); four(r); prefix_48(r); two(255);
    for (u32 e = 0; e < 255; e++) {
      two(0); four(1); two(65520); u32 to = n + 65520;
      if (is_whole) {
        two(0x900E); two(65516); two(2); one(1); one(16); address(0x20010DB8, e);
        memset(bytes + n, 0x81, to - n); n = to;
      } else {
        path(65000); hop_of_entry();
        while (n < to) { two(0x800E); one(0); }
      }
    }
    end();
  }
}
static void repeated6(u32 count) { wide6(count, 0); }
static void whole6(u32 count) { wide6(count, 1); }
static void long_prefixes(u32 count) {
  index_table(1);
  for (u32 r = 0; r < count; r++) {
    begin(2, 13, 4); four(r); prefix_128(scattered(r)); two(1); two(0); four(1); two(33); path(65000); hop_of_entry(); end();
  }
}

static u32 attributes_at, value_at;
static void begin_attributes(void) { two(0); attributes_at = n; two(0); }
static void begin_multi(u32 code) {
  two(0x9000 + code); value_at = n; two(0); two(2); one(1);
  if (code == 14) { one(16); address(0x20010DB8, 1); one(0); }
}
static void end_multi(void) { set_two(value_at, n - value_at - 2); }
static void end_attributes(void) { set_two(attributes_at, n - attributes_at - 2); }
static void begin_reach(u32 second, u32 subtype) {
  begin_message(second, subtype, 0xC0000201, 65000); begin_attributes(); path(65000); begin_multi(14);
}
static void end_update(void) { end_multi(); end_attributes(); end_message(); }

static void identifiers6(u32 count) {
  for (u32 i = 0; i < count; ) {
    begin_reach(1, 9);
    for (; i < count && message_room() >= 11; i++) { four(scattered(i)); prefix_48(7); }
    end_update();
  }
}
static void prefixes6(u32 count) {                          /* every length, each below another */
  for (u32 i = 0; i < count; ) {
    begin_reach(1, 4);
    for (; i < count && message_room() >= 17; i++) {
      u32 bits = i % 129; one(bits);
      for (u32 b = 0; b < (bits + 7) / 8; b++) one((b < 4 ? turned(i) : scattered(i + b / 4)) >> (24 - 8 * (b % 4)));
    }
    end_update();
  }
}
static void defaults6(u32 count) {                          /* keys of one byte */
  for (u32 m = 0; m < count; m++) { begin_reach(m, 4); while (message_room() > 0) one(0); end_update(); }
}
static void withdrawals6(u32 count) {
  for (u32 m = 0; m < count; m++) {
    begin_message(m, 4, 0xC0000201, 65000); begin_attributes(); begin_multi(15);
    for (u32 i = 0; message_room() >= 9; i++) { one(64); four(0x2A000000 + m); four(scattered(i)); }
    end_update();
  }
}
static void overlap6(u32 count) {                           /* messages whose withdrawn keys are reached too, in the other order */
  for (u32 m = 0; m < count; m++) {
    u32 keys = (WHOLE_MESSAGE - 23 - 13 - 4 - 3 - 4 - 3 - 18) / 34;
    begin_message(m, 4, 0xC0000201, 65000); begin_attributes(); path(65000 + m); begin_multi(15);
    for (u32 i = 0; i < keys; i++) prefix_128(m * 131 + i);
    end_multi(); begin_multi(14);
    for (u32 i = keys; i > 0; i--) prefix_128(m * 131 + i - 1);
    end_update();
  }
}
static void own_fields6(u32 count) {                        /* what isn't examined by family ipv6, and a key in attribute 14 */
  for (u32 m = 0; m < count; m++) {
    begin_message(m, 4, 0xC0000201, 65000); two(32000); memset(bytes + n, 255, 32000); n += 32000;
    attributes_at = n; two(0); path(65000); begin_multi(14); prefix_128(m); end_multi(); end_attributes();
    u32 room = message_room(); memset(bytes + n, 33, room); n += room;
    end_message();
  }
}

static const struct { const char *name; void (*make)(u32); u32 count; const char *what; } dumps[] = {
  { "entries", entries_of_one, 5, "65,535 entries a record, all of one peer" },
  { "entries-of-peers", entries_of_peers, 5, "65,535 entries a record, each of another peer" },
  { "entries-with-ids", entries_with_ids, 5, "65,535 entries a record, each with another identifier" },
  { "attributes", attribute_bytes, 2, "16 MB of attributes in a record: unknown ones" },
  { "paths", path_numbers, 2, "16 MB of attributes in a record: AS_PATHs" },
  { "repeats", repeated, 2, "16 MB of attributes in a record: 16,380 ORIGINs an entry" },
  { "indexes", index_tables, 5000, "index tables of 200 peers, a RIB record behind each" },
  { "small-dumps", small_dumps, 150000, "index tables of one peer, a RIB record behind each" },
  { "large-indexes", unused_indexes, 20, "index tables of 65,535 peers, and nothing else" },
  { "peers", peers, 500000, "one message a peer" },
  { "far-peers", far_peers, 300000, "one message a peer, peers and prefixes scattered" },
  { "origins", origins, 300000, "each route another origin AS, 1,000 a prefix" },
  { "ids-up", identifiers_up, 1000000, "identifiers under one prefix, ascending" },
  { "ids-down", identifiers_down, 1000000, "identifiers under one prefix, descending" },
  { "ids-mixed", identifiers_mixed, 500000, "identifiers under one prefix, scattered" },
  { "more-ids-mixed", identifiers_mixed, 1000000, "a million identifiers under one prefix and more, scattered" },
  { "ids-withdrawn", withdrawn_identifiers, 1000000, "identifiers under one prefix, withdrawn in order" },
  { "nested", prefixes, 1000000, "prefixes of every length, scattered" },
  { "states", states, 1000000, "state changes, up and down" },
  { "flaps", flaps, 300000, "a route and a break, by turns" },
  { "withdrawals", withdrawals, 500000, "withdrawals of what isn't there" },
  { "overlaps", overlap, 100, "messages of 65,535 bytes that withdraw what they announce" },
  { "merges", merges, 100, "messages of 65 KB of AS_PATH and AS4_PATH, a number a segment" },
  { "damaged", damaged, 500000, "messages with a wrong marker" },
  { "zeros", zeros, 400, "zeros, cut inside a header" },
  { "bodies", longest_bodies, 4, "records of the greatest length that nothing reads" },
}, dumps6[] = {                                             /* dear by family ipv6 */
  { "entries-6", entries6, 4, "65,535 entries a record, all of one peer" },
  { "entries-of-peers-6", entries_of_peers6, 4, "65,535 entries a record, each of another peer" },
  { "entries-with-ids-6", entries_with_ids6, 4, "65,535 entries a record, each with another identifier" },
  { "repeats-6", repeated6, 2, "16 MB of attributes in a record: 21,829 of type 14 an entry" },
  { "whole-6", whole6, 2, "16 MB of attributes in a record: of type 14, unread behind the next hop" },
  { "long-prefixes-6", long_prefixes, 300000, "RIB records of 128 bits, scattered" },
  { "ids-mixed-6", identifiers6, 500000, "identifiers under one prefix, scattered" },
  { "nested-6", prefixes6, 500000, "prefixes of every length, scattered" },
  { "defaults-6", defaults6, 50, "messages of 65,535 bytes that reach ::/0 65,000 times" },
  { "withdrawals-6", withdrawals6, 50, "messages of 65,535 bytes of withdrawals of what isn't there" },
  { "overlaps-6", overlap6, 100, "messages of 65,535 bytes that withdraw what they reach" },
  { "own-fields-6", own_fields6, 300, "messages of 65,535 bytes, of which one key is read" },
};

int main(int words, char **given) {
  size_t count = sizeof dumps / sizeof *dumps, count6 = sizeof dumps6 / sizeof *dumps6;
  if (words == 1) {
    for (size_t i = 0; i < count; i++) printf("%s %u ipv4 %s\n", dumps[i].name, dumps[i].count, dumps[i].what);
    for (size_t i = 0; i < count6; i++) printf("%s %u ipv6 %s\n", dumps6[i].name, dumps6[i].count, dumps6[i].what);
    return 0;
  }
  if (words != 3) { fprintf(stderr, "gen_hostile [NAME N]\n"); return 2; }
  if (!(bytes = malloc(ROOM))) return 1;
  setvbuf(stdout, NULL, _IOFBF, 1 << 20);
  for (size_t i = 0; i < count; i++) if (!strcmp(dumps[i].name, given[1])) { dumps[i].make((u32) atol(given[2])); return fflush(stdout) != 0; }
  for (size_t i = 0; i < count6; i++) if (!strcmp(dumps6[i].name, given[1])) { dumps6[i].make((u32) atol(given[2])); return fflush(stdout) != 0; }
  fprintf(stderr, "no such dump: %s\n", given[1]);
  return 2;
}
