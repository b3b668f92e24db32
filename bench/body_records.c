/* body_records: a dump of RIB records with many entries, to standard output.
   cc -O2 -o body_records body_records.c
   body_records RECORDS ENTRIES [FAMILY]
     one PEER_INDEX_TABLE of two peers, and RIB_IPV4_UNICAST records of 10.0.0.0/8 with so many entries (65,535 at most),
     which take turns between the peers and have 20 bytes of attributes each; where FAMILY is ipv6, RIB_IPV6_UNICAST
     records of 2001:db8::/32, whose entries have 33 bytes, with an attribute 14 of 16 bytes */
#include <stdint.h>
#include <stdio.h>
#include <stdlib.h>
#include <string.h>
static uint8_t body[3 << 20]; static uint32_t n;
static void put(uint32_t value, int bytes) { for (int i = bytes - 1; i >= 0; i--) body[n++] = value >> (8 * i); }
static void record(uint32_t subtype) {
  uint32_t len = n; uint8_t header[12]; n = 0; put(3, 4); put(13, 2); put(subtype, 2); put(len, 4);
  memcpy(header, body, 12); n = 0; fwrite(header, 1, 12, stdout);
}
int main(int argc, char **argv) {
  static const uint8_t attributes[20] = {0x40, 1, 1, 0, 0x40, 2, 6, 2, 1, 0, 0, 0xFD, 0xE8, 0x40, 3, 4, 0xC0, 0, 2, 1};
  static const uint8_t six_attributes[33] = {0x40, 1, 1, 0, 0x40, 2, 6, 2, 1, 0, 0, 0xFD, 0xE8, 0x80, 14, 17, 16,
                                             0x20, 1, 0x0D, 0xB8, 0, 0, 0, 0, 0, 0, 0, 0, 0, 0, 0, 1};
  if (argc != 3 && argc != 4) return 2;
  int is_six = argc == 4 && !strcmp(argv[3], "ipv6");
  if (argc == 4 && !is_six && strcmp(argv[3], "ipv4")) return 2;
  const uint8_t *given = is_six ? six_attributes : attributes; uint32_t size = is_six ? 33 : 20;
  uint32_t records = atoi(argv[1]), entries = atoi(argv[2]);
  if (entries > 65535) return 2;
  static uint8_t kept[3 << 20]; uint32_t len;
  put(0xC0000263, 4); put(0, 2); put(2, 2);
  for (int peer = 1; peer <= 2; peer++) { put(2, 1); put(0xC0000200 + peer, 4); put(0xC0000200 + peer, 4); put(64999 + peer, 4); }
  len = n; memcpy(kept, body, len); record(1); fwrite(kept, 1, len, stdout);
  for (uint32_t r = 0; r < records; r++) {
    put(r, 4);
    if (is_six) { put(32, 1); put(0x20010DB8, 4); } else put(0x080A, 2);
    put(entries, 2);
    for (uint32_t e = 0; e < entries; e++) {
      put(e % 2, 2); put(1, 4); put(size, 2); memcpy(body + n, given, size); n += size;
    }
    len = n; memcpy(kept, body, len); record(is_six ? 4 : 2); fwrite(kept, 1, len, stdout);
  }
  return 0;
}
