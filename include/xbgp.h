// What a program in C may call at the points of the speaker, and what it may return.
//
// A program is the one function of its file. Its parameters are the window's address and length (at receive the body of
// the UPDATE, elsewhere nothing), and its result is a verdict of its point. bin/c-to-code makes the line `code` of a
// manifest of it. docs/EXTENSIONS.md says what C can do here, docs/FORMATS.md what each helper returns and when a call
// ends the program with a fault.
#ifndef XBGP_H
#define XBGP_H

typedef unsigned char xbgp_u8;
typedef unsigned short xbgp_u16;
typedef unsigned int xbgp_u32;
typedef unsigned long long xbgp_u64;

// ---- verdicts: what a program returns to end the chain; another number is a fault

#define XBGP_KEEP 1 // receive: the UPDATE goes on to inbound
#define XBGP_DROP 2 // receive: its announced prefixes leave the peer's table

#define XBGP_ACCEPT 1 // inbound, outbound
#define XBGP_REJECT 2

#define XBGP_OLD 1 // decision: the route that is the best so far
#define XBGP_NEW 2 // decision: the route that it is compared with

#define XBGP_REPLACE 1 // encode: the write buffer is the section
#define XBGP_APPEND 2  // encode: the native section and then the write buffer

// ---- what helpers return besides lengths, addresses and values

#define XBGP_ABSENT ((xbgp_u64)-1)  // get_attr, del_attr, next_attr, map_get, map_del; set_attr: a faulty attribute
#define XBGP_NO_ROOM ((xbgp_u64)-2) // get_attr, set_attr, map_put, write_buf, alloc
#define XBGP_BUDGET ((xbgp_u64)-3)  // map_put, map_del: the chain wrote 64 times

// ---- which route: the first word of get_attr, next_attr and get_source

#define XBGP_ROUTE 0 // the route that is edited; at decision the old one
#define XBGP_OTHER 1 // at decision the new one; at outbound and encode the best route before export

// ---- fields of a peer or of a route's source

#define XBGP_NUMBER 0 // the peer's number in the configuration, 0 for the speaker
#define XBGP_AS 1
#define XBGP_ADDRESS 2
#define XBGP_ID 3
#define XBGP_KIND 4 // XBGP_LOCAL, XBGP_EXTERNAL or XBGP_INTERNAL
#define XBGP_LOCAL_AS 5
#define XBGP_LOCAL_ADDRESS 6
#define XBGP_LOCAL_ID 7

#define XBGP_LOCAL 0
#define XBGP_EXTERNAL 1
#define XBGP_INTERNAL 2

// ---- attributes: codes and flags (RFC 4271, section 4.3; RFC 1997; RFC 8092)

#define XBGP_ORIGIN 1
#define XBGP_AS_PATH 2
#define XBGP_NEXT_HOP 3
#define XBGP_MULTI_EXIT_DISC 4
#define XBGP_LOCAL_PREF 5
#define XBGP_ATOMIC_AGGREGATE 6
#define XBGP_AGGREGATOR 7
#define XBGP_COMMUNITIES 8
#define XBGP_LARGE_COMMUNITY 32

#define XBGP_OPTIONAL 0x80
#define XBGP_TRANSITIVE 0x40
#define XBGP_PARTIAL 0x20

// ---- sizes in octets

#define XBGP_STACK_SIZE 512
#define XBGP_HEAP_SIZE 8192
#define XBGP_MAX_SECTION 4068 // of a section that is sent
#define XBGP_MAX_ROUTE 4096   // of a route's canonical section
#define XBGP_MAX_BUFFER 4096  // of the write buffer
#define XBGP_MAX_WRITES 64    // writes to maps in one chain

// ---- helpers, by their numbers

// Ends the program: the next one of the chain goes on, or the native function decides.
#define xbgp_next() (((xbgp_u64 (*)(void))1)())
// Copies an attribute's value and returns its length.
#define xbgp_get_attr(which, code, dst, cap) \
    (((xbgp_u64 (*)(xbgp_u64, xbgp_u64, void *, xbgp_u64))2)(which, code, dst, cap))
#define xbgp_set_attr(code, flags, src, len) \
    (((xbgp_u64 (*)(xbgp_u64, xbgp_u64, const void *, xbgp_u64))3)(code, flags, src, len))
#define xbgp_del_attr(code) (((xbgp_u64 (*)(xbgp_u64))4)(code))
// Returns the least code from `from` on, and 256 times its flags.
#define xbgp_next_attr(which, from) (((xbgp_u64 (*)(xbgp_u64, xbgp_u64))5)(which, from))
#define xbgp_get_peer(field) (((xbgp_u64 (*)(xbgp_u64))6)(field))
#define xbgp_get_source(which, field) (((xbgp_u64 (*)(xbgp_u64, xbgp_u64))7)(which, field))
// Writes four octets of address and one of length.
#define xbgp_get_prefix(dst) (((xbgp_u64 (*)(void *))8)(dst))
#define xbgp_map_get(map, key, dst) (((xbgp_u64 (*)(xbgp_u64, const void *, void *))9)(map, key, dst))
#define xbgp_map_put(map, key, src) (((xbgp_u64 (*)(xbgp_u64, const void *, const void *))10)(map, key, src))
#define xbgp_map_del(map, key) (((xbgp_u64 (*)(xbgp_u64, const void *))11)(map, key))
#define xbgp_write_buf(src, len) (((xbgp_u64 (*)(const void *, xbgp_u64))12)(src, len))
// Returns the address of octets of the heap, as a number.
#define xbgp_alloc(len) (((xbgp_u64 (*)(xbgp_u64))13)(len))
#define xbgp_time() (((xbgp_u64 (*)(void))14)())

// ---- numbers in network order

static inline __attribute__((always_inline)) xbgp_u32 xbgp_read_u32(const xbgp_u8 *at) {
    return (xbgp_u32)at[0] << 24 | (xbgp_u32)at[1] << 16 | (xbgp_u32)at[2] << 8 | at[3];
}

static inline __attribute__((always_inline)) void xbgp_write_u32(xbgp_u8 *at, xbgp_u32 number) {
    at[0] = number >> 24;
    at[1] = number >> 16;
    at[2] = number >> 8;
    at[3] = number;
}

#endif
