/* What the stub and share/outside/emulator.py agree on. All numbers are little-endian. */
#ifndef STUB_H
#define STUB_H

typedef unsigned char u8;
typedef unsigned short u16;
typedef unsigned int u32;
typedef unsigned long u64;

#define PAGE 4096ul
#define NOWHERE (~0ul)

/* The first sector of the disk, then a table of what is loaded from it. */
struct header {
  u64 magic;
  u64 loads;           /* how many; they begin in sector 1 */
  u64 questions;       /* where they are once they are loaded, and how many */
  u64 question_count;
  u64 answers;         /* where they are gathered */
  u64 answer_sectors;
  u64 answer_sector;   /* where they go on the disk */
};
#define MAGIC 0x3145474455454e55ul
#define ENDED 0x3144454445444e45ul

struct load {
  u64 place;           /* physical address, a multiple of the page */
  u32 sector;
  u32 sectors;
};

enum kind {
  SET = 1,             /* the value of a field of a subject, `number` */
  BEGIN,               /* what follows is asked of the subject with these fields */
  RUN,                 /* a piece of code, with EDX and ECX `number` and RAX `value` */
  LOAD,                /* of `size` bytes at `address`, with a tag at `place` */
  STORE,               /* of `size` bytes at `address`; what stands at `place` then */
  FETCH,               /* at `address`, with HLT at `place` */
  FIND,                /* a store of 8 bytes; in which page does it arrive? */
  SCAN_PORTS,          /* `value` ports from `number` on, by INS or OUTS: piece `size`; a byte for each */
  SCAN_MSRS,           /* the same of MSRs */
  POKE,                /* `size` bytes of `value` are written at `place` */
  AREA_LOAD,           /* entry `number` of the MSR area at VM entry: is it MSR `value`? */
  AREA_STORE,          /* the same at VM exit */
};

struct question {
  u16 kind;
  u16 size;
  u32 number;
  u64 address;
  u64 place;
  u64 value;
};

struct answer {
  u32 reason;          /* exit reason, or FAILED */
  u32 detail;          /* interruption information; of areas: what was tried */
  u64 qualification;
  u64 address;         /* guest-physical address of the exit */
  u64 value;
};
#define FAILED 0xffffffffu

/* Fields of a subject. Without an EPTP it is shown the stub's own memory. */
enum field {
  EPTP, PORTS_A, PORTS_B, MSR_BITMAP, AREA,
  CODE_ADDRESS,        /* guest address and place of a page that it may read and run */
  CODE_PLACE,
  MODE,
  FIND_LOW,            /* the memory in which FIND looks */
  FIND_HIGH,
  FIELDS
};
enum mode { PAGED, FLAT };

/* Classes of a scan. */
enum { PASSES, EXITS, ELSE };

/* What of an MSR area was tried (`detail`). */
enum { REFUSED = 1, UNREADABLE = 2 };

/* Pieces of the code in start.S. */
enum piece {
  PIECE_LOAD = 0, PIECE_STORE = 4, PIECE_IN = 8, PIECE_OUT = 11, PIECE_INS = 14, PIECE_OUTS = 17,
  PIECE_RDMSR = 20, PIECE_WRMSR, PIECE_NOTHING
};

struct registers { u64 rax, rcx, rdx, rsi, rdi; };

/* start.S */
u64 enter(struct registers *, u64 launched);
int read_msr(u32 index, u64 *value);
int write_msr(u32 index, u64 value);
extern const u8 guest_code[], guest_code_end[];

/* vmx.c */
void start_vmx(void);
void begin(const u64 *fields);
void leave(void);
void forget_walks(void);
u64 reach(u64 address);
void area(u64 load_list, u64 store_list);
struct answer go_anywhere(u64 linear, struct registers *registers);
struct answer run_piece(u32 piece, u64 linear, struct registers *registers);
extern u64 unmapped;

/* disk.c */
void read_disk(u32 sector, u32 sectors, void *place);
void write_disk(u32 sector, u32 sectors, const void *place);
void shut_down(void) __attribute__((noreturn));

#endif
