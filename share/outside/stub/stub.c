/* Reads memory and questions from the disk, asks the processor, and writes its answers to the disk. It
   judges nothing. */
#include "stub.h"

/* An opcode; exit reasons (SDM 3D, appendix C). */
enum { HLT = 0xf4, VMCALL = 18, EXIT_EXCEPTION = 0, EXIT_PORT = 30, EXIT_RDMSR = 31, EXIT_WRMSR = 32 };
enum { SECTOR = 512, PLACES = 32768, TIME_STAMP_COUNTER = 0x10 };
enum { PAGE_FAULT = 14, GENERAL_PROTECTION = 13 };
/* A value that few MSRs take: its address isn't canonical, and it has reserved bits. */
#define UNFIT 0xa5a5a5a5a5a5a5a5ul

static u64 fields[FIELDS];
static u8 sector[SECTOR] __attribute__((aligned(16)));
static u64 before[PLACES];
static struct { u32 index, zero; u64 value; } own_load __attribute__((aligned(16))),
    own_store __attribute__((aligned(16)));

static u64 peek(u64 place, u32 size)
{
  switch (size) {
  case 1: return *(volatile u8 *)place;
  case 2: return *(volatile u16 *)place;
  case 4: return *(volatile u32 *)place;
  default: return *(volatile u64 *)place;
  }
}

static void poke(u64 place, u32 size, u64 value)
{
  switch (size) {
  case 1: *(volatile u8 *)place = (u8)value; break;
  case 2: *(volatile u16 *)place = (u16)value; break;
  case 4: *(volatile u32 *)place = (u32)value; break;
  default: *(volatile u64 *)place = value;
  }
}

/* 0, 1, 2, 3 for 1, 2, 4, 8 bytes */
static u32 code_of(u32 size)
{
  return size == 1 ? 0 : size == 2 ? 1 : size == 4 ? 2 : 3;
}

static struct answer load(const struct question *asked)
{
  struct registers registers = {0};
  u64 old = 0;
  if (asked->place != NOWHERE) {
    old = peek(asked->place, asked->size);
    poke(asked->place, asked->size, asked->value);
  }
  struct answer answer = run_piece(PIECE_LOAD + code_of(asked->size), reach(asked->address), &registers);
  if (asked->place != NOWHERE)
    poke(asked->place, asked->size, old);
  return answer;
}

static struct answer store(const struct question *asked)
{
  struct registers registers = {asked->value, 0, 0, 0, 0};
  u64 old = 0;
  if (asked->place != NOWHERE) {
    old = peek(asked->place, asked->size);
    poke(asked->place, asked->size, ~asked->value);
  }
  struct answer answer = run_piece(PIECE_STORE + code_of(asked->size), reach(asked->address), &registers);
  answer.value = 0;
  if (asked->place != NOWHERE) {
    answer.value = peek(asked->place, asked->size);
    poke(asked->place, asked->size, old);
  }
  return answer;
}

static struct answer fetch(const struct question *asked)
{
  struct registers registers = {UNFIT, 0, 0, UNFIT, UNFIT};
  u64 old = 0;
  if (asked->place != NOWHERE) {
    old = peek(asked->place, 1);
    poke(asked->place, 1, HLT);
  }
  struct answer answer = go_anywhere(reach(asked->address), &registers);
  if (asked->place != NOWHERE)
    poke(asked->place, 1, old);
  return answer;
}

/* A store whose place isn't known: a walk keeps the offset in a page, so there is one candidate in
   each page. The answer's value is the place, or NOWHERE. */
static struct answer find(const struct question *asked)
{
  struct registers registers = {asked->value, 0, 0, 0, 0};
  u64 first = fields[FIND_LOW] + asked->address % PAGE, count = 0;
  for (u64 place = first; place < fields[FIND_HIGH] && count < PLACES; place += PAGE)
    before[count++] = peek(place, 8);
  struct answer answer = run_piece(PIECE_STORE + 3, reach(asked->address), &registers);
  answer.value = NOWHERE;
  for (u64 i = 0; i < count; i++)
    if (peek(first + i * PAGE, 8) != before[i]) {
      answer.value = first + i * PAGE;
      poke(answer.value, 8, before[i]);
    }
  forget_walks();
  return answer;
}

static struct answer run(const struct question *asked)
{
  struct registers registers = {asked->value, asked->number, asked->number, 0, 0};
  return run_piece(asked->size, unmapped, &registers);
}

/* INS and OUTS look at the bitmaps first; where these let them through, the address isn't mapped, and
   no port is touched. */
static u8 class_of_port(u32 piece, u32 port)
{
  struct registers registers = {0, 0, port, 0, 0};
  struct answer answer = run_piece(piece, unmapped, &registers);
  u32 code = (piece - PIECE_INS) % 3, in = piece < PIECE_OUTS;
  u64 wanted = ((u64)port << 16) + (in << 3) + (1 << 4) + (1u << code) - 1;
  if (answer.reason == EXIT_EXCEPTION && (answer.detail & 0xff) == PAGE_FAULT)
    return PASSES;
  return answer.reason == EXIT_PORT && answer.qualification == wanted ? EXITS : ELSE;
}

/* An MSR that the bitmap lets through is read or written, or there is no such MSR (#GP). */
static u8 class_of_msr(u32 piece, u32 index)
{
  struct registers registers = {UNFIT & 0xffffffff, index, UNFIT & 0xffffffff, 0, 0};
  struct answer answer = run_piece(piece, unmapped, &registers);
  u32 wanted = piece == PIECE_RDMSR ? EXIT_RDMSR : EXIT_WRMSR;
  if (answer.reason == VMCALL)
    return PASSES;
  if (answer.reason == EXIT_EXCEPTION && (answer.detail & 0xff) == GENERAL_PROTECTION)
    return PASSES;
  return answer.reason == wanted && answer.qualification == 0 ? EXITS : ELSE;
}

/* A VM entry with a list of one MSR to load, one to store, or both; the guest does nothing. */
static struct answer enter_with(u64 load_list, u64 store_list)
{
  struct registers registers = {0};
  area(load_list, store_list);
  struct answer answer = run_piece(PIECE_NOTHING, unmapped, &registers);
  area(0, 0);
  return answer;
}

/* Whether a value is found where it was to arrive; the time stamp counter runs on. */
static int arrived(u32 index, u64 value, u64 found)
{
  return index == TIME_STAMP_COUNTER ? found - value < 1ul << 32 : found == value;
}

/* Looks for two values that the processor loads into an MSR at VM entry, and stores at VM exit if it
   can be read, by lists of the stub's own; returns how many there are, up to two. */
static u32 fitting_values(u32 index, int readable, u64 *fitting)
{
  const u64 values[] = {0x5a5a0000 + ((index & 0xfff) << 4), 0x5a5a5000, 0x5a5a, 0x50, 0x6, 0x1, 0x100, 0x0};
  u32 count = 0;
  own_load.index = own_store.index = index;
  for (u64 i = 0; i < sizeof values / sizeof *values && count < 2; i++) {
    own_load.value = values[i];
    own_store.value = ~values[i];
    if (enter_with((u64)&own_load, readable ? (u64)&own_store : 0).reason == VMCALL
        && (!readable || arrived(index, values[i], own_store.value)))
      fitting[count++] = values[i];
  }
  return count;
}

/* Is this entry of the area that of an MSR? One of the lists is the entry of the area, the other the
   stub's own: does a value arrive, where another one stood? */
static struct answer area_entry(const struct question *asked)
{
  u32 index = (u32)asked->value;
  u64 entry = fields[AREA] + 16 * (u64)asked->number, was = peek(entry + 8, 8), old, fitting[2] = {0, 0};
  int readable = read_msr(index, &old);
  u32 count = fitting_values(index, readable, fitting);
  struct answer answer = {0, 0, 0, 0, 0};
  own_load.value = fitting[1];
  if (count == 2)
    enter_with((u64)&own_load, 0);
  if (asked->kind == AREA_LOAD) {
    own_store.value = ~fitting[0];
    poke(entry + 8, 8, fitting[0]);
    answer = enter_with(entry, readable ? (u64)&own_store : 0);
    answer.value = arrived(index, fitting[0], own_store.value);
  } else if (readable && count) {
    own_load.value = fitting[0];
    poke(entry + 8, 8, ~fitting[0]);
    answer = enter_with((u64)&own_load, entry);
    answer.value = arrived(index, fitting[0], peek(entry + 8, 8));
  }
  poke(entry + 8, 8, was);
  if (readable)
    write_msr(index, old);
  answer.detail = !count ? REFUSED : readable ? 0 : UNREADABLE;
  return answer;
}

/* Gives one answer, and behind it the bytes of a scan; returns where the next answer goes. */
static u8 *answer_to(const struct question *asked, u8 *answers)
{
  struct answer answer = {0, 0, 0, 0, 0};
  u8 *end = answers + sizeof answer;
  switch (asked->kind) {
  case SET: fields[asked->number] = asked->value; return answers;
  case BEGIN: begin(fields); return answers;
  case POKE:
    poke(asked->place, asked->size, asked->value);
    forget_walks();
    return answers;
  case RUN: answer = run(asked); break;
  case LOAD: answer = load(asked); break;
  case STORE: answer = store(asked); break;
  case FETCH: answer = fetch(asked); break;
  case FIND: answer = find(asked); break;
  case AREA_LOAD: case AREA_STORE: answer = area_entry(asked); break;
  case SCAN_PORTS:
    for (u64 i = 0; i < asked->value; i++)
      *answers++ = class_of_port(asked->size, (u32)(asked->number + i));
    return answers;
  case SCAN_MSRS:
    for (u64 i = 0; i < asked->value; i++)
      *answers++ = class_of_msr(asked->size, (u32)(asked->number + i));
    return answers;
  default: answer.reason = FAILED;
  }
  *(struct answer *)answers = answer;
  return end;
}

void judge(void)
{
  struct header *header = (struct header *)sector;
  static struct load table[SECTOR / sizeof(struct load)];
  read_disk(0, 1, sector);
  if (header->magic != MAGIC)
    shut_down();
  const u64 each = SECTOR / sizeof(struct load);
  for (u64 i = 0; i < header->loads; i++) {
    if (i % each == 0)
      read_disk((u32)(1 + i / each), 1, table);
    read_disk(table[i % each].sector, table[i % each].sectors, (void *)table[i % each].place);
  }
  start_vmx();
  const struct question *questions = (const struct question *)header->questions;
  u8 *answers = (u8 *)header->answers;
  for (u64 i = 0; i < header->question_count; i++)
    answers = answer_to(&questions[i], answers);
  leave();
  write_disk((u32)header->answer_sector, (u32)header->answer_sectors, (void *)header->answers);
  header->magic = ENDED;
  write_disk(0, 1, sector);
  shut_down();
}

/* An exception that nobody waited for: the disk has no ENDED, and the emulator ends. */
void broken(void)
{
  shut_down();
}
