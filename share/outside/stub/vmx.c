/* VMX operation (Intel SDM 3C): the VMCS of a subject, and VM entries with it. */
#include "stub.h"
#include "vmcs.h"

/* MSRs (SDM 4, chapter 2; SDM 3D, appendix A). */
enum {
  MSR_FEATURE_CONTROL = 0x3a, MSR_VMX_BASIC = 0x480, MSR_SECONDARY = 0x48b,
  MSR_CR0_FIXED = 0x486, MSR_CR4_FIXED = 0x488,
  MSR_PIN = 0x48d, MSR_PRIMARY = 0x48e, MSR_EXIT = 0x48f, MSR_ENTRY = 0x490, MSR_EFER = 0xc0000080
};

/* Controls (SDM 3C, "VM-Execution Control Fields" and behind). */
enum {
  PIN_TIMER = 1 << 6,
  HLT_EXITS = 1 << 7, USES_PORT_BITMAPS = 1 << 25, USES_MSR_BITMAPS = 1 << 28,
  SECONDARY = 1u << 31, USES_EPT = 1 << 1, UNRESTRICTED = 1 << 7,
  HOST_IS_LONG = 1 << 9, LOADS_EFER = 1 << 21, GUEST_IS_LONG = 1 << 9
};

/* The guest has paging of four levels. Its tables are all in one page, the one with its code: entry
   256 leads to the page itself, as a PML4 table and as a page directory pointer table, and so the
   page is its page directory too. There entry 257 maps the 2 MiB of the code, 258 those of the
   address that is asked about, and 259 nothing. */
enum { CODE_AT = 0x100, CODE_BYTES = 0x100, TABLE_AT = 0x800, ENTRIES = 4 };
#define LINEAR(entry) (0xffff800000000000ul + (256ul << 30) + ((u64)(entry) << 21))
#define BIG 0x200000ul
/* P, RW, A, and for 2 MiB D and PS (SDM 3A, "4-Level Paging"): a walk writes nothing. */
#define TO_TABLE 0x23ul
#define TO_PAGE 0xe3ul
/* A guest that finds bytes to run without an end is stopped. */
#define TIME 0x4000ul
/* Exit reasons (SDM 3D, appendix C). */
enum { EXCEPTION = 0, VIOLATION = 48, MISCONFIGURATION = 49 };
#define PAGING (1ul << 31)
#define VMX_IN_CR4 (1ul << 13)

u64 unmapped = LINEAR(259);

static u64 now[FIELDS];
static u64 launched;
static u8 lent_code[CODE_BYTES], lent_table[8 * ENTRIES];
static u8 *page_that_is_lent;
static u8 vmxon_page[PAGE] __attribute__((aligned(4096)));
static u8 vmcs[PAGE] __attribute__((aligned(4096)));
static u8 own_code[PAGE] __attribute__((aligned(4096)));
static u64 own_level_4[512] __attribute__((aligned(4096)));
static u64 own_level_3[512] __attribute__((aligned(4096)));
static u8 own_bitmaps[3 * PAGE] __attribute__((aligned(4096)));

static void copy(u8 *to, const u8 *from, u64 bytes)
{
  while (bytes--)
    *to++ = *from++;
}

static u64 msr(u32 index)
{
  u64 value = 0;
  read_msr(index, &value);
  return value;
}

static void set(u64 field, u64 value)
{
  __asm__ volatile("vmwrite %0, %1" : : "r"(value), "r"(field) : "cc");
}

static u64 get(u64 field)
{
  u64 value;
  __asm__ volatile("vmread %1, %0" : "=r"(value) : "r"(field) : "cc");
  return value;
}

/* Controls as they are wanted, with the bits that this processor fixes. */
static u64 allowed(u32 index, u64 wanted)
{
  u64 fixed = msr(index);
  return (wanted | (fixed & 0xffffffff)) & (fixed >> 32);
}

void start_vmx(void)
{
  u64 control0, control4, place = (u64)vmxon_page;
  if (!(msr(MSR_FEATURE_CONTROL) & 1))
    write_msr(MSR_FEATURE_CONTROL, 5);   /* locked, with VMX */
  __asm__ volatile("mov %%cr0, %0; mov %%cr4, %1" : "=r"(control0), "=r"(control4));
  control0 |= msr(MSR_CR0_FIXED);
  control4 |= msr(MSR_CR4_FIXED) | VMX_IN_CR4;
  __asm__ volatile("mov %0, %%cr0; mov %1, %%cr4" : : "r"(control0), "r"(control4));
  *(u32 *)vmxon_page = (u32)msr(MSR_VMX_BASIC);
  __asm__ volatile("vmxon %0" : : "m"(place) : "cc", "memory");
  own_level_4[0] = (u64)own_level_3 + 7;
  for (u64 i = 0; i < 4; i++)
    own_level_3[i] = (i << 30) + 0xb7;   /* a leaf of 1 GiB, all rights, write back */
}

/* Gives the lent page its bytes back. */
void leave(void)
{
  if (page_that_is_lent) {
    copy(page_that_is_lent + CODE_AT, lent_code, CODE_BYTES);
    copy(page_that_is_lent + TABLE_AT, lent_table, 8 * ENTRIES);
  }
  page_that_is_lent = 0;
}

static void lend(void)
{
  u8 *page = (u8 *)now[CODE_PLACE];
  u64 *table = (u64 *)(page + TABLE_AT);
  copy(lent_code, page + CODE_AT, CODE_BYTES);
  copy(lent_table, page + TABLE_AT, 8 * ENTRIES);
  page_that_is_lent = page;
  copy(page + CODE_AT, guest_code, (u64)(guest_code_end - guest_code));
  table[0] = now[CODE_ADDRESS] | TO_TABLE;
  table[1] = (now[CODE_ADDRESS] & ~(BIG - 1)) | TO_PAGE;
  table[2] = table[3] = 0;
}

static void set_controls(void)
{
  int flat = now[MODE] == FLAT;
  set(PIN_CONTROLS, allowed(MSR_PIN, PIN_TIMER));
  set(PRIMARY_CONTROLS, allowed(MSR_PRIMARY, HLT_EXITS | USES_PORT_BITMAPS | USES_MSR_BITMAPS | SECONDARY));
  set(SECONDARY_CONTROLS, allowed(MSR_SECONDARY, USES_EPT | (flat ? UNRESTRICTED : 0)));
  set(EXIT_CONTROLS, allowed(MSR_EXIT, HOST_IS_LONG | LOADS_EFER));
  set(ENTRY_CONTROLS, allowed(MSR_ENTRY, flat ? 0 : GUEST_IS_LONG));
  set(ENTRY_EVENT, 0);
  set(EXCEPTION_BITMAP, 0xffffffff);     /* each exception exits, each page fault too */
  set(PAGE_FAULT_MASK, 0);
  set(PAGE_FAULT_MATCH, 0);
  set(TARGETS_OF_CR3, 0);
  set(MASK_OF_CR0, 0);                   /* the guest owns CR0 and CR4 */
  set(MASK_OF_CR4, 0);
  set(PORT_BITMAP_A, now[PORTS_A]);
  set(PORT_BITMAP_B, now[PORTS_B]);
  set(MSR_BITMAPS, now[MSR_BITMAP]);
  set(EPT_POINTER, now[EPTP]);
  area(0, 0);
}

static u64 control_register(u32 which)
{
  u64 value;
  if (which == 0)
    __asm__ volatile("mov %%cr0, %0" : "=r"(value));
  else if (which == 3)
    __asm__ volatile("mov %%cr3, %0" : "=r"(value));
  else
    __asm__ volatile("mov %%cr4, %0" : "=r"(value));
  return value;
}

static void set_host(void)
{
  struct { u16 limit; u64 base; } __attribute__((packed)) descriptors, gates;
  __asm__ volatile("sgdt %0; sidt %1" : "=m"(descriptors), "=m"(gates));
  set(HOST_CR0, control_register(0));
  set(HOST_CR3, control_register(3));
  set(HOST_CR4, control_register(4));
  for (u64 i = 0; i < 6; i++)            /* the descriptors of start.S: 8 is code, 16 data */
    set(HOST_SELECTORS + 2 * i, HOST_SELECTORS + 2 * i == HOST_CS ? 8 : 16);
  set(HOST_TR, 24);                      /* any but 0 */
  set(HOST_FS_BASE, 0);
  set(HOST_GS_BASE, 0);
  set(HOST_TR_BASE, 0);
  set(HOST_GDTR, descriptors.base);
  set(HOST_IDTR, gates.base);
  set(HOST_EFER, msr(MSR_EFER));
  set(HOST_SYSENTER_CS, 0);
  set(HOST_SYSENTER_ESP, 0);
  set(HOST_SYSENTER_EIP, 0);
}

/* What a guest may have changed that ran other bytes than a piece. */
static void renew(void)
{
  set(GUEST_RSP, 0);
  set(GUEST_RFLAGS, 2);
  set(GUEST_INTERRUPTIBILITY, 0);
  set(GUEST_ACTIVITY, 0);
}

/* Segments from 0 up to 4 GiB; access rights are those of SDM 3C, "Guest Register State". */
static void set_guest_segments(int flat)
{
  for (u64 i = 0; i < 8; i++) {
    set(GUEST_SELECTORS + 2 * i, 0);
    set(GUEST_BASES + 2 * i, 0);
    set(GUEST_LIMITS + 2 * i, 0xffffffff);
    set(GUEST_ACCESS + 2 * i, 0xc093);   /* data */
  }
  set(GUEST_CS_ACCESS, flat ? 0xc09b : 0xa09b);  /* code of 32 bits, or of 64 */
  set(GUEST_LDTR_ACCESS, 0x10000);       /* unusable */
  set(GUEST_TR_ACCESS, 0x8b);            /* a busy TSS */
  set(GUEST_TR_LIMIT, 0xffff);
  set(GUEST_GDTR, 0);
  set(GUEST_GDTR_LIMIT, 0xffff);
  set(GUEST_IDTR, 0);
  set(GUEST_IDTR_LIMIT, 0xffff);
}

static void set_guest(void)
{
  int flat = now[MODE] == FLAT;
  u64 control = control_register(0);
  set_guest_segments(flat);
  set(GUEST_CR0, flat ? control & ~PAGING : control);
  set(GUEST_CR3, now[CODE_ADDRESS]);
  set(GUEST_CR4, control_register(4));
  set(GUEST_DR7, 0x400);                 /* as after a reset */
  set(GUEST_PENDING_DEBUG, 0);
  set(LINKED_VMCS, ~0ul);                /* none */
  set(GUEST_DEBUGCTL, 0);
  set(GUEST_SMBASE, 0);
  set(GUEST_SYSENTER_CS, 0);
  set(GUEST_SYSENTER_ESP, 0);
  set(GUEST_SYSENTER_EIP, 0);
  set(GUEST_TIMER, TIME);
  renew();
}

/* The subject with these fields is the one that is asked. Without an EPTP it has the stub's own
   memory; without bitmaps, bitmaps that let everything through. */
void begin(const u64 *fields)
{
  u64 place = (u64)vmcs;
  leave();
  for (u64 i = 0; i < FIELDS; i++)
    now[i] = fields[i];
  if (!now[EPTP]) {
    now[EPTP] = (u64)own_level_4 + 0x1e; /* write back, four levels */
    now[CODE_ADDRESS] = now[CODE_PLACE] = (u64)own_code;
  }
  if (!now[PORTS_A]) {
    now[PORTS_A] = (u64)own_bitmaps;
    now[PORTS_B] = now[PORTS_A] + PAGE;
  }
  if (!now[MSR_BITMAP])
    now[MSR_BITMAP] = (u64)own_bitmaps + 2 * PAGE;
  if (now[MODE] == PAGED)
    lend();
  *(u32 *)vmcs = (u32)msr(MSR_VMX_BASIC);
  __asm__ volatile("vmclear %0" : : "m"(place) : "cc", "memory");
  __asm__ volatile("vmptrld %0" : : "m"(place) : "cc", "memory");
  launched = 0;
  set_controls();
  set_host();
  set_guest();
  forget_walks();
}

/* INVEPT of all contexts. */
void forget_walks(void)
{
  u64 descriptor[2] = {0, 0}, kind = 2;
  __asm__ volatile("invept %0, %1" : : "m"(descriptor), "r"(kind) : "cc", "memory");
}

/* MSRs are loaded from a list of one at VM entry, and stored to one at VM exit; 0 is no list. */
void area(u64 load_list, u64 store_list)
{
  set(EXIT_STORE_LIST, store_list);
  set(EXIT_STORE_COUNT, store_list != 0);
  set(EXIT_LOAD_LIST, 0);
  set(EXIT_LOAD_COUNT, 0);
  set(ENTRY_LOAD_LIST, load_list);
  set(ENTRY_LOAD_COUNT, load_list != 0);
}

/* The linear address by which the guest reaches a guest-physical address. */
u64 reach(u64 address)
{
  if (now[MODE] == FLAT)
    return address;
  ((u64 *)(now[CODE_PLACE] + TABLE_AT))[2] = (address & ~(BIG - 1)) | TO_PAGE;
  return LINEAR(258) + (address & (BIG - 1));
}

/* The subject runs from a linear address on, up to its exit. */
static struct answer go(u64 linear, struct registers *registers)
{
  struct answer answer = {FAILED, 0, 0, 0, 0};
  set(GUEST_RIP, linear);
  if (enter(registers, launched)) {
    answer.detail = (u32)get(INSTRUCTION_ERROR);
    return answer;
  }
  answer.reason = (u32)get(EXIT_REASON);
  if (!(answer.reason >> 31))
    launched = 1;
  if (answer.reason == EXCEPTION)
    answer.detail = (u32)get(EXIT_INTERRUPTION);
  else
    answer.qualification = get(EXIT_QUALIFICATION);
  if (answer.reason == VIOLATION || answer.reason == MISCONFIGURATION)
    answer.address = get(EXIT_ADDRESS);
  answer.value = registers->rax;
  return answer;
}

/* The same, of bytes that may be anything. */
struct answer go_anywhere(u64 linear, struct registers *registers)
{
  struct answer answer = go(linear, registers);
  renew();
  return answer;
}

struct answer run_piece(u32 piece, u64 linear, struct registers *registers)
{
  registers->rsi = registers->rdi = linear;
  return go(LINEAR(257) + (now[CODE_ADDRESS] & (BIG - 1)) + CODE_AT + 8 * piece, registers);
}
