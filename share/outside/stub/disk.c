/* The disk: an ATA disk by programmed input and output, in sectors of 512 bytes (ATA-6, "PIO data-in
   command protocol"); and the way to end the emulator. */
#include "stub.h"

enum { DATA = 0x1f0, COUNT = 0x1f2, LOW, MIDDLE, HIGH, DRIVE, COMMAND };
enum { READ_SECTORS = 0x20, WRITE_SECTORS = 0x30, FLUSH_CACHE = 0xe7 };
enum { BUSY = 0x80, ASKS_FOR_DATA = 8 };
enum { AT_ONCE = 128, WORDS = 256 };

static void out(u16 port, u8 value)
{
  __asm__ volatile("outb %0, %1" : : "a"(value), "Nd"(port));
}

static u8 in(u16 port)
{
  u8 value;
  __asm__ volatile("inb %1, %0" : "=a"(value) : "Nd"(port));
  return value;
}

static void command(u32 sector, u32 sectors, u8 which)
{
  while (in(COMMAND) & BUSY)
    ;
  out(DRIVE, 0xe0 | (sector >> 24));
  out(COUNT, (u8)sectors);
  out(LOW, (u8)sector);
  out(MIDDLE, (u8)(sector >> 8));
  out(HIGH, (u8)(sector >> 16));
  out(COMMAND, which);
}

static void wait_for_data(void)
{
  while ((in(COMMAND) & (BUSY | ASKS_FOR_DATA)) != ASKS_FOR_DATA)
    ;
}

void read_disk(u32 sector, u32 sectors, void *place)
{
  while (sectors) {
    u32 now = sectors < AT_ONCE ? sectors : AT_ONCE;
    command(sector, now, READ_SECTORS);
    for (u32 i = 0; i < now; i++) {
      u64 words = WORDS;
      wait_for_data();
      __asm__ volatile("rep insw" : "+D"(place), "+c"(words) : "d"(DATA) : "memory");
    }
    sector += now;
    sectors -= now;
  }
}

void write_disk(u32 sector, u32 sectors, const void *place)
{
  while (sectors) {
    u32 now = sectors < AT_ONCE ? sectors : AT_ONCE;
    command(sector, now, WRITE_SECTORS);
    for (u32 i = 0; i < now; i++) {
      u64 words = WORDS;
      wait_for_data();
      __asm__ volatile("rep outsw" : "+S"(place), "+c"(words) : "d"(DATA) : "memory");
    }
    sector += now;
    sectors -= now;
  }
  command(0, 0, FLUSH_CACHE);
  while (in(COMMAND) & BUSY)
    ;
}

/* Bochs ends when this word is written to this port (Bochs, iodev/unmapped.cc). */
void shut_down(void)
{
  for (const char *word = "Shutdown"; *word; word++)
    out(0x8900, (u8)*word);
  for (;;)
    __asm__ volatile("hlt");
}
