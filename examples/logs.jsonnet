// each worker has a channel to log: a further one is a word in this line, and its share of log's program
local workers = ['sensor', 'motor', 'radio'];

local hex(number) = '16#%x#' % number;
local page = hex(4096), code = hex(4 << 20), journal = hex(5 << 20), channels = 6 << 20;
local alone(subject, ticks) = { group: { name: subject, cpu: 0, subjects: [subject] }, frame: { group: subject, ticks: ticks } };
local groups = [alone(name, 6) for name in workers] + [alone('log', 18)];

local worker(name) = {
  name: name,
  cpu: 0,
  entry: code,
  component: { ref: 'worker', map: [{ logical: 'log', physical: 'log_' + name }] },
};

{
  description: 'Three workers, each with a channel to log, which adds up what they tell it.',
  processor: { logicalCpus: 1 },
  memoryBlocks: [{ name: 'ram', physicalAddress: hex(16 << 20), size: hex(1 << 20) }],
  memory: [
    { name: 'log_code', size: page, content: { hex: '01900000000040001a0900000000000001100000000060000120000000005000180000000000000017000000000000000d000000f8ffffff0000000000000000000000000000000000000000000000000000000000000000000000000000000000000000000000000000000000000000000000000000000000000000000000000000000000000000000000000000000000000000000000000000000000000000000000000000000000000000000000000000000000000000000000000000000000000000000000000000000000000000000000000000000000000000000000000000000000000000000000000000000000000000000000000000000000000000000000000000000000000000000000000000000000000000000000000000000000000000000000000000000000000000000000000000000000000000000000000d000000180000000d000000100000000d000000080000000b410300000000000b510300001000000b61030000200000044500000000000004460000000000000c420300000000001b00000000000000' } },
    { name: 'journal', size: page },
  ],
  channels: [{ name: 'log_' + name, size: page, hasEvent: 'asap' } for name in workers],
  components: [{
    name: 'worker',
    provides: [{ logical: 'text', virtualAddress: code, size: page, rights: 'rx', content: { hex: '0110000000006000012000000100000004320000000000000c3103000000000016020000000000000d000000e8ffffff' } }],
    channels: [{ logical: 'log', role: 'writer', virtualAddress: hex(channels), size: page, call: 1 }],
  }],
  subjects: [worker(name) for name in workers] + [{
    name: 'log',
    cpu: 0,
    entry: code,
    memory: [
      { region: 'log_code', virtualAddress: code, rights: 'rx' },
      { region: 'journal', virtualAddress: journal, rights: 'rw' },
    ],
    channels: [
      { channel: 'log_' + workers[i], role: 'reader', virtualAddress: hex(channels + 4096 * i), vector: 40 + i }
      for i in std.range(0, std.length(workers) - 1)
    ],
  }],
  scheduling: {
    groups: [one.group for one in groups],
    majorFrames: [{ cpus: [{ cpu: 0, minorFrames: [one.frame for one in groups] }] }],
  },
}
