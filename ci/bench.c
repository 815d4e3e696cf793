// The work of the program `bench` as plain loops in C: 64 bits to a word, with a moving start. Each row does what the row of
// that name does there, prints its unit, its least time of a round in nanoseconds, its count and a check, and must have the
// same count and check.
#include <ctype.h>
#include <stdint.h>
#include <stdio.h>
#include <stdlib.h>
#include <string.h>
#include <strings.h>
#include <time.h>

enum { ROUNDS = 7, REGISTER = 4096, VECTOR = 65536, SHIFTS = 1000000, TIMES = 100, COUNT = VECTOR - 100 };

typedef struct { uint64_t *words; size_t count, start, len; } Bits;

static Bits zeros(size_t len) {
	size_t count = (len + 63) / 64;
	return (Bits){ calloc(count, 8), count, 0, len };
}

static size_t place(const Bits *b, size_t i) {
	size_t p = b->start + i, room = 64 * b->count;
	return p < room ? p : p - room;
}

static int shift_in(Bits *b, int bit) {
	int out = b->words[b->start / 64] >> (b->start % 64) & 1;
	size_t end = place(b, b->len);
	uint64_t one = 1ull << (end % 64);
	b->words[end / 64] = bit ? b->words[end / 64] | one : b->words[end / 64] & ~one;
	b->start = place(b, 1);
	return out;
}

static uint64_t window(const Bits *b, size_t at) {
	size_t p = place(b, at), k = p / 64, below = p % 64;
	uint64_t low = b->words[k] >> below;
	return below ? low | b->words[k + 1 == b->count ? 0 : k + 1] << (64 - below) : low;
}

static uint64_t word(const Bits *b, size_t k) {
	uint64_t w = window(b, 64 * k);
	size_t n = b->len - 64 * k;
	return n < 64 ? w & ((1ull << n) - 1) : w;
}

static size_t first_bad(const Bits *got, const Bits *want, const Bits *mask) {
	for (size_t k = 0; k < got->count; k++) {
		uint64_t bad = (word(got, k) ^ word(want, k)) & word(mask, k);
		if (bad)
			return 64 * k + __builtin_ctzll(bad);
	}
	return 0;
}

static int value(uint8_t c) {
	if (c >= '0' && c <= '9') return c - '0';
	if (c >= 'A' && c <= 'F') return c - 'A' + 10;
	if (c >= 'a' && c <= 'f') return c - 'a' + 10;
	return c == ' ' || (c >= 9 && c <= 13) ? 16 : 17;
}

// The digits from the last on; none where a byte is no digit or a 1 stands beyond the length.
static int from_hex(Bits *b, const uint8_t *digits, size_t n, size_t len) {
	size_t at = 0;
	*b = zeros(len);
	for (size_t i = n; i-- > 0;) {
		int v = value(digits[i]);
		if (v > 16) return 0;
		if (v == 16) continue;
		if (at < len) {
			if (len - at < 4 && v >> (len - at)) return 0;
			b->words[at / 64] |= (uint64_t)v << (at % 64);
			at += 4;
		} else if (v)
			return 0;
	}
	return 1;
}

static void put_run(Bits *b, size_t at, uint64_t bits, size_t n) {
	size_t p = place(b, at), k = p / 64, below = p % 64;
	uint64_t mask = n < 64 ? (1ull << n) - 1 : ~0ull;
	b->words[k] = (b->words[k] & ~(mask << below)) | (bits & mask) << below;
	if (below) {
		size_t next = k + 1 == b->count ? 0 : k + 1;
		b->words[next] = (b->words[next] & ~(mask >> (64 - below))) | (bits & mask) >> (64 - below);
	}
}

static void copy_bits(Bits *to, size_t at, const Bits *from, size_t from_at, size_t n) {
	for (size_t done = 0; done < n; done += 64)
		put_run(to, at + done, window(from, from_at + done), n - done < 64 ? n - done : 64);
}

static const uint64_t FIRST_NUMBER = 88172645463325252ull;
static uint64_t last;
static uint64_t next_number(void) { last ^= last << 13; last ^= last >> 7; last ^= last << 17; return last; }

static Bits mixed(size_t n, size_t turned) {
	Bits b = zeros(n);
	last = FIRST_NUMBER;
	for (size_t i = 0; i < n + turned; i++)
		shift_in(&b, next_number() & 1);
	return b;
}

static size_t count; // of what the last round went over

static Bits reg, got, want, mask, to;
static uint8_t digits[VECTOR / 4];

static uint64_t run_shift_in(void) {
	uint64_t check = 0;
	for (size_t i = 0; i < SHIFTS; i++)
		check += shift_in(&reg, i % 3 == 0);
	count = SHIFTS;
	return check;
}

static uint64_t run_first_bad(void) {
	uint64_t check = 0;
	for (size_t t = 0; t < TIMES; t++) {
		check += first_bad(&got, &want, &mask);
		__asm__ volatile("" : : : "memory");
	}
	count = TIMES * VECTOR;
	return check;
}

static uint64_t run_from_hex(void) {
	uint64_t check = 0;
	for (size_t k = 0; k < TIMES; k++) {
		Bits b;
		if (from_hex(&b, digits, sizeof digits, VECTOR))
			check += word(&b, k);
		free(b.words);
	}
	count = TIMES * VECTOR;
	return check;
}

static uint64_t run_copy_bits(void) {
	uint64_t check = 0;
	for (size_t k = 0; k < TIMES; k++) {
		copy_bits(&to, k, &got, 7, COUNT);
		check += word(&to, k);
	}
	count = TIMES * COUNT;
	return check;
}

// ---- whole vectors, and the bytes of steps

enum { HEADER = 5, DATA = 65520, TRAILER = 11, CYCLES = 100000, STEPS = 20, ROOM = 220000 };

typedef struct { size_t len; Bits tdi, tdo, mask; } Part;

static Part parts[3]; // header, data, trailer
static Bits out;
static uint8_t buffer[ROOM];

static int get(const Bits *b, size_t i) {
	size_t p = place(b, i);
	return b->words[p / 64] >> (p % 64) & 1;
}

// Bit i of the whole vector: what is shifted in, and what is wanted out, or -1.
static int vector_bit(size_t i, int *wanted) {
	const Part *p = parts;
	while (i >= p->len) i -= p++->len;
	*wanted = get(&p->mask, i) ? get(&p->tdo, i) : -1;
	return get(&p->tdi, i);
}

static size_t vector_len(void) { return parts[0].len + parts[1].len + parts[2].len; }

static void make_vector(void) {
	size_t lens[] = { HEADER, DATA, TRAILER }, last_wanted = 0;
	int wanted;
	for (int k = 0; k < 3; k++)
		parts[k] = (Part){ lens[k], mixed(lens[k], 3), mixed(lens[k], 7), mixed(lens[k], 11) };
	out = zeros(vector_len());
	for (size_t i = 0; i < out.len; i++) {
		vector_bit(i, &wanted);
		if (wanted < 0) continue;
		out.words[i / 64] |= (uint64_t)wanted << (i % 64);
		last_wanted = i;
	}
	out.words[last_wanted / 64] ^= 1ull << (last_wanted % 64);
}

static uint64_t run_vector_bits(void) {
	uint64_t check = 0;
	for (int t = 0; t < STEPS; t++) {
		size_t len = vector_len();
		for (size_t i = 0; i < len; i++) {
			int wanted, tdi = vector_bit(i, &wanted);
			check += tdi + (wanted < 0 ? 0 : wanted ? 4 : 2);
		}
		__asm__ volatile("" : : : "memory");
	}
	count = (size_t)STEPS * (HEADER + DATA + TRAILER);
	return check;
}

// The first bit that is not as wanted: its part from 1 on and its place there, or 0.
static uint64_t judge(void) {
	size_t i = 0;
	for (int k = 0; k < 3; k++)
		for (size_t at = 0; at < parts[k].len; at++, i++)
			if (get(&parts[k].mask, at) && get(&parts[k].tdo, at) != get(&out, i))
				return k + 1 + 4 * at;
	return 0;
}

static uint64_t run_judge(void) {
	uint64_t check = 0;
	for (int t = 0; t < STEPS; t++) {
		check += judge();
		__asm__ volatile("" : : : "memory");
	}
	count = (size_t)STEPS * (HEADER + DATA + TRAILER);
	return check;
}

static uint8_t *cycle(uint8_t *b, int tms, int tdi, int read) {
	*b++ = '0' + 2 * tms + tdi;
	if (read) *b++ = 'R';
	*b++ = '4' + 2 * tms + tdi;
	return b;
}

static uint8_t *walk(uint8_t *b, const char *path) { // a digit for the TMS of each state
	while (*path) b = cycle(b, *path++ - '0', 0, 0);
	return b;
}

static uint64_t digest(size_t n) {
	uint64_t d = 0;
	for (size_t i = 0; i < n; i++)
		d = (d << 5 | d >> 59) ^ buffer[i];
	return d;
}

static uint64_t run_scan_bytes(void) {
	uint8_t *b = buffer;
	for (int t = 0; t < STEPS; t++) {
		size_t len = vector_len();
		b = walk(buffer, "100");
		for (size_t i = 0; i < len; i++) {
			int wanted, tdi = vector_bit(i, &wanted);
			b = cycle(b, i + 1 == len, tdi, wanted >= 0);
		}
		b = walk(b, "10");
		*b++ = '0';
		__asm__ volatile("" : : : "memory");
	}
	count = STEPS * (b - buffer);
	return digest(b - buffer);
}

// The cycle of the state that a run stays in. It is read at each turn: if the compiler knew it, it would put down a fixed
// pattern of sixteen bytes at once, which a source that may stop at any byte cannot.
static volatile struct { int tms, tdi, read; } stay;

static uint64_t run_run_bytes(void) {
	uint8_t *b = buffer;
	for (int t = 0; t < STEPS; t++) {
		b = walk(buffer, "1010");
		for (size_t i = 0; i < CYCLES; i++)
			b = cycle(b, stay.tms, stay.tdi, stay.read);
		b = walk(b, "110");
		*b++ = '0';
		__asm__ volatile("" : : : "memory");
	}
	count = STEPS * (b - buffer);
	return digest(b - buffer);
}

// ---- one device, edge by edge

enum { CELLS = 256, EDGES = 1000000 };
enum { RESET, IDLE, DR_SELECT, DR_CAPTURE, DR_SHIFT, DR_EXIT1, DR_PAUSE, DR_EXIT2, DR_UPDATE,
	IR_SELECT, IR_CAPTURE, IR_SHIFT, IR_EXIT1, IR_PAUSE, IR_EXIT2, IR_UPDATE };

static const uint8_t after[16][2] = {
	{ IDLE, RESET }, { IDLE, DR_SELECT }, { DR_CAPTURE, IR_SELECT }, { DR_SHIFT, DR_EXIT1 }, { DR_SHIFT, DR_EXIT1 },
	{ DR_PAUSE, DR_UPDATE }, { DR_PAUSE, DR_EXIT2 }, { DR_SHIFT, DR_UPDATE }, { IDLE, DR_SELECT },
	{ IR_CAPTURE, RESET }, { IR_SHIFT, IR_EXIT1 }, { IR_SHIFT, IR_EXIT1 },
	{ IR_PAUSE, IR_UPDATE }, { IR_PAUSE, IR_EXIT2 }, { IR_SHIFT, IR_UPDATE }, { IDLE, DR_SELECT },
};

typedef struct {
	int state, tdo, trst, has_trst, bypass, selects_boundary; // tdo is -1 where it is not driven
	int length; // of the instruction register
	uint32_t latch, stage;
	Bits core, boundary, update;
} Chip;

static Chip chip;

static void take(Bits *to, const Bits *from) {
	for (size_t k = 0; k < to->count; k++) to->words[k] = from->words[k];
	to->start = from->start;
}

enum { LENGTH = 20, OPCODES = 110000, DEVICES = 32, SCANS = 200 };
static struct { uint32_t code, row; } opcodes[OPCODES]; // in the order of their codes

static int row_of(uint32_t code) { // -1 where no row has it
	size_t low = 0, high = OPCODES;
	while (low < high) {
		size_t mid = low + (high - low) / 2;
		if (opcodes[mid].code == code) return (int)opcodes[mid].row;
		if (opcodes[mid].code < code) low = mid + 1;
		else high = mid;
	}
	return -1;
}

static void decode(Chip *c) {
	if (c->length == LENGTH) {
		int row = c->latch == (1u << LENGTH) - 1 ? -1 : row_of(c->latch);
		c->selects_boundary = row >= 0 && row % 2 == 0;
	} else
		c->selects_boundary = c->latch == 0 || c->latch == 1;
}

static void rise(Chip *c, int tms, int tdi) {
	if (c->trst && c->has_trst) return;
	switch (c->state) {
	case DR_CAPTURE:
		if (c->selects_boundary) take(&c->boundary, &c->core);
		else c->bypass = 0;
		break;
	case DR_SHIFT:
		if (c->selects_boundary) shift_in(&c->boundary, tdi);
		else c->bypass = tdi;
		break;
	case IR_CAPTURE: c->stage = 1; break;
	case IR_SHIFT: c->stage = c->stage >> 1 | (uint32_t)tdi << (c->length - 1); break;
	}
	c->state = after[c->state][tms];
}

static void fall(Chip *c) {
	switch (c->state) {
	case DR_UPDATE:
		if (c->selects_boundary) take(&c->update, &c->boundary);
		break;
	case IR_UPDATE: c->latch = c->stage; decode(c); break;
	case RESET: c->latch = (1u << c->length) - 1; c->selects_boundary = 0; break;
	}
	c->tdo = c->state == DR_SHIFT ? (c->selects_boundary ? get(&c->boundary, 0) : c->bypass) : c->state == IR_SHIFT ? (int)(c->stage & 1) : -1;
}

static void make_chip(void) {
	chip = (Chip){ .tdo = -1, .has_trst = 1, .length = 2, .latch = 3, .core = zeros(CELLS), .boundary = zeros(CELLS), .update = zeros(CELLS) };
	for (size_t k = 0; k < chip.core.count; k++) chip.core.words[k] = ~0ull;
}

static void clocked(const char *path, int tdi) {
	for (; *path; path++) {
		rise(&chip, *path - '0', tdi);
		fall(&chip);
	}
}

static uint64_t run_chip_shift(void) {
	uint64_t check = 0;
	clocked("1111101100", 0);
	clocked("0", 1);
	clocked("11100", 0);
	for (size_t i = 0; i < EDGES / 2; i++) {
		rise(&chip, 0, i % 3 == 0);
		fall(&chip);
		if (chip.tdo == 1) check += i;
	}
	count = EDGES;
	return check;
}

// New instructions for each of some devices of one description with many opcodes.
static Chip many_opcodes[DEVICES];

static uint32_t opcode(uint64_t row) { return row * 48271 & ((1 << LENGTH) - 1); }
static int by_code(const void *a, const void *b) {
	uint32_t p = *(const uint32_t *)a, q = *(const uint32_t *)b;
	return (p > q) - (p < q);
}

static void make_opcodes(void) {
	for (uint32_t row = 0; row < OPCODES; row++) {
		opcodes[row].code = opcode(row);
		opcodes[row].row = row;
	}
	qsort(opcodes, OPCODES, sizeof *opcodes, by_code);
	for (int i = 0; i < DEVICES; i++)
		many_opcodes[i] = (Chip){ .tdo = -1, .has_trst = 1, .length = LENGTH, .latch = (1u << LENGTH) - 1, .core = zeros(1), .boundary = zeros(1), .update = zeros(1) };
}

static void both_edges(Chip *c, int tms, int tdi) {
	rise(c, tms, tdi);
	fall(c);
}

static uint64_t run_decode_32(void) {
	uint64_t check = 0, number = 1;
	count = 0;
	for (Chip *c = many_opcodes; c < many_opcodes + DEVICES; c++) {
		both_edges(c, 0, 0);
		for (uint64_t turn = 0; turn < SCANS; turn++) {
			number = number * 6364136223846793005ull + 1442695040888963407ull;
			uint64_t random = number >> (64 - LENGTH);
			uint32_t instruction = turn % 2 ? opcode(random % OPCODES) : (uint32_t)random;
			for (const char *p = "1100"; *p; p++) both_edges(c, *p - '0', 0);
			for (int i = 0; i < LENGTH; i++) both_edges(c, i + 1 == LENGTH, instruction >> i & 1);
			both_edges(c, 1, 0);
			both_edges(c, 0, 0);
			count += 2 * (LENGTH + 6);
			if (c->selects_boundary) check += turn;
		}
	}
	return check;
}

// ---- whole plays

enum { SCAN = 65536 };
typedef struct { int state, latch, stage, bypass, tdo; } Bare;
static Bare bare[32];
static int bare_count, bare_tck;

static void bare_edge(int tck, int tms, int tdi) {
	if (tck && !bare_tck) {
		for (int i = 0; i < bare_count; i++) {
			Bare *d = &bare[i];
			int in = i + 1 < bare_count ? bare[i + 1].tdo != 0 : tdi;
			switch (d->state) {
			case DR_CAPTURE: d->bypass = 0; break;
			case DR_SHIFT: d->bypass = in; break;
			case IR_CAPTURE: d->stage = 1; break;
			case IR_SHIFT: d->stage = d->stage >> 1 | in << 1; break;
			}
			d->state = after[d->state][tms];
		}
	} else if (!tck && bare_tck) {
		for (int i = 0; i < bare_count; i++) {
			Bare *d = &bare[i];
			if (d->state == RESET) d->latch = 3;
			if (d->state == IR_UPDATE) d->latch = d->stage;
			d->tdo = d->state == DR_SHIFT ? d->bypass : d->state == IR_SHIFT ? d->stage & 1 : -1;
		}
	}
	bare_tck = tck;
}

static int bare_byte(int byte) { // the answer, or -1
	if (byte == 'R') return bare[0].tdo != 0;
	if (byte >= '0' && byte <= '7') bare_edge(byte >> 2 & 1, byte >> 1 & 1, byte & 1);
	return -1;
}

// A scan whose bits are all wanted, each byte taken by the devices as soon as it is made.
static uint64_t run_play(int devices) {
	uint64_t passed = 1;
	size_t n = 0;
	bare_count = devices;
	bare_tck = 0;
	for (int i = 0; i < devices; i++) bare[i] = (Bare){ RESET, 3, 0, 0, -1 };
	for (const char *p = "r26262626260" "04260404"; *p; p++, n++) bare_byte(*p);
	for (size_t i = 0; i < SCAN; i++, n += 3) {
		int tms = i + 1 == SCAN;
		bare_byte('0' + 2 * tms);
		if (bare_byte('R') != 0) passed = 0;
		bare_byte('4' + 2 * tms);
	}
	for (const char *p = "26040" "Q"; *p; p++, n++) bare_byte(*p);
	count = n;
	return passed;
}

// ---- the same scan by a player and a board with a pipe of bounded room each way

typedef struct { unsigned char *bytes; size_t room, first, len; } Pipe;

static int push(Pipe *p, int byte) { // whether there was room
	if (p->len == p->room) return 0;
	size_t at = p->first + p->len;
	p->bytes[at < p->room ? at : at - p->room] = byte;
	p->len++;
	return 1;
}

static int pop(Pipe *p) { // the next byte, or -1
	if (p->len == 0) return -1;
	int byte = p->bytes[p->first];
	p->first = p->first + 1 < p->room ? p->first + 1 : 0;
	p->len--;
	return byte;
}

enum { WINDOW = 256 };
static const char before[] = "r26262626260" "04260404", behind[] = "26040";
static struct { size_t at, bit, phase, owed, heard; int failed, over; } sender;

// The next byte of the play, 0 where it waits for answers: of no more than 256 may the player be owed, and `Q` waits for all.
static int next_of_play(void) {
	if (sender.at < sizeof before - 1) return before[sender.at];
	if (sender.bit < SCAN) {
		int tms = sender.bit + 1 == SCAN;
		if (sender.phase == 1) return sender.owed == WINDOW ? 0 : 'R';
		return (sender.phase == 0 ? '0' : '4') + 2 * tms;
	}
	if (sender.at < sizeof before + sizeof behind - 2) return behind[sender.at - (sizeof before - 1)];
	return sender.owed ? 0 : 'Q';
}

static void pass_byte(int byte) {
	if (byte == 'R') sender.owed++;
	if (byte == 'Q') sender.over = 1;
	if (sender.at < sizeof before - 1 || sender.bit == SCAN) sender.at++;
	else if (++sender.phase == 3) sender.phase = 0, sender.bit++;
}

static uint64_t run_finish(size_t room) {
	Pipe down = { malloc(room), room, 0, 0 }, up = { malloc(room), room, 0, 0 };
	Bits wanted = zeros(SCAN);
	size_t n = 0;
	int byte;
	bare_count = 1;
	bare_tck = 0;
	bare[0] = (Bare){ RESET, 3, 0, 0, -1 };
	memset(&sender, 0, sizeof sender);
	while (!sender.over && !sender.failed) {
		while (!sender.over && (byte = next_of_play()) && push(&down, byte)) pass_byte(byte), n++;
		while (up.len < up.room && (byte = pop(&down)) >= 0) {
			int answer = bare_byte(byte);
			if (answer >= 0) push(&up, '0' + answer);
		}
		while ((byte = pop(&up)) >= 0) {
			if (byte - '0' != (int)(wanted.words[sender.heard / 64] >> sender.heard % 64 & 1)) sender.failed = 1;
			sender.heard++;
			sender.owed--;
		}
	}
	count = n;
	free(down.bytes);
	free(up.bytes);
	free(wanted.words);
	return !sender.failed;
}
static uint64_t run_finish_1(void) { return run_finish(1); }
static uint64_t run_finish_64(void) { return run_finish(64); }
static uint64_t run_finish_65536(void) { return run_finish(65536); }

// The same play a hundred times.
enum { PLAYS = 100 };
static uint64_t run_plays(int devices) {
	uint64_t passed = 0;
	for (int i = 0; i < PLAYS; i++) passed += run_play(devices);
	count *= PLAYS;
	return passed;
}
static uint64_t run_plays_1(void) { return run_plays(1); }
static uint64_t run_plays_32(void) { return run_plays(32); }

static uint64_t run_next_bytes(void) {
	uint8_t *b = buffer;
	for (const char *p = "r26262626260" "04260404"; *p; p++) *b++ = *p;
	for (size_t i = 0; i < SCAN; i++)
		b = cycle(b, i + 1 == SCAN, 0, 0);
	for (const char *p = "26040" "Q"; *p; p++) *b++ = *p;
	count = b - buffer;
	return digest(count);
}

// ---- boards of devices in a ring, the eight outputs of each on the inputs of the next

enum { BUS = 8, INPUTS = 0, CONTROL = 8, OUTPUTS = 9, RING_CELLS = 17, RING_SHIFTS = 100000, RING_UPDATES = 10000 };
enum Drive { NOTHING, STRONG_0, STRONG_1, WEAK_0, WEAK_1 };
typedef struct { int from, to; } Net; // the pins of the net by number
static Chip ring[256];
static int ring_count, ring_tck;
enum { LINE = 25, WIDTH = 40, LINE_CELLS = 2 * WIDTH, LINE_UPDATES = 2000, LINE_SHIFTS = 8 }; // of the line of devices below
static Net nets[256 * BUS];
static enum Drive drives[512 * BUS]; // of each pin: 2 n is an output, 2 n + 1 an input
static uint64_t ring_bytes, ring_check;

static int drive_bit(const Chip *c, size_t cell) { return c->latch == 0 ? get(&c->update, cell) : get(&c->core, cell); }

static void put_drives(void) {
	for (int i = 0; i < ring_count; i++)
		for (int k = 0; k < BUS; k++)
			drives[2 * (i * BUS + k)] = !drive_bit(&ring[i], CONTROL) ? NOTHING : drive_bit(&ring[i], OUTPUTS + k) ? STRONG_1 : STRONG_0;
}

static int net_reads(const Net *n) {
	int drivers[5] = { 0 };
	drivers[drives[n->from]]++;
	drivers[drives[n->to]]++;
	if (drivers[STRONG_0] || drivers[STRONG_1]) return !drivers[STRONG_0];
	return !drivers[WEAK_0];
}

static void set(Bits *b, size_t i, int bit) {
	size_t p = place(b, i);
	b->words[p / 64] = (b->words[p / 64] & ~(1ull << p % 64)) | (uint64_t)bit << p % 64;
}

static void ring_rise(int tms, int tdi) {
	int tdos[257];
	for (int i = 0; i < ring_count; i++) tdos[i] = ring[i].tdo != 0;
	tdos[ring_count] = tdi;
	for (int i = 0; i < ring_count; i++) {
		Chip *c = &ring[i];
		if (c->state == DR_CAPTURE && c->selects_boundary)
			for (int k = 0; k < BUS; k++)
				set(&c->core, INPUTS + k, net_reads(&nets[((i + ring_count - 1) % ring_count) * BUS + k]));
		rise(c, tms, tdos[i + 1]);
	}
}

static void ring_fall(void) {
	int anew = 0;
	for (int i = 0; i < ring_count; i++) {
		int state = ring[i].state;
		anew |= state == DR_UPDATE || state == IR_UPDATE || state == RESET;
		fall(&ring[i]);
	}
	if (anew) put_drives();
}

static void ring_byte(int byte) {
	ring_bytes++;
	if (byte == 'R') {
		if (ring[0].tdo != 0) ring_check += ring_bytes;
		return;
	}
	int tck = byte >> 2 & 1;
	if (tck && !ring_tck) ring_rise(byte >> 1 & 1, byte & 1);
	else if (!tck && ring_tck) ring_fall();
	ring_tck = tck;
}

static void ring_walk(const char *path) {
	for (; *path; path++) {
		ring_byte('0' + 2 * (*path - '0'));
		ring_byte('4' + 2 * (*path - '0'));
	}
}

static void ring_asked(int tms, int tdi) {
	ring_byte('0' + 2 * tms + tdi);
	ring_byte('R');
	ring_byte('4' + 2 * tms + tdi);
}

static void make_ring(int devices) {
	ring_count = devices;
	ring_tck = 0;
	for (int i = 0; i < devices; i++) {
		ring[i] = (Chip){ .tdo = -1, .length = 2, .latch = 3, .core = zeros(RING_CELLS), .boundary = zeros(RING_CELLS), .update = zeros(RING_CELLS) };
		for (int k = 0; k < BUS; k++) {
			int net = i * BUS + k;
			nets[net] = (Net){ 2 * net, 2 * net + 1 };
			drives[2 * net] = drives[2 * net + 1] = NOTHING;
		}
	}
}

static void under_extest(int devices) {
	if (ring_count != devices) make_ring(devices);
	ring_bytes = ring_check = 0;
	ring_walk("1111101100");
	for (int i = 1; i < devices; i++) ring_walk("00");
	ring_walk("0111");
}

static uint64_t run_shift(int devices) {
	under_extest(devices);
	ring_walk("00");
	for (int i = 0; i < RING_SHIFTS; i++) ring_asked(0, i % 3 == 0);
	count = ring_bytes;
	return ring_check;
}

static uint64_t run_update(int devices) {
	under_extest(devices);
	for (int i = 0; i < RING_UPDATES; i++) {
		ring_walk("00");
		ring_asked(1, i % 3 == 0);
		ring_walk("11");
	}
	count = ring_bytes;
	return ring_check;
}
static uint64_t run_shift_1(void) { return run_shift(1); }
static uint64_t run_shift_8(void) { return run_shift(8); }
static uint64_t run_shift_32(void) { return run_shift(32); }
static uint64_t run_shift_256(void) { return run_shift(256); }
static uint64_t run_update_1(void) { return run_update(1); }
static uint64_t run_update_8(void) { return run_update(8); }
static uint64_t run_update_32(void) { return run_update(32); }
static uint64_t run_update_256(void) { return run_update(256); }

// ---- a line of devices: what the last drives goes along all to the first, nearest TDO, by a string for each bit and device

static Chip line[LINE]; // its inputs at the lower cells, the last of them first, and its outputs at the upper
static int line_tck;

static void make_line(void) {
	for (int i = 0; i < LINE; i++) {
		line[i] = (Chip){ .tdo = -1, .length = 2, .latch = 3, .core = zeros(LINE_CELLS), .boundary = zeros(LINE_CELLS), .update = zeros(LINE_CELLS) };
		for (int k = 0; k < WIDTH; k++) {
			int net = i * WIDTH + k; // on which the outputs of a device lie, and the inputs of the one before it
			nets[net] = (Net){ 2 * net, 2 * net + 1 };
			drives[2 * net] = drives[2 * net + 1] = NOTHING;
		}
	}
	line_tck = 0;
}

static int input(int i, int k) { return i + 1 == LINE ? 1 : net_reads(&nets[(i + 1) * WIDTH + k]); }
static void put_output(int i, int k) { drives[2 * (i * WIDTH + k)] = drive_bit(&line[i], WIDTH + k) ? STRONG_1 : STRONG_0; }

static void put_line(void) {
	for (int i = 0; i < LINE; i++)
		for (int k = 0; k < WIDTH; k++) put_output(i, k);
	for (int i = LINE - 1; i >= 0; i--)
		for (int k = 0; k < WIDTH; k++) {
			set(&line[i].core, WIDTH + k, input(i, k));
			put_output(i, k);
		}
}

static void line_edge(int tck, int tms, int tdi) {
	if (tck && !line_tck) {
		int tdos[LINE + 1];
		for (int i = 0; i < LINE; i++) tdos[i] = line[i].tdo != 0;
		tdos[LINE] = tdi;
		for (int i = 0; i < LINE; i++) {
			Chip *c = &line[i];
			if (c->state == DR_CAPTURE && c->selects_boundary)
				for (int k = 0; k < WIDTH; k++) set(&c->core, WIDTH - 1 - k, input(i, k));
			rise(c, tms, tdos[i + 1]);
		}
	} else if (!tck && line_tck) {
		int anew = 0;
		for (int i = 0; i < LINE; i++) {
			int state = line[i].state;
			anew |= state == DR_UPDATE || state == IR_UPDATE || state == RESET;
			fall(&line[i]);
		}
		if (anew) put_line();
	}
	line_tck = tck;
}

static void line_cycle(int tms, int tdi, int ask) {
	line_edge(0, tms, tdi);
	ring_bytes += 2;
	if (ask && line[0].tdo != 0) ring_check += ring_bytes;
	ring_bytes += ask;
	line_edge(1, tms, tdi);
}

static void line_walk(const char *path) {
	for (; *path; path++) line_cycle(*path - '0', 0, 0);
}

static uint64_t run_follow_1000(void) {
	ring_bytes = ring_check = 0;
	line_walk("1111101100");
	line_cycle(0, 1, 0); // SAMPLE into the first
	line_cycle(0, 0, 0);
	for (int i = 2; i < 2 * LINE - 2; i++) line_cycle(0, 1, 0);
	line_walk("0111"); // EXTEST into the last
	for (int i = 0; i < LINE_UPDATES; i++) {
		line_walk("00");
		for (int k = 1; k < LINE_SHIFTS; k++) line_cycle(0, (i + k) % 3 == 0, 1);
		line_cycle(1, i % 5 == 0, 1);
		line_walk("11");
	}
	count = ring_bytes;
	return ring_check;
}

// ---- descriptions of devices: a text is cut into words, names are sorted in upper case, and cells look their ports up

enum { TEXT_LIMIT = 4 * 1024 * 1024, FIRST_PORT = 1000, PORTS = 8000, SEEN = 4096, LONG = 490 };

static size_t write_description(char *text, const char *start, int cells) {
	static const char constant[] = "  constant Limit : integer := 12;\n";
	char *at = text;
	at += sprintf(at, "entity W is\n  port (TDI, TMS, TCK : in bit; TDO : out bit");
	for (int i = 0; i < PORTS; i++)
		at += sprintf(at, "; %s%d : in bit", start, FIRST_PORT + i);
	at += sprintf(at, ");\n"
		"  attribute TAP_SCAN_IN of TDI : signal is true;\n"
		"  attribute TAP_SCAN_MODE of TMS : signal is true;\n"
		"  attribute TAP_SCAN_OUT of TDO : signal is true;\n"
		"  attribute TAP_SCAN_CLOCK of TCK : signal is (10.0e6, BOTH);\n"
		"  attribute INSTRUCTION_LENGTH of W : entity is 2;\n"
		"  attribute INSTRUCTION_OPCODE of W : entity is \"BYPASS (11), EXTEST (00), SAMPLE (01)\";\n"
		"  attribute INSTRUCTION_CAPTURE of W : entity is \"01\";\n");
	at += sprintf(at, "  attribute BOUNDARY_LENGTH of W : entity is %d;\n  attribute BOUNDARY_REGISTER of W : entity is\n    \"\"", cells);
	for (int i = 0; i < cells; i++)
		at += sprintf(at, " &\n    \"%d (BC_4, %s%d, input, X),\"", i, start, FIRST_PORT + i);
	at += sprintf(at, ";\n");
	while ((size_t)(at - text) + 2 * strlen(constant) <= TEXT_LIMIT)
		at += sprintf(at, "%s", constant);
	at += sprintf(at, "end W;\n");
	return at - text;
}

typedef struct { const char *at, *end; } Lexer;
typedef struct { const char *text; size_t len; } Word; // none at the end

static int in_word(int c) { return isalnum(c) || c == '_' || c == '.'; }

static Word next_word(Lexer *l) {
	for (;;) {
		while (l->at < l->end && isspace((unsigned char)*l->at)) l->at++;
		if (l->end - l->at < 2 || l->at[0] != '-' || l->at[1] != '-') break;
		while (l->at < l->end && *l->at != '\n' && *l->at != '\r') l->at++;
	}
	const char *start = l->at;
	if (start == l->end) return (Word){ start, 0 };
	if (*start == '"') {
		do l->at++; while (l->at < l->end && *l->at != '"');
		l->at++;
	} else if (isalnum((unsigned char)*start)) {
		while (l->at < l->end && in_word((unsigned char)*l->at)) l->at++;
	} else {
		l->at++;
	}
	return (Word){ start, l->at - start };
}

static int is(Word w, const char *text) { return w.len == strlen(text) && !strncasecmp(w.text, text, w.len); }

typedef struct { Word name; size_t bit; } PortName;

static int by_name(const void *a, const void *b) {
	const PortName *x = a, *y = b;
	size_t len = x->name.len < y->name.len ? x->name.len : y->name.len;
	int order = strncasecmp(x->name.text, y->name.text, len);
	return order ? order : (x->name.len > y->name.len) - (x->name.len < y->name.len);
}

// The rows of the boundary register: a number and a port each.
static uint64_t check_cells(Lexer l, const PortName *ports, size_t port_count) {
	uint64_t check = port_count;
	for (;;) {
		Word number = next_word(&l);
		if (!number.len) return check;
		uint64_t cell = strtoull(number.text, 0, 10);
		for (int i = 0; i < 3; i++) next_word(&l); // ( name ,
		PortName port = { next_word(&l), 0 };
		const PortName *found = bsearch(&port, ports, port_count, sizeof port, by_name);
		if (found) check += (cell + 1) * (found->bit + 1);
		for (int i = 0; i < 5; i++) next_word(&l); // , function , value )
		next_word(&l);
	}
}

static uint64_t read_description(const char *text, size_t len) {
	static PortName ports[PORTS + 4];
	static char cells[TEXT_LIMIT];
	size_t port_count = 0, cells_len = 0;
	Lexer l = { text, text + len };
	Word w = next_word(&l);
	while (!is(w, "port")) w = next_word(&l);
	next_word(&l);
	for (w = next_word(&l); *w.text != ')'; w = next_word(&l)) { // name {, name} : mode kind ;
		if (*w.text == ':') {
			next_word(&l);
			next_word(&l);
		} else if (*w.text != ',' && *w.text != ';') {
			ports[port_count] = (PortName){ w, port_count };
			port_count++;
		}
	}
	qsort(ports, port_count, sizeof *ports, by_name);
	for (size_t i = 1; i < port_count; i++)
		if (!by_name(&ports[i - 1], &ports[i])) return 0;
	for (w = next_word(&l); !is(w, "end"); w = next_word(&l)) {
		int is_cells = is(w, "attribute") && is(next_word(&l), "BOUNDARY_REGISTER");
		for (w = next_word(&l); *w.text != ';'; w = next_word(&l)) {
			if (is_cells && *w.text == '"') {
				memcpy(cells + cells_len, w.text + 1, w.len - 2);
				cells_len += w.len - 2;
			}
		}
	}
	return check_cells((Lexer){ cells, cells + cells_len }, ports, port_count);
}

static char many[TEXT_LIMIT + 1], alike[TEXT_LIMIT + 1];
static size_t many_len, alike_len;
static uint64_t run_bsdl_read(void) { count = many_len; return read_description(many, many_len); }
static uint64_t run_bsdl_alike(void) { count = alike_len; return read_description(alike, alike_len); }

// ---- texts of SVF: cut into tokens, read as statements of STATE and of scans, each with states or bits of its own

enum { PATHS = 100000, SHORT_SCANS = 50000, LONG_SCANS = 60, LONG_DIGITS = 16384 };

typedef struct { size_t len; Bits fields[4]; unsigned char *states; size_t state_count; } Statement;

static int in_run(int c) { return isalnum(c) || c == '.' || c == '+' || c == '-' || c == '_'; }

static Word next_token(Lexer *l) { // a run, `(`, `)` or `;`; none at the end and at a fault
	for (;;) {
		while (l->at < l->end && isspace((unsigned char)*l->at)) l->at++;
		if (l->at == l->end || (*l->at != '!' && (*l->at != '/' || l->end - l->at < 2 || l->at[1] != '/'))) break;
		while (l->at < l->end && *l->at != '\n' && *l->at != '\r') l->at++;
	}
	const char *start = l->at;
	if (start == l->end) return (Word){ start, 0 };
	if (in_run((unsigned char)*start)) while (l->at < l->end && in_run((unsigned char)*l->at)) l->at++;
	else if (*start == '(' || *start == ')' || *start == ';') l->at++;
	return (Word){ start, l->at - start };
}

static int is_mark(Word w, char mark) { return w.len == 1 && *w.text == mark; }

static int which_of(Word w, const char *const *words, int n) { // -1 where it is none
	for (int i = 0; i < n; i++)
		if (is(w, words[i])) return i;
	return -1;
}

// The bits that the last of these digits write, or none where one is no digit or has a 1 beyond.
static int read_bits(Bits *bits, const char *digits, size_t n, size_t len) {
	size_t written = 4 * n < len ? 4 * n : len;
	*bits = (Bits){ malloc((written + 63) / 64 * 8), (written + 63) / 64, 0, written };
	memset(bits->words, 0, bits->count * 8);
	for (size_t i = 0; i < n; i++) {
		int v = value(digits[n - 1 - i]);
		if (v > 15 || (4 * i + 4 > len && v >> (4 * i < len ? len - 4 * i : 0))) return 0;
		if (4 * i < written) bits->words[i / 16] |= (uint64_t)v << 4 * (i % 16);
	}
	return 1;
}

static int read_scan(Statement *s, Lexer *l) {
	static const char *const names[] = { "TDI", "TDO", "MASK", "SMASK" };
	Word w = next_token(l);
	for (size_t i = 0; i < w.len; i++) {
		if (w.text[i] < '0' || w.text[i] > '9' || i == 18) return 0;
		s->len = 10 * s->len + (w.text[i] - '0');
	}
	if (!w.len || s->len > 1 << 20) return 0;
	for (w = next_token(l); !is_mark(w, ';'); w = next_token(l)) {
		int field = which_of(w, names, 4);
		if (field < 0 || s->fields[field].words || !is_mark(next_token(l), '(')) return 0;
		Word digits = next_token(l);
		if (!digits.len || !in_run(*digits.text) || !is_mark(next_token(l), ')')) return 0; // one run
		if (!read_bits(&s->fields[field], digits.text, digits.len, s->len)) return 0;
	}
	return 1;
}

static int read_path(Statement *s, Lexer *l) {
	static const char *const names[] = { "IDLE", "RESET", "DRPAUSE", "IRPAUSE", "DRSELECT", "DRCAPTURE", "DRSHIFT", "DREXIT1",
		"DREXIT2", "DRUPDATE", "IRSELECT", "IRCAPTURE", "IRSHIFT", "IREXIT1", "IREXIT2", "IRUPDATE" };
	size_t room = 0;
	for (Word w = next_token(l); !is_mark(w, ';'); w = next_token(l)) {
		int state = which_of(w, names, 16);
		if (state < 0) return 0;
		if (s->state_count == room) s->states = realloc(s->states, room = room ? 2 * room : 8);
		s->states[s->state_count++] = state;
	}
	return s->state_count != 0;
}

static uint64_t read_svf(const char *text, size_t len) {
	static const char *const commands[] = { "SDR", "SIR", "RUNTEST", "STATE", "ENDDR", "ENDIR", "FREQUENCY", "HDR", "HIR", "TDR",
		"TIR", "TRST", "PIO", "PIOMAP" };
	Lexer l = { text, text + len };
	Statement *all = 0;
	size_t n = 0, room = 0;
	uint64_t check = 0;
	int good = 1;
	for (Word w = next_token(&l); good && w.len; w = next_token(&l)) {
		if (n == room) all = realloc(all, (room = room ? 2 * room : 4) * sizeof *all);
		all[n] = (Statement){ 0 };
		int command = which_of(w, commands, 14);
		good = command == 0 ? read_scan(&all[n], &l) : command == 3 ? read_path(&all[n], &l) : 0;
		n++;
	}
	for (size_t i = 0; i < n; i++) {
		check += 1 + all[i].state_count;
		free(all[i].states);
		for (int k = 0; k < 4; k++) {
			Bits *b = &all[i].fields[k];
			if (b->len) check += b->len + 2 * (b->words[0] & 1);
			free(b->words);
		}
	}
	free(all);
	count = len;
	return good ? check : 0;
}

static char *states_text, *short_text, *long_text;
static size_t states_len, short_len, long_len;

static char *write_digits(char *at, int n) {
	for (; n; n--) *at++ = "0123456789ABCDEF"[next_number() & 15];
	return at;
}

static void make_texts(void) {
	char *at = states_text = malloc(PATHS * 12);
	for (int i = 0; i < PATHS; i++) at += sprintf(at, "STATE IDLE;");
	states_len = at - states_text;
	last = FIRST_NUMBER;
	at = short_text = malloc(SHORT_SCANS * 32);
	for (int i = 0; i < SHORT_SCANS; i++) {
		at = write_digits(at + sprintf(at, "SDR 8 TDI ("), 2);
		at = write_digits(at + sprintf(at, ") TDO ("), 2);
		at += sprintf(at, ");\n");
	}
	short_len = at - short_text;
	last = FIRST_NUMBER;
	at = long_text = malloc(LONG_SCANS * (LONG_DIGITS + 32));
	for (int i = 0; i < LONG_SCANS; i++) {
		at = write_digits(at + sprintf(at, "SDR 65536 TDI ("), LONG_DIGITS);
		at += sprintf(at, ");\n");
	}
	long_len = at - long_text;
}
static uint64_t run_svf_states(void) { return read_svf(states_text, states_len); }
static uint64_t run_svf_short(void) { return read_svf(short_text, short_len); }
static uint64_t run_svf_long(void) { return read_svf(long_text, long_len); }

static void row(const char *name, const char *unit, uint64_t (*round)(void)) {
	uint64_t least = UINT64_MAX, check = 0;
	for (int r = 0; r < ROUNDS; r++) {
		struct timespec a, b;
		clock_gettime(CLOCK_MONOTONIC, &a);
		check = round();
		clock_gettime(CLOCK_MONOTONIC, &b);
		uint64_t t = (b.tv_sec - a.tv_sec) * 1000000000ull + b.tv_nsec - a.tv_nsec;
		if (t < least) least = t;
	}
	printf("%s %s %llu %zu %llu\n", name, unit, (unsigned long long)least, count, (unsigned long long)check);
}

int main(void) {
	reg = mixed(REGISTER, 5);
	got = mixed(VECTOR, 5);
	want = zeros(VECTOR);
	mask = zeros(VECTOR);
	for (size_t k = 0; k < got.count; k++) {
		want.words[k] = word(&got, k);
		mask.words[k] = ~0ull;
	}
	want.words[want.count - 1] ^= 1ull << 63;
	for (size_t k = 0; k < VECTOR / 4; k++)
		digits[VECTOR / 4 - 1 - k] = "0123456789ABCDEF"[word(&got, k / 16) >> (4 * (k % 16)) & 15];
	to = mixed(VECTOR, 11);
	row("shift_in", "bit", run_shift_in);
	row("first_bad", "bit", run_first_bad);
	row("from_hex", "bit", run_from_hex);
	row("copy_bits", "bit", run_copy_bits);
	make_vector();
	row("vector_bits", "bit", run_vector_bits);
	row("judge", "bit", run_judge);
	row("scan_bytes", "byte", run_scan_bytes);
	row("run_bytes", "byte", run_run_bytes);
	make_chip();
	row("chip_shift", "edge", run_chip_shift);
	make_opcodes();
	row("decode_32", "edge", run_decode_32);
	row("next_bytes", "byte", run_next_bytes);
	row("finish_1", "byte", run_finish_1);
	row("finish_64", "byte", run_finish_64);
	row("finish_65536", "byte", run_finish_65536);
	row("play_1", "byte", run_plays_1); // by edges
	row("edges_1", "byte", run_plays_1);
	row("play_32", "byte", run_plays_32); // by edges
	row("edges_32", "byte", run_plays_32);
	row("shift_1", "byte", run_shift_1);
	row("update_1", "byte", run_update_1);
	row("shift_8", "byte", run_shift_8);
	row("update_8", "byte", run_update_8);
	row("shift_32", "byte", run_shift_32);
	row("update_32", "byte", run_update_32);
	row("shift_256", "byte", run_shift_256);
	row("update_256", "byte", run_update_256);
	make_line();
	row("follow_1000", "byte", run_follow_1000);
	char start[LONG + 1] = { 0 };
	memset(start, 'N', LONG);
	many_len = write_description(many, "P", SEEN);
	alike_len = write_description(alike, start, 1);
	make_texts();
	row("svf_states", "byte", run_svf_states);
	row("svf_short", "byte", run_svf_short);
	row("svf_long", "byte", run_svf_long);
	row("bsdl_read", "byte", run_bsdl_read);
	row("bsdl_alike", "byte", run_bsdl_alike);
	return 0;
}
