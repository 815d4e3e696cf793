// Draws the waves of a made-up play as `play --vcd` does, byte for byte, the way a C program would: edge by edge, with a buffer of its own, and
// only what an edge can have changed is looked at.
//     bench_waves board DEVICES                               prints the board file: devices of ci/boards/k.bsdl on eight nets
//     bench_waves svf KIND DEVICES COUNT BITS                 prints the program: so many scans of so many bits (KIND long), or of up to as many (short)
//     bench_waves draw KIND DEVICES COUNT BITS WAVES          draws its waves; of one device, which is bare and has no board file
#include <fcntl.h>
#include <stdint.h>
#include <stdio.h>
#include <stdlib.h>
#include <string.h>
#include <unistd.h>

enum { MOST_DEVICES = 8, NETS = 8, CELLS = 3, MOST_BITS = 1 << 20, OPCODE = 2, DRAWN_RESTS = 128, USUAL_PERIOD = 1000000 };
enum { RESET, IDLE, DR_SELECT, DR_CAPTURE, DR_SHIFT, DR_EXIT1, DR_PAUSE, DR_EXIT2, DR_UPDATE,
	IR_SELECT, IR_CAPTURE, IR_SHIFT, IR_EXIT1, IR_PAUSE, IR_EXIT2, IR_UPDATE, STATES };
enum { EXTEST, SAMPLE, IDCODE, BYPASS };
enum { TCK, TMS, TDI, TDO, TRST, STATEMENT, FIRST_OF_DEVICES, OF_DEVICE = 3 }; // the variables by number

static const struct { uint8_t after[2], stable; const char *code, *word; } states[STATES] = {
	[RESET] = { { IDLE, RESET }, 1, "1111", "RESET" }, [IDLE] = { { IDLE, DR_SELECT }, 1, "1100", "IDLE" },
	[DR_SELECT] = { { DR_CAPTURE, IR_SELECT }, 0, "0111", "DRSELECT" }, [DR_CAPTURE] = { { DR_SHIFT, DR_EXIT1 }, 0, "0110", "DRCAPTURE" },
	[DR_SHIFT] = { { DR_SHIFT, DR_EXIT1 }, 0, "0010", "DRSHIFT" }, [DR_EXIT1] = { { DR_PAUSE, DR_UPDATE }, 0, "0001", "DREXIT1" },
	[DR_PAUSE] = { { DR_PAUSE, DR_EXIT2 }, 1, "0011", "DRPAUSE" }, [DR_EXIT2] = { { DR_SHIFT, DR_UPDATE }, 0, "0000", "DREXIT2" },
	[DR_UPDATE] = { { IDLE, DR_SELECT }, 0, "0101", "DRUPDATE" },
	[IR_SELECT] = { { IR_CAPTURE, RESET }, 0, "0100", "IRSELECT" }, [IR_CAPTURE] = { { IR_SHIFT, IR_EXIT1 }, 0, "1110", "IRCAPTURE" },
	[IR_SHIFT] = { { IR_SHIFT, IR_EXIT1 }, 0, "1010", "IRSHIFT" }, [IR_EXIT1] = { { IR_PAUSE, IR_UPDATE }, 0, "1001", "IREXIT1" },
	[IR_PAUSE] = { { IR_PAUSE, IR_EXIT2 }, 1, "1011", "IRPAUSE" }, [IR_EXIT2] = { { IR_SHIFT, IR_UPDATE }, 0, "1000", "IREXIT2" },
	[IR_UPDATE] = { { IDLE, DR_SELECT }, 0, "1101", "IRUPDATE" },
};

static void fail(const char *why) {
	fprintf(stderr, "bench_waves: %s\n", why);
	exit(1);
}

// ---- the board: U1 nearest TDO; of more than one each drives a net by its cell 0 while cell 1 is 1, and sees one by cell 2

typedef struct { // tdo is -1 where it is not driven, and data the stage of the selected register
	uint8_t state, was;
	int8_t tdo;
	uint8_t latch, drawn_latch, stage, core, update, drives; // drives: strong 0 is 1, strong 1 is 2
	uint32_t data;
} Chip;

static const char *const cores[] = { "011", "000", "010", "000" }; // in turn
static const char *const pulls[NETS] = { "up", "down", "none", "none", "up", "down", "none", "up" };
static Chip chips[MOST_DEVICES];
static char levels[NETS], drawn_levels[NETS];
static int devices, nets, clock_level, resting = 1;

static int net_seen(int k) { return (k & 1) ? NETS / 2 + k / 2 : k / 2; } // by input k; its output k is on net k / 2
static int reads(int k) { return levels[net_seen(k)] == '1' || levels[net_seen(k)] == 'z'; }
static int pattern(const char *core) { return (core[0] - '0') << 2 | (core[1] - '0') << 1 | (core[2] - '0'); }

static void find_levels(void) {
	for (int k = 0; k < devices; k++) {
		int bits = chips[k].latch == EXTEST ? chips[k].update : chips[k].core;
		chips[k].drives = bits >> 1 & 1 ? 1 << (bits & 1) : 0;
	}
	for (int n = 0; n < nets; n++) {
		int drives = 2 * n < devices ? chips[2 * n].drives | chips[2 * n + 1].drives : 0;
		levels[n] = drives == 3 ? 'x' : drives == 2 ? '1' : drives == 1 ? '0' : *pulls[n] == 'u' ? '1' : *pulls[n] == 'd' ? '0' : 'z';
	}
}

static int data_length(const Chip *c) { return !nets || c->latch == BYPASS ? 1 : c->latch == IDCODE ? 32 : CELLS; }

static uint32_t captured(int k) {
	const Chip *c = &chips[k];
	if (!nets || c->latch == BYPASS) return 0;
	return c->latch == IDCODE ? 0x01234567 : (uint32_t)((c->core & 3) | reads(k) << 2);
}

static void rise(int tms, int tdi) {
	resting = 1;
	for (int k = 0; k < devices; k++) {
		Chip *c = &chips[k];
		int in = k + 1 < devices ? chips[k + 1].tdo != 0 : tdi;
		switch (c->state) {
		case DR_CAPTURE: c->data = captured(k); break;
		case DR_SHIFT: c->data = c->data >> 1 | (uint32_t)in << (data_length(c) - 1); break;
		case IR_CAPTURE: c->stage = 1; break;
		case IR_SHIFT: c->stage = c->stage >> 1 | in << (OPCODE - 1); break;
		}
		c->was = c->state;
		c->state = states[c->state].after[tms];
		resting &= states[c->state].stable;
	}
}

// Answers whether an instruction or a level may have changed.
static int fall(void) {
	int anew = 0;
	for (int k = 0; k < devices; k++) {
		Chip *c = &chips[k];
		switch (c->state) {
		case DR_UPDATE: if (nets && c->latch <= SAMPLE) c->update = c->data, anew = 1; break;
		case IR_UPDATE: c->latch = c->stage, anew = 1; break;
		case RESET: c->latch = nets ? IDCODE : BYPASS, anew = 1; break;
		}
		c->tdo = c->state == DR_SHIFT ? (int)(c->data & 1) : c->state == IR_SHIFT ? c->stage & 1 : -1;
	}
	if (anew) find_levels();
	return anew;
}

static void power_up(void) {
	nets = devices > 1 ? NETS : 0;
	for (int k = 0; k < devices; k++)
		chips[k] = (Chip){ .state = RESET, .tdo = -1, .latch = nets ? IDCODE : BYPASS, .drawn_latch = nets ? IDCODE : BYPASS, .core = pattern(cores[k % 4]) };
	find_levels();
	memcpy(drawn_levels, levels, sizeof levels);
}

// ---- the file

enum { ROOM = 1 << 16, LONGEST = 1 << 10 }; // LONGEST: more than a message takes
static char buffer[ROOM], *at = buffer, pairs[200];
static int file;
static struct { char text[32]; uint8_t len; } state_lines[MOST_DEVICES][STATES];

static void flush(void) {
	for (char *from = buffer; from < at;) {
		ssize_t n = write(file, from, at - from);
		if (n <= 0) fail("the waves cannot be written");
		from += n;
	}
	at = buffer;
}

static char code(int n) { return '!' + n; } // of up to 94 variables

static void put_stamp(uint64_t time) {
	char digits[20], *front = digits + sizeof digits;
	for (; time >= 100; time /= 100) memcpy(front -= 2, pairs + 2 * (time % 100), 2);
	if (time >= 10) memcpy(front -= 2, pairs + 2 * time, 2);
	else *--front = '0' + time;
	size_t length = digits + sizeof digits - front;
	*at++ = '#';
	memcpy(at, front, length);
	at += length;
	*at++ = '\n';
}

static void put_level(int n, char level) {
	*at++ = level;
	*at++ = code(n);
	*at++ = '\n';
}

static char digit(int level, char none) { return level < 0 ? none : '0' + level; }

static void put_state(int k) {
	memcpy(at, state_lines[k][chips[k].state].text, sizeof state_lines[k]->text);
	at += state_lines[k][chips[k].state].len;
}

static void put_instruction(int k) {
	int latch = chips[k].drawn_latch = chips[k].latch;
	*at++ = 'b';
	*at++ = '0' + (latch >> 1);
	*at++ = '0' + (latch & 1);
	*at++ = ' ';
	*at++ = code(FIRST_OF_DEVICES + OF_DEVICE * k + 2);
	*at++ = '\n';
}

static void put_net(int n) {
	put_level(FIRST_OF_DEVICES + OF_DEVICE * devices + n, drawn_levels[n] = levels[n]);
}

static void put_heading(void) {
	at += sprintf(at, "$timescale 1 ps $end\n$scope module board $end\n$scope module tap $end\n");
	const char *const lines[] = { "TCK", "TMS", "TDI", "TDO", "TRST" };
	for (int n = TCK; n <= TRST; n++) at += sprintf(at, "$var wire 1 %c %s $end\n", code(n), lines[n]);
	at += sprintf(at, "$var integer 32 %c statement $end\n$upscope $end\n", code(STATEMENT));
	for (int k = 0; k < devices; k++) {
		int n = FIRST_OF_DEVICES + OF_DEVICE * k;
		at += sprintf(at, "$scope module U%d $end\n$var reg 4 %c U%d_state $end\n$var string 1 %c U%d_word $end\n$var reg %d %c U%d_instruction $end\n$upscope $end\n",
			k + 1, code(n), k + 1, code(n + 1), k + 1, OPCODE, code(n + 2), k + 1);
		for (int s = 0; s < STATES; s++)
			state_lines[k][s].len = sprintf(state_lines[k][s].text, "b%s %c\ns%s %c\n", states[s].code, code(n), states[s].word, code(n + 1));
	}
	for (int n = 0; n < nets; n++) at += sprintf(at, "$var wire 1 %c N%d $end\n", code(FIRST_OF_DEVICES + OF_DEVICE * devices + n), n);
	at += sprintf(at, "$upscope $end\n$enddefinitions $end\n#0\n$dumpvars\n0!\nx\"\nx#\nz$\n1%%\nb0 &\n");
	for (int k = 0; k < devices; k++) {
		put_state(k);
		put_instruction(k);
	}
	for (int n = 0; n < nets; n++) put_net(n);
	at += sprintf(at, "$end\n");
}

// ---- messages

static struct { int tck, tms, tdi, tdo, rested; uint64_t time; } drawn = { 0, -1, -1, -1, 0, 0 }; // TCK is -1 within a long rest
static uint64_t period = USUAL_PERIOD;
static unsigned statement; // its number

// The lines of an instant. After a rising edge states may have changed; after a falling one TDO, and where it did something instructions and nets.
static void put_changes(int tck, int tms, int tdi, int edge, int anew) {
	if (at > buffer + ROOM - LONGEST) flush();
	put_stamp(drawn.time);
	if (tck != drawn.tck) put_level(TCK, digit(tck, 'x'));
	if (tms != drawn.tms) put_level(TMS, digit(tms, 'x'));
	if (tdi != drawn.tdi) put_level(TDI, digit(tdi, 'x'));
	if (edge > 0) {
		for (int k = 0; k < devices; k++)
			if (chips[k].state != chips[k].was) put_state(k);
		return;
	}
	if (chips[0].tdo != drawn.tdo) put_level(TDO, digit(drawn.tdo = chips[0].tdo, 'z'));
	if (!anew) return;
	for (int k = 0; k < devices; k++)
		if (chips[k].latch != chips[k].drawn_latch) put_instruction(k);
	for (int n = 0; n < nets; n++)
		if (levels[n] != drawn_levels[n]) put_net(n);
}

static void put_levels(int tck, int tms, int tdi) {
	int edge = tck - clock_level, anew = 0;
	clock_level = tck;
	if (edge > 0) rise(tms, tdi);
	if (edge < 0) anew = fall();
	if (tms != drawn.tms || tdi != drawn.tdi || !resting) drawn.rested = 0;
	else if (drawn.rested <= DRAWN_RESTS) drawn.rested++;
	int shown = drawn.rested > DRAWN_RESTS ? -1 : tck;
	if (shown >= 0 || drawn.tck >= 0) put_changes(shown, tms, tdi, edge, anew);
	drawn.tck = shown;
	drawn.tms = tms;
	drawn.tdi = tdi;
	drawn.time += tck ? period / 2 : period - period / 2;
}

static void cycle(int tms, int tdi) {
	put_levels(0, tms, tdi);
	put_levels(1, tms, tdi);
}

static void walk(const char *path) { // a digit for the TMS of each state
	for (; *path; path++) cycle(*path - '0', 0);
}

// The number of a statement that has cycles.
static void put_statement(void) {
	if (at > buffer + ROOM - LONGEST) flush();
	put_stamp(drawn.time);
	*at++ = 'b';
	for (int i = 31 - __builtin_clz(statement); i >= 0; i--) *at++ = '0' + (statement >> i & 1);
	*at++ = ' ';
	*at++ = code(STATEMENT);
	*at++ = '\n';
}

static void close_step(void) { put_levels(0, 0, 0); }

static void open_play(void) {
	put_heading();
	put_stamp(0); // TRST, as it was
	drawn.time = period;
	walk("11111");
	close_step();
}

static void close_play(void) {
	put_stamp(drawn.time);
	if (drawn.tck < 0) put_level(TCK, '0' + clock_level);
	flush();
}

// ---- the program: told as a text, or drawn

static int is_told;
static uint8_t bits[MOST_BITS]; // of a scan, the first one in first
static uint64_t last = 88172645463325252ull;
static uint64_t random_number(void) { last ^= last << 13; last ^= last >> 7; last ^= last << 17; return last; }

static void scan(const char *command, const char *path, size_t length) {
	statement++;
	if (!is_told) {
		put_statement();
		walk(path);
		for (size_t i = 0; i < length; i++) cycle(i + 1 == length, bits[i]);
		walk("10");
		close_step();
		return;
	}
	printf("%s %zu TDI (", command, length);
	for (size_t i = (length + 3) / 4; i-- > 0;) {
		int value = 0;
		for (size_t j = 4 * i + 4; j-- > 4 * i;) value = 2 * value + (j < length && bits[j]);
		putchar("0123456789ABCDEF"[value]);
	}
	puts(");");
}

static void random_scan(const char *command, const char *path, size_t length) {
	for (size_t i = 0; i < length; i++) bits[i] = random_number() >> 40 & 1;
	scan(command, path, length);
}

static void rest(uint64_t cycles) {
	statement++;
	if (is_told) {
		printf("RUNTEST %llu TCK;\n", (unsigned long long)cycles);
		return;
	}
	put_statement();
	for (; cycles && drawn.tck >= 0; cycles--) cycle(0, 0);
	drawn.time += cycles * period;
	close_step();
}

static void tell(const char *text) {
	statement++;
	if (is_told) puts(text);
}

static void set_period(const char *text, uint64_t picoseconds) {
	tell(text);
	period = picoseconds;
}

static void go_to_idle(void) {
	tell("STATE IDLE;");
	if (is_told) return;
	put_statement();
	walk("0");
	close_step();
}

static void play_long(size_t count, size_t length) { // all devices in BYPASS
	set_period("FREQUENCY 1E7 HZ;", 100000);
	go_to_idle();
	memset(bits, 1, OPCODE * devices);
	scan("SIR", "1100", OPCODE * devices);
	for (size_t i = 0; i < count; i++) {
		random_scan("SDR", "100", length);
		rest(i % 2 ? 20 : 1000);
	}
}

static void play_short(size_t count, size_t most) {
	static const uint64_t rests[] = { 3, 30, 300, 1000000 };
	set_period("FREQUENCY 1.5E7 HZ;", 66667);
	go_to_idle();
	for (size_t i = 0; i < count; i++) {
		random_scan("SIR", "1100", OPCODE * devices);
		random_scan("SDR", "100", 1 + random_number() % most);
		random_scan("SDR", "100", 1 + random_number() % most);
		rest(rests[random_number() % 4]);
	}
}

// ---- the board file

static void tell_board(void) {
	for (int k = 0; k < devices; k++)
		printf("[[device]]\nname = \"U%d\"\nbsdl = \"ci/boards/k.bsdl\"\ncore = \"%s\"\n", k + 1, cores[k % 4]);
	for (int n = 0; n < NETS; n++) {
		printf("[[net]]\nname = \"N%d\"\npull = \"%s\"\npins = [", n, pulls[n]);
		for (int k = 0; k < devices; k++) {
			if (k / 2 == n) printf("\"U%d.Q\", ", k + 1);
			if (net_seen(k) == n) printf("\"U%d.D\", ", k + 1);
		}
		puts("]");
	}
}

int main(int argc, char **argv) {
	if (argc == 3 && !strcmp(argv[1], "board")) {
		devices = atoi(argv[2]);
		tell_board();
		return 0;
	}
	is_told = argc == 6 && !strcmp(argv[1], "svf");
	if (!is_told && !(argc == 7 && !strcmp(argv[1], "draw"))) fail("it takes: board DEVICES, svf KIND DEVICES COUNT BITS, draw KIND DEVICES COUNT BITS WAVES");
	int is_long = !strcmp(argv[2], "long");
	size_t count = atol(argv[4]), length = atol(argv[5]);
	devices = atoi(argv[3]);
	if (devices < 1 || devices > MOST_DEVICES || length < 1 || length > MOST_BITS) fail("too many devices or bits");
	for (int i = 0; i < 100; i++) pairs[2 * i] = '0' + i / 10, pairs[2 * i + 1] = '0' + i % 10;
	power_up();
	if (!is_told) {
		file = open(argv[6], O_WRONLY | O_CREAT | O_TRUNC, 0666);
		if (file < 0) fail("the waves cannot be made");
		open_play();
	}
	if (is_long) play_long(count, length);
	else play_short(count, length);
	if (!is_told) close_play();
	return 0;
}
