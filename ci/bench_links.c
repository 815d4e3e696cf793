// Both ends of a play over a socket in plain C, for bench: a client that makes the bytes of scans from their vectors, keeps up to 256
// answers owed and judges them, and a server with a chain of bare devices (ci/boards/p.bsdl), each a state, a latch, a stage and a bypass bit.
//
//     svf DEVICES SCANS WANTED           prints the SVF text: all devices into BYPASS, and scans of 65,536 bits, their bits all wanted or none
//     client PORT DEVICES SCANS WANTED   plays what that text says
//     server DEVICES                     prints its port, and serves one connection
//
// Client and server print the bytes that went to the server, their digest (with CHECK in the environment; else 0, since it takes time), and the
// nanoseconds: of the client from its first byte on until the server has closed, of the server from the first byte that comes until `Q`.
#include <arpa/inet.h>
#include <netinet/in.h>
#include <netinet/tcp.h>
#include <stdint.h>
#include <stdio.h>
#include <stdlib.h>
#include <string.h>
#include <sys/socket.h>
#include <time.h>
#include <unistd.h>

enum { SCAN = 65536, OWED = 256, ROOM = 65536 };

static uint64_t tdi[SCAN / 64], tdo[SCAN / 64];
static uint64_t sent, digest;
static int checks;

static uint64_t now(void) {
	struct timespec t;
	clock_gettime(CLOCK_MONOTONIC, &t);
	return 1000000000ull * (uint64_t)t.tv_sec + (uint64_t)t.tv_nsec;
}

static void fail(const char *what) {
	perror(what);
	exit(1);
}

static void count(const char *bytes, size_t n) {
	sent += n;
	for (size_t i = 0; checks && i < n; i++) digest = (digest << 5 | digest >> 59) ^ (uint8_t)bytes[i];
}

static void tell(uint64_t nanoseconds) {
	printf("%llu %llu %llu\n", (unsigned long long)sent, (unsigned long long)digest, (unsigned long long)nanoseconds);
}

static int bit(const uint64_t *of, size_t i) { return of[i / 64] >> (i % 64) & 1; }

// Bits that look random, and the same as many devices in BYPASS give them.
static void make_vectors(size_t devices) {
	uint64_t last = 88172645463325252ull;
	for (size_t k = 0; k < SCAN / 64; k++) {
		last ^= last << 13; last ^= last >> 7; last ^= last << 17;
		tdi[k] = last;
	}
	for (size_t i = devices; i < SCAN; i++) tdo[i / 64] |= (uint64_t)bit(tdi, i - devices) << (i % 64);
}

static void digits(const char *name, const uint64_t *of) {
	printf(" %s (", name);
	for (size_t k = SCAN / 64; k-- > 0;) printf("%016llX", (unsigned long long)of[k]);
	putchar(')');
}

static void svf(size_t devices, long scans, int wanted) {
	printf("SIR %zu TDI (", 2 * devices);
	for (size_t i = 0; i < 2 * devices; i += 4) putchar(2 * devices - i < 4 ? '3' : 'F');
	puts(");");
	for (long s = 0; s < scans; s++) {
		printf("SDR %d", SCAN);
		digits("TDI", tdi);
		if (wanted) digits("TDO", tdo);
		puts(";");
	}
}

// ---- the client
static int server_fd;
static char out[ROOM];
static size_t filled, owed, judged; // judged: how many answers of this scan were

static void flush(void) {
	for (size_t done = 0; done < filled;) {
		ssize_t n = send(server_fd, out + done, filled - done, MSG_NOSIGNAL);
		if (n <= 0) fail("send");
		done += (size_t)n;
	}
	count(out, filled);
	filled = 0;
}

static void hear(void) {
	char in[OWED];
	ssize_t n = recv(server_fd, in, owed, 0);
	if (n <= 0) fail("recv");
	for (ssize_t k = 0; k < n; k++)
		if (in[k] != '0' + bit(tdo, judged++)) fail("a wrong bit");
	owed -= (size_t)n;
}

static inline void cycle(int tms, int in, int read) {
	if (filled + 3 > ROOM) flush();
	if (read && owed == OWED) {
		flush();
		hear();
	}
	out[filled++] = (char)('0' + 2 * tms + in);
	if (read) {
		out[filled++] = 'R';
		owed++;
	}
	out[filled++] = (char)('4' + 2 * tms + in);
}

static void walk(const char *tms) {
	while (*tms) cycle(*tms++ - '0', 0, 0);
}

static void put(const char *bytes) {
	if (filled + strlen(bytes) > ROOM) flush();
	while (*bytes) out[filled++] = *bytes++;
}

static void play(size_t devices, long scans, int wanted) {
	put("r26262626260");
	walk("01100"); // from RESET over IDLE to IRSHIFT
	for (size_t i = 0; i < 2 * devices; i++) cycle(i + 1 == 2 * devices, 1, 0);
	walk("10");
	put("0");
	for (long s = 0; s < scans; s++) {
		walk("100");
		judged = 0;
		for (size_t i = 0; i < SCAN; i++) cycle(i + 1 == SCAN, bit(tdi, i), wanted);
		walk("10");
		put("0");
		flush();
		while (owed) hear(); // no statement begins before the last one is judged
	}
	put("Q");
	flush();
}

static void client(int port, size_t devices, long scans, int wanted) {
	struct sockaddr_in at = {.sin_family = AF_INET, .sin_port = htons((uint16_t)port), .sin_addr.s_addr = htonl(INADDR_LOOPBACK)};
	int at_once = 1;
	char end;
	server_fd = socket(AF_INET, SOCK_STREAM, 0);
	if (server_fd < 0 || connect(server_fd, (struct sockaddr *)&at, sizeof at)) fail("connect");
	setsockopt(server_fd, IPPROTO_TCP, TCP_NODELAY, &at_once, sizeof at_once);
	uint64_t begun = now();
	play(devices, scans, wanted);
	if (recv(server_fd, &end, 1, 0) != 0) fail("bytes that were not asked for");
	tell(now() - begun);
}

// ---- the server
enum {
	RESET, IDLE, DR_SELECT, DR_CAPTURE, DR_SHIFT, DR_EXIT1, DR_PAUSE, DR_EXIT2, DR_UPDATE,
	IR_SELECT, IR_CAPTURE, IR_SHIFT, IR_EXIT1, IR_PAUSE, IR_EXIT2, IR_UPDATE
};
static const uint8_t after[16][2] = {
	{IDLE, RESET}, {IDLE, DR_SELECT}, {DR_CAPTURE, IR_SELECT}, {DR_SHIFT, DR_EXIT1}, {DR_SHIFT, DR_EXIT1},
	{DR_PAUSE, DR_UPDATE}, {DR_PAUSE, DR_EXIT2}, {DR_SHIFT, DR_UPDATE}, {IDLE, DR_SELECT},
	{IR_CAPTURE, RESET}, {IR_SHIFT, IR_EXIT1}, {IR_SHIFT, IR_EXIT1},
	{IR_PAUSE, IR_UPDATE}, {IR_PAUSE, IR_EXIT2}, {IR_SHIFT, IR_UPDATE}, {IDLE, DR_SELECT},
};
static struct { int state, latch, stage, bypass, tdo; } chip[32];
static int chips, tck;

static void edge(int high, int tms, int in) {
	if (high && !tck)
		for (int i = 0; i < chips; i++) {
			int from = i + 1 < chips ? chip[i + 1].tdo : in;
			switch (chip[i].state) {
			case DR_CAPTURE: chip[i].bypass = 0; break;
			case DR_SHIFT: chip[i].bypass = from; break;
			case IR_CAPTURE: chip[i].stage = 1; break;
			case IR_SHIFT: chip[i].stage = chip[i].stage >> 1 | from << 1; break;
			}
			chip[i].state = after[chip[i].state][tms];
		}
	else if (!high && tck)
		for (int i = 0; i < chips; i++) {
			if (chip[i].state == RESET) chip[i].latch = 3;
			if (chip[i].state == IR_UPDATE) chip[i].latch = chip[i].stage;
			chip[i].tdo = chip[i].state == DR_SHIFT ? chip[i].bypass : chip[i].state == IR_SHIFT ? chip[i].stage & 1 : 1;
		}
	tck = high;
}

static void serve(int fd) {
	static char in[ROOM], answers[ROOM];
	uint64_t begun = 0;
	for (;;) {
		ssize_t n = recv(fd, in, sizeof in, 0);
		if (n <= 0) fail("the client is gone");
		if (!begun) begun = now();
		size_t given = 0;
		int ended = 0;
		for (ssize_t k = 0; k < n; k++) {
			if (in[k] >= '0' && in[k] <= '7') edge(in[k] >> 2 & 1, in[k] >> 1 & 1, in[k] & 1);
			else if (in[k] == 'R') answers[given++] = (char)('0' + chip[0].tdo);
			else if (in[k] == 'Q') ended = 1;
			else if (!strchr("rBb", in[k])) fail("a byte of no meaning here");
		}
		for (size_t done = 0; done < given;) {
			ssize_t m = send(fd, answers + done, given - done, MSG_NOSIGNAL);
			if (m <= 0) fail("send");
			done += (size_t)m;
		}
		count(in, (size_t)n);
		if (ended) break;
	}
	uint64_t took = now() - begun;
	close(fd);
	tell(took);
}

static void server(int devices) {
	struct sockaddr_in at = {.sin_family = AF_INET, .sin_addr.s_addr = htonl(INADDR_LOOPBACK)};
	socklen_t size = sizeof at;
	int door = socket(AF_INET, SOCK_STREAM, 0), at_once = 1;
	chips = devices;
	for (int i = 0; i < chips; i++) chip[i].tdo = 1;
	if (door < 0 || bind(door, (struct sockaddr *)&at, size) || listen(door, 1) || getsockname(door, (struct sockaddr *)&at, &size)) fail("listen");
	printf("%d\n", ntohs(at.sin_port));
	fflush(stdout);
	int fd = accept(door, NULL, NULL);
	if (fd < 0) fail("accept");
	setsockopt(fd, IPPROTO_TCP, TCP_NODELAY, &at_once, sizeof at_once);
	serve(fd);
}

int main(int n, char **words) {
	checks = getenv("CHECK") != NULL;
	alarm(600); // no row takes so long
	if (n == 3 && !strcmp(words[1], "server")) server(atoi(words[2]));
	else if (n == 5 && !strcmp(words[1], "svf")) {
		make_vectors((size_t)atoi(words[2]));
		svf((size_t)atoi(words[2]), atol(words[3]), atoi(words[4]));
	} else if (n == 6 && !strcmp(words[1], "client")) {
		make_vectors((size_t)atoi(words[3]));
		client(atoi(words[2]), (size_t)atoi(words[3]), atol(words[4]), atoi(words[5]));
	} else return 2;
	return 0;
}
