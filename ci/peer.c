// A server of the remote_bitbang protocol that shares no code with the program: one device as ci/boards/k.bsdl describes it, alone
// and on no net. It listens on a port of 127.0.0.1 that the system chooses, prints it, serves one connection, and prints the
// bytes that it took. How it serves, its words say:
//
//     whole           answers as soon as it was asked
//     late MS         so many milliseconds after it was asked
//     pieces          takes one byte a read and gives one a write
//     wrong N         gives x in the place of the Nth answer
//     close N         closes once it has taken N bytes
//     silent          takes all and answers nothing
//     full            takes no connection: those that wait already are as many as may wait
#include <arpa/inet.h>
#include <fcntl.h>
#include <netinet/in.h>
#include <netinet/tcp.h>
#include <signal.h>
#include <stdint.h>
#include <stdio.h>
#include <stdlib.h>
#include <string.h>
#include <sys/socket.h>
#include <unistd.h>

// ---- the device
enum {
	RESET, IDLE, DRSELECT, DRCAPTURE, DRSHIFT, DREXIT1, DRPAUSE, DREXIT2, DRUPDATE,
	IRSELECT, IRCAPTURE, IRSHIFT, IREXIT1, IRPAUSE, IREXIT2, IRUPDATE
};
static const int next_state[16][2] = {
	[RESET] = {IDLE, RESET},           [IDLE] = {IDLE, DRSELECT},
	[DRSELECT] = {DRCAPTURE, IRSELECT}, [DRCAPTURE] = {DRSHIFT, DREXIT1}, [DRSHIFT] = {DRSHIFT, DREXIT1},
	[DREXIT1] = {DRPAUSE, DRUPDATE},    [DRPAUSE] = {DRPAUSE, DREXIT2},   [DREXIT2] = {DRSHIFT, DRUPDATE},
	[DRUPDATE] = {IDLE, DRSELECT},
	[IRSELECT] = {IRCAPTURE, RESET},    [IRCAPTURE] = {IRSHIFT, IREXIT1}, [IRSHIFT] = {IRSHIFT, IREXIT1},
	[IREXIT1] = {IRPAUSE, IRUPDATE},    [IRPAUSE] = {IRPAUSE, IREXIT2},   [IREXIT2] = {IRSHIFT, IRUPDATE},
	[IRUPDATE] = {IDLE, DRSELECT},
};
enum { EXTEST, SAMPLE, IDCODE, BYPASS }; // by their opcodes

static int state = RESET, latch = IDCODE, tck, tdo = 1;
static uint32_t instruction; // the stage of two bits
static uint32_t stage[4];    // of the data register that each instruction selects; the first two are one
static const uint32_t captured[4] = {4, 4, 0x01234567, 0}; // the core is 000, and the pin of D reads 1
static const int length[4] = {3, 3, 32, 1};

static uint32_t shifted(uint32_t bits, int len, int tdi) {
	return bits >> 1 | (uint32_t)tdi << (len - 1);
}

static void clock_to(int high, int tms, int tdi) {
	uint32_t *data = &stage[latch == SAMPLE ? EXTEST : latch];
	if (high && !tck) {
		if (state == DRCAPTURE) *data = captured[latch];
		if (state == DRSHIFT) *data = shifted(*data, length[latch], tdi);
		if (state == IRCAPTURE) instruction = 1;
		if (state == IRSHIFT) instruction = shifted(instruction, 2, tdi);
		state = next_state[state][tms];
	} else if (!high && tck) {
		if (state == RESET) latch = IDCODE;
		if (state == IRUPDATE) latch = (int)instruction;
		tdo = state == DRSHIFT ? *data & 1 : state == IRSHIFT ? instruction & 1 : 1;
	}
	tck = high;
}

// ---- the server
static const char *how;
static long number, taken, given;

static int listening(int queue) {
	struct sockaddr_in at = {.sin_family = AF_INET, .sin_addr.s_addr = htonl(INADDR_LOOPBACK)};
	socklen_t size = sizeof at;
	int fd = socket(AF_INET, SOCK_STREAM, 0);
	if (fd < 0 || bind(fd, (struct sockaddr *)&at, size) || listen(fd, queue) || getsockname(fd, (struct sockaddr *)&at, &size)) {
		perror("peer");
		exit(2);
	}
	if (!strcmp(how, "full"))
		for (int k = 0; k < 4; k++) {
			int waiting = socket(AF_INET, SOCK_STREAM, 0);
			fcntl(waiting, F_SETFL, O_NONBLOCK);
			connect(waiting, (struct sockaddr *)&at, size);
		}
	printf("%d\n", ntohs(at.sin_port));
	fflush(stdout);
	return fd;
}

static void answer(int fd, const char *bytes, size_t n) {
	if (!strcmp(how, "silent") || !n) return;
	if (!strcmp(how, "late")) usleep(1000 * (useconds_t)number);
	size_t most = !strcmp(how, "pieces") ? 1 : n;
	for (size_t done = 0; done < n;) {
		ssize_t got = write(fd, bytes + done, n - done < most ? n - done : most);
		if (got <= 0) return;
		done += (size_t)got;
	}
}

// Takes the bytes, up to the one at which it must close. Says whether it goes on.
static int serve(int fd, const char *bytes, ssize_t n) {
	static char answers[65536];
	size_t owed = 0;
	int goes_on = 1;
	for (ssize_t k = 0; k < n && goes_on; k++) {
		char byte = bytes[k];
		taken++;
		putchar(byte);
		if (byte >= '0' && byte <= '7') clock_to((byte - '0') >> 2 & 1, (byte - '0') >> 1 & 1, (byte - '0') & 1);
		if (byte == 'R') answers[owed++] = !strcmp(how, "wrong") && ++given == number ? 'x' : (char)('0' + tdo);
		goes_on = strcmp(how, "close") || taken < number;
	}
	answer(fd, answers, owed);
	return goes_on;
}

int main(int count, char **words) {
	static char bytes[65536];
	how = count > 1 ? words[1] : "whole";
	number = count > 2 ? atol(words[2]) : 0;
	signal(SIGPIPE, SIG_IGN);
	alarm(60); // no test takes so long
	int door = listening(strcmp(how, "full") ? 1 : 0);
	while (!strcmp(how, "full")) pause();
	int fd = accept(door, NULL, NULL), at_once = 1;
	setsockopt(fd, IPPROTO_TCP, TCP_NODELAY, &at_once, sizeof at_once);
	fputs("bytes ", stdout);
	ssize_t n;
	while ((n = read(fd, bytes, strcmp(how, "pieces") ? sizeof bytes : 1)) > 0 && serve(fd, bytes, n)) {}
	close(fd);
	puts("");
	return 0;
}
