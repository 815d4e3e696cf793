// Bridges of nets, judged by words in plain C, for ci/bench_cover. Each net is driven by one pin and read by another one, and a
// word of a net has a bit for each of up to 64 captures. Prints the seconds, and how many bridges are caught in all four ways.
#include <stdint.h>
#include <stdio.h>
#include <stdlib.h>
#include <string.h>
#include <time.h>

typedef struct { uint64_t zero, one, weak, wanted, stays; } Planes;

static size_t nets, scans, digits;
static Planes *planes;
static size_t *spots; // at each capture the place of the first wanted bit that is taken from a net

// What a scan drives a net to: the digits of its number and then the other way round, or one net after another.
static int is_one(const char *kind, size_t scan, size_t net) {
	if (!strcmp(kind, "walk"))
		return net == scan;
	size_t step = scan % (2 * digits);
	return step < digits ? net >> step & 1 : !(net >> (step - digits) & 1);
}

static void make_planes(const char *kind) {
	for (size_t net = 0; net < nets; net++) {
		planes[net] = (Planes){ .zero = 1 };
		for (size_t k = 1; k < scans; k++) {
			*(is_one(kind, k - 1, net) ? &planes[net].one : &planes[net].zero) |= 1ull << k;
			planes[net].wanted |= 1ull << k;
			spots[k * nets + net] = net;
		}
	}
}

// What ports see.
static uint64_t sees(uint64_t zero, uint64_t one, uint64_t weak) { return ~zero & (one | ~weak); }

// The capture and the place of the bit that fails first with a bridge, together; -1 where none does, -2 where that is not told.
static int64_t ending(size_t i, size_t j, int way) {
	const Planes *a = &planes[i], *b = &planes[j];
	uint64_t zero = a->zero | b->zero, one = a->one | b->one, opposed = zero & one;
	uint64_t led = way == 0 ? 0 : way == 1 ? ~0ull : way == 2 ? a->one & ~a->zero : b->one & ~b->zero;
	uint64_t after = (opposed & led) | (~opposed & sees(zero, one, a->weak | b->weak));
	uint64_t first = sees(a->zero, a->one, a->weak) ^ after, second = sees(b->zero, b->one, b->weak) ^ after;
	uint64_t caught = (first & a->wanted) | (second & b->wanted);
	uint64_t told = caught | (first & a->stays) | (second & b->stays);
	if (!told)
		return -1;
	int k = __builtin_ctzll(told);
	if (!(caught >> k & 1))
		return -2;
	int has_first = (first & a->wanted) >> k & 1, has_second = (second & b->wanted) >> k & 1;
	size_t one_at = spots[k * nets + i], other_at = spots[k * nets + j];
	return (int64_t)(scans * (has_first && (!has_second || one_at < other_at) ? one_at : other_at) + k);
}

int main(int count, char **words) {
	if (count != 4 || (scans = strtoul(words[2], NULL, 10)) > 64)
		return 2;
	nets = strtoul(words[1], NULL, 10);
	while (nets >> digits)
		digits++;
	planes = malloc(nets * sizeof *planes);
	spots = calloc(nets * scans, sizeof *spots);
	make_planes(words[3]);
	struct timespec start, end;
	clock_gettime(CLOCK_MONOTONIC, &start);
	size_t caught = 0;
	uint64_t check = 0;
	for (size_t i = 0; i < nets; i++)
		for (size_t j = i + 1; j < nets; j++) {
			int ways = 0;
			for (int way = 0; way < 4; way++) {
				int64_t its = ending(i, j, way);
				ways += its >= 0;
				check += its;
			}
			caught += ways == 4;
		}
	clock_gettime(CLOCK_MONOTONIC, &end);
	printf("%f %zu %llu\n", end.tv_sec - start.tv_sec + (end.tv_nsec - start.tv_nsec) / 1e9, caught, (unsigned long long)check);
	return 0;
}
