/* The text of `midiseq dump` by a plain C program: for a comparison of speed alone, so a file that is damaged is refused
   with no reason. Reads the whole file, keeps a place for each track, and looks at all tracks for the next event. */
#include <stdint.h>
#include <stdio.h>
#include <stdlib.h>
#include <string.h>

typedef struct {
	const uint8_t *at, *end;
	uint64_t tick;
	uint8_t running;
	/* the next message: its bytes, or for an exclusive one F0 and what follows it */
	const uint8_t *data;
	uint32_t size;
	uint8_t status;
	int over;
} Track;

typedef struct { uint64_t tick; uint32_t tempo; } Tempo;

static const char DIGITS[] = "0123456789ABCDEF";
static char text[65536 + 256];
static size_t used;

static void flush(void)
{
	if (fwrite(text, 1, used, stdout) != used)
		exit(1);
	used = 0;
}

static void room(void)
{
	if (used >= 65536)
		flush();
}

static void decimal(uint64_t n)
{
	char digits[20];
	int at = 20;
	do {
		digits[--at] = '0' + n % 10;
		n /= 10;
	} while (n);
	memcpy(text + used, digits + at, 20 - at);
	used += 20 - at;
}

static void word(const char *s)
{
	size_t n = strlen(s);
	memcpy(text + used, s, n);
	used += n;
}

static void hex(uint8_t b)
{
	text[used++] = ' ';
	text[used++] = DIGITS[b >> 4];
	text[used++] = DIGITS[b & 15];
}

static void refuse(void)
{
	exit(1);
}

static uint32_t quantity(Track *t)
{
	uint32_t value = 0;
	for (int i = 0; i < 4; i++) {
		if (t->at == t->end)
			refuse();
		uint8_t b = *t->at++;
		value = value << 7 | (b & 127);
		if (b < 128)
			return value;
	}
	refuse();
	return 0;
}

static int whole_exclusive(const uint8_t *data, uint32_t size)
{
	if (size == 0 || size > 65537 || data[size - 1] != 0xF7)
		return 0;
	for (uint32_t i = 0; i + 1 < size; i++)
		if (data[i] >= 128)
			return 0;
	return 1;
}

static Tempo *tempos;
static size_t tempo_count, tempo_room;
static uint64_t skipped;

/* goes on to the next message; the first time round (`reading`) tempos are kept and what is skipped is counted */
static int next(Track *t, int reading)
{
	for (;;) {
		if (t->at == t->end)
			refuse();
		t->tick += quantity(t);
		if (t->at == t->end)
			refuse();
		uint8_t b = *t->at;
		if (b < 240) {
			uint8_t status = b < 128 ? t->running : b;
			if (!status)
				refuse();
			if (b >= 128)
				t->at++;
			uint32_t size = status >= 0xC0 && status < 0xE0 ? 1 : 2;
			if ((size_t)(t->end - t->at) < size)
				refuse();
			for (uint32_t i = 0; i < size; i++)
				if (t->at[i] >= 128)
					refuse();
			t->status = t->running = status;
			t->data = t->at;
			t->size = size;
			t->at += size;
			return 1;
		}
		t->at++;
		t->running = 0;
		int kind = -1;
		if (b == 255) {
			if (t->at == t->end)
				refuse();
			kind = *t->at++;
		} else if (b != 0xF0 && b != 0xF7) {
			refuse();
		}
		uint32_t size = quantity(t);
		if ((size_t)(t->end - t->at) < size)
			refuse();
		const uint8_t *data = t->at;
		t->at += size;
		if (kind == 0x2F) {
			t->over = 1;
			return 0;
		}
		if (b == 0xF0 && whole_exclusive(data, size)) {
			t->status = b;
			t->data = data;
			t->size = size;
			return 1;
		}
		if (!reading)
			continue;
		if (b != 255) {
			skipped++;
		} else if (kind == 0x51) {
			uint32_t tempo = size == 3 ? data[0] << 16 | data[1] << 8 | data[2] : 0;
			if (!tempo) {
				skipped++;
				continue;
			}
			if (tempo_count == tempo_room) {
				tempo_room = tempo_room ? 2 * tempo_room : 16;
				tempos = realloc(tempos, tempo_room * sizeof *tempos);
			}
			tempos[tempo_count++] = (Tempo){t->tick, tempo};
		}
	}
}

static int by_tick(const void *a, const void *b)
{
	uint64_t x = ((const Tempo *)a)->tick, y = ((const Tempo *)b)->tick;
	return x < y ? -1 : x > y ? 1 : a < b ? -1 : 1;
}

int main(int argc, char **argv)
{
	FILE *f = argc > 1 ? fopen(argv[1], "rb") : 0;
	if (!f)
		refuse();
	fseek(f, 0, SEEK_END);
	size_t size = ftell(f);
	rewind(f);
	uint8_t *bytes = malloc(size + 1);
	if (size < 14 || fread(bytes, 1, size, f) != size || memcmp(bytes, "MThd", 4))
		refuse();
	unsigned format = bytes[8] << 8 | bytes[9], count = bytes[10] << 8 | bytes[11], division = bytes[12] << 8 | bytes[13];
	Track *tracks = calloc(count + 1, sizeof *tracks);
	const uint8_t *at = bytes + 14, *end = bytes + size;
	tempos = malloc(16 * sizeof *tempos);
	tempo_room = 16;
	tempos[tempo_count++] = (Tempo){0, 500000};
	for (unsigned i = 0; i < count;) {
		if (end - at < 8)
			refuse();
		uint32_t length = (uint32_t)at[4] << 24 | at[5] << 16 | at[6] << 8 | at[7];
		if ((size_t)(end - at - 8) < length)
			refuse();
		if (!memcmp(at, "MTrk", 4)) {
			Track t = {at + 8, at + 8 + length, 0, 0, 0, 0, 0, 0};
			tracks[i] = t;
			while (next(&t, 1))
				;
			next(&tracks[i++], 0);
		}
		at += 8 + length;
	}
	if (tempo_count > 1)
		qsort(tempos, tempo_count, sizeof *tempos, by_tick);
	word("format ");
	decimal(format);
	word(" tracks ");
	decimal(count);
	word(" division ");
	decimal(division);
	text[used++] = '\n';
	for (size_t i = 0; i < tempo_count; i++) {
		if (i + 1 < tempo_count && tempos[i + 1].tick == tempos[i].tick)
			continue;
		word("tempo ");
		decimal(tempos[i].tick);
		text[used++] = ' ';
		decimal(tempos[i].tempo);
		text[used++] = '\n';
		room();
	}
	for (;;) {
		Track *first = 0;
		for (unsigned i = 0; i < count; i++)
			if (!tracks[i].over && (!first || tracks[i].tick < first->tick))
				first = &tracks[i];
		if (!first)
			break;
		decimal(first->tick);
		hex(first->status);
		for (uint32_t i = 0; i < first->size; i++) {
			hex(first->data[i]);
			room();
		}
		text[used++] = '\n';
		room();
		next(first, 0);
	}
	word("skipped ");
	decimal(skipped);
	text[used++] = '\n';
	flush();
	return 0;
}
