/* The text of `midiseq wire` and `midiseq thru` by a plain C program: for a comparison of speed alone. It parses the stream
   by hand, gathers the text in one buffer, and for `wire` keeps what the messages are written as until the end. */
#include <stdint.h>
#include <stdio.h>
#include <stdlib.h>
#include <string.h>

#define PIECE 65536
#define MOST_DATA 65536

static const char DIGITS[] = "0123456789ABCDEF";
/* an exclusive message has at most MOST_DATA + 2 bytes, each of three characters */
static char text[PIECE + 3 * MOST_DATA + 64];
static size_t used;

static uint8_t *written;
static size_t written_size, written_room;
static uint8_t in_force;
static int is_wire;

static void flush(void)
{
	if (fwrite(text, 1, used, stdout) != used)
		exit(1);
	used = 0;
}

static void hex(uint8_t b)
{
	text[used++] = DIGITS[b >> 4];
	text[used++] = DIGITS[b & 15];
}

static void write_back(const uint8_t *bytes, size_t size)
{
	uint8_t status = bytes[0];
	if (status < 0xF0 && status == in_force) {
		bytes++;
		size--;
	}
	if (status < 0xF8)
		in_force = status < 0xF0 ? status : 0;
	if (written_room - written_size < size) {
		written_room = 2 * (written_room + size);
		written = realloc(written, written_room);
		if (!written)
			exit(1);
	}
	memcpy(written + written_size, bytes, size);
	written_size += size;
}

static void message(const uint8_t *bytes, size_t size)
{
	if (!is_wire) {
		memcpy(text + used, "0 129:p0 ", 9);
		used += 9;
	}
	hex(bytes[0]);
	for (size_t i = 1; i < size; i++) {
		text[used++] = ' ';
		hex(bytes[i]);
	}
	text[used++] = '\n';
	if (used >= PIECE)
		flush();
	if (is_wire)
		write_back(bytes, size);
}

/* how many data bytes follow a status below F8 */
static int width(uint8_t status)
{
	if (status < 0xF0)
		return status >= 0xC0 && status < 0xE0 ? 1 : 2;
	return status == 0xF2 ? 2 : status == 0xF1 || status == 0xF3 ? 1 : 0;
}

static uint8_t block[MOST_DATA + 2];
static size_t held;
static int wanted, overlong;

static void end_exclusive(void)
{
	if (held && block[0] == 0xF0 && !overlong) {
		block[held++] = 0xF7;
		message(block, held);
	}
	held = 0;
	overlong = 0;
}

static void take(uint8_t b)
{
	if (b >= 0xF8) {
		if (b != 0xF9 && b != 0xFD)
			message(&b, 1);
	} else if (b >= 0x80) {
		end_exclusive();
		wanted = width(b);
		if (b == 0xF6)
			message(&b, 1);
		else if (b == 0xF0 || wanted)
			block[held++] = b;
	} else if (held && block[0] == 0xF0) {
		if (held < MOST_DATA + 1)
			block[held++] = b;
		else
			overlong = 1;
	} else if (held) {
		block[held++] = b;
		if (held > (size_t)wanted) {
			message(block, held);
			held = block[0] < 0xF0;
		}
	}
}

int main(int count, char **words)
{
	static uint8_t piece[PIECE];
	FILE *in = count == 3 ? fopen(words[2], "rb") : NULL;
	size_t n;

	if (!in)
		return 2;
	is_wire = !strcmp(words[1], "wire");
	while ((n = fread(piece, 1, sizeof piece, in)) > 0)
		for (size_t i = 0; i < n; i++)
			take(piece[i]);
	if (is_wire) {
		memcpy(text + used, "written", 7);
		used += 7;
		for (size_t i = 0; i < written_size; i++) {
			text[used++] = ' ';
			hex(written[i]);
			if (used >= PIECE)
				flush();
		}
		text[used++] = '\n';
	}
	flush();
	return 0;
}
