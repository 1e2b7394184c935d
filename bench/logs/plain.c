/* The logs of the session of bench/logs/run by a plain C program: for a comparison of speed and memory alone. It reads no
   script, but goes through what the session does, keeps an entry for each line of a client's log, and prints all at the
   end. */
#include <stdint.h>
#include <stdio.h>
#include <stdlib.h>
#include <string.h>

#define LINES 12500
#define NOTES 10
#define FILTERS 8
#define PORTS 16
#define APART 1000
#define PIECE 65536
#define REPLY 255

static const char DIGITS[] = "0123456789ABCDEF";

/* a reply has REPLY for its port, the line of its script, and how many messages the line sent, if it says so */
struct entry {
	uint64_t moment;
	uint32_t line;
	uint8_t port;
	uint8_t bytes[3];
};

struct log {
	struct entry *entries;
	size_t size, room;
};

static char text[PIECE + 128];
static size_t used;

static void add(struct log *log, struct entry entry)
{
	if (log->size == log->room) {
		log->room = log->room ? 2 * log->room : 4;
		log->entries = realloc(log->entries, log->room * sizeof(entry));
		if (!log->entries)
			exit(1);
	}
	log->entries[log->size++] = entry;
}

static void replied(struct log *log, uint64_t moment, uint32_t line, uint8_t sent)
{
	add(log, (struct entry){ moment, line, REPLY, { sent } });
}

static void flush(void)
{
	if (fwrite(text, 1, used, stdout) != used)
		exit(1);
	used = 0;
}

static void words(const char *said)
{
	size_t size = strlen(said);
	memcpy(text + used, said, size);
	used += size;
}

static void number(uint64_t n)
{
	char digits[20];
	size_t at = sizeof(digits);
	do {
		digits[--at] = '0' + n % 10;
		n /= 10;
	} while (n);
	memcpy(text + used, digits + at, sizeof(digits) - at);
	used += sizeof(digits) - at;
}

static void print_entry(const struct entry *entry)
{
	number(entry->moment);
	if (entry->port == REPLY) {
		words(" line ");
		number(entry->line);
		words(" ok");
		if (entry->bytes[0]) {
			words(" ");
			number(entry->bytes[0]);
		}
	} else {
		words(" port ");
		number(entry->port);
		for (int i = 0; i < 3; i++) {
			text[used++] = ' ';
			text[used++] = DIGITS[entry->bytes[i] >> 4];
			text[used++] = DIGITS[entry->bytes[i] & 15];
		}
	}
	text[used++] = '\n';
	if (used >= PIECE)
		flush();
}

static void print_log(int client, const struct log *log)
{
	words("client ");
	number(client);
	words("\n");
	for (size_t i = 0; i < log->size; i++)
		print_entry(&log->entries[i]);
}

int main(void)
{
	static struct log sender, listener;
	uint32_t line = 0;
	for (; line < 2 + 2 * FILTERS; line++)
		replied(&sender, 0, line + 1, 0);
	for (uint32_t i = 0; i < 2 + PORTS * (1 + FILTERS); i++)
		replied(&listener, 0, i + 1, 0);
	for (uint32_t said = 0; said < LINES; said++) {
		uint64_t moment = (uint64_t)(said + 1) * APART;
		for (uint32_t note = said * NOTES; note < (said + 1) * NOTES; note++)
			for (uint8_t raised = 0; raised < FILTERS; raised++)
				for (uint8_t port = 0; port < PORTS; port++)
					add(&listener, (struct entry){ moment, 0, port,
						{ 0x90, note * 7 % 120 + raised, 1 + note % 127 } });
		replied(&sender, moment, ++line, NOTES);
	}
	print_log(128, &sender);
	print_log(129, &listener);
	flush();
	return 0;
}
